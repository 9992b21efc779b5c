#!/usr/bin/env bash
# Runs the clients that are on this machine with the program, and compares what they find with what they find by z3.
#
#     clients/check.sh PROGRAM
#
# It installs nothing, and says which clients are here; README.md says how to get the others. What a client sends is kept: `certify` runs
# it once more, and `check` has to find each proof valid. Each difference is printed, and the script then ends with status 1. It ends with
# status 2 where there is no z3, or no client at all.
set -euo pipefail

if [ $# -ne 1 ]; then
    sed -n '2,8s/^# \{0,1\}//p' "$0" >&2
    exit 2
fi
program=$(realpath -- "$1")
cd "$(dirname "$0")"
folder=$(mktemp -d)
trap 'rm -rf "$folder"' EXIT
mkdir "$folder/path"
ln -s "$program" "$folder/path/smt_cli"
export PATH=$folder/path:$PATH

clients=0 runs=0 proofs=0 wrong=0

# Tells of something that came out otherwise.
differs() {
    wrong=$((wrong + 1))
    echo "differs: $*"
}

# Tells whether a command is there that something needs, and says what is missing.
has() {
    if type -P "$2" >"$folder/where"; then return 0; fi
    echo "$1: not here, as there is no $2"
    return 1
}

# Tells whether a library of Haskell is there, and says what is missing.
has_library() {
    has "$1" ghc || return 1
    if [ -n "$(ghc-pkg list --simple-output "$1")" ]; then return 0; fi
    echo "$1: not here, as ghc has no such library"
    return 1
}

# Gives the proofs of a script to `check`, one for each answer `unsat`.
check_proofs() {
    local k=0 answer
    smt_cli certify "$1" >"$folder/certified" || true
    while read -r answer; do
        k=$((k + 1))
        if [ "$answer" != unsat ]; then continue; fi
        proofs=$((proofs + 1))
        awk -v k="$k" '/^(sat|unsat|unknown)$/ {n++} n == k; n == k && /^\)$/ {exit}' "$folder/certified" >"$folder/proof"
        [ "$(smt_cli check --at "$k" "$1" "$folder/proof")" = valid ] || differs "the proof of check $k of ${1##*/}"
    done < <(grep -Ex 'sat|unsat|unknown' "$folder/certified")
}

# Tells whether the program answers a command before its input ends, three seconds later.
answers_at_once() {
    rm -f "$folder/ended"
    if {
        echo '(echo "here")'
        sleep 3
        : >"$folder/ended"
    } | smt_cli solve | {
        read -r _
        [ ! -e "$folder/ended" ]
    }; then return 0; fi
    differs "$1: not run, as the program answers nothing before its input ends"
    return 1
}

# Runs a program that asks what follows, and compares what it writes with what z3 made it write.
ask() {
    runs=$((runs + 1))
    timeout 60 "$@" >"$folder/output" || differs "status of $*"
    diff "$folder/wanted" "$folder/output" || differs "$*"
}

# Runs Why3 as its page says, without the user's own configuration.
run_why3() {
    (cd why3 && why3 --config=/dev/null --extra-config=why3.conf "$@")
}

# Asks Why3 for the goal `between`, which is true, of a prover that writes this line, then `unsat`, and ends with this status.
refuse() {
    mkdir -p "$folder/refusing"
    printf '#!/bin/sh\necho '"'%s'"'\necho unsat\nexit %s\n' "$1" "$2" >"$folder/refusing/smt_cli"
    chmod +x "$folder/refusing/smt_cli"
    runs=$((runs + 1))
    PATH=$folder/refusing:$PATH run_why3 prove -P smt_cli goals.mlw -T Monotone -G between >"$folder/output" || true
    grep -q 'Prover result is: Unknown' "$folder/output" || differs "why3: \`unsat\` after \`$1\`, with status $2, is not unknown"
}

check_why3() {
    local script answer status
    has why3 why3 || return 0
    clients=$((clients + 1))
    why3 --version
    run_why3 replay --quiet goals || differs "the session of why3"
    mkdir "$folder/scripts"
    run_why3 prove -P smt_cli -a split_vc -o "$folder/scripts" goals.mlw
    for script in "$folder"/scripts/*.smt2; do
        runs=$((runs + 1)) status=0
        answer=$(smt_cli solve "$script") || status=$?
        case $script in
            */goals-Outside-*) [ "$status" = 1 ] || differs "${script##*/}: status $status" ;;
            *) [ "$answer" = "$(z3 "$script")" ] || differs "${script##*/}: $answer" ;;
        esac
        if [ "$status" = 0 ]; then check_proofs "$script"; fi
    done
    # Each of the two that tell of a refusal has to be enough.
    refuse '(error "1:1: BadShape")' 0
    refuse success 1
}

check_simple_smt() {
    local program=$folder/Measures
    has_library simple-smt || return 0
    clients=$((clients + 1))
    echo "simple-smt: $(ghc-pkg list --simple-output simple-smt)"
    answers_at_once simple-smt || return 0
    ghc -v0 -outputdir "$folder/objects" -o "$program" simple-smt/Measures.hs
    "$program" z3 -smt2 -in >"$folder/wanted"
    if has "simple-smt by cvc5" cvc5; then ask "$program" cvc5 --lang smt2 --incremental; fi
    ask "$program" smt_cli solve
    ask "$program" bash -c "exec smt_cli solve < <(tee '$folder/measures.smt2')"
    check_proofs "$folder/measures.smt2"
}

check_sbv() {
    local program=$folder/Tariffs session
    has_library sbv || return 0
    clients=$((clients + 1))
    echo "sbv: $(ghc-pkg list --simple-output sbv)"
    answers_at_once sbv || return 0
    ghc -v0 -outputdir "$folder/objects-sbv" -o "$program" sbv/Tariffs.hs
    "$program" z3 >"$folder/wanted"
    ask "$program" smt_cli solve
    # Each model and each proof is asked for in a session of its own.
    ask "$program" bash -c "exec smt_cli solve < <(tee '$folder/tariffs.'\$\$.smt2)"
    for session in "$folder"/tariffs.*.smt2; do check_proofs "$session"; done
}

if ! has "what to compare with" z3; then exit 2; fi
check_why3
check_simple_smt
check_sbv
echo "$clients clients, $runs runs, $proofs proofs, $wrong wrong"
if [ "$clients" -eq 0 ]; then exit 2; fi
[ "$wrong" -eq 0 ]
