#!/usr/bin/env bash
# Runs each row of the folders, and compares what the program writes, and its status, with the row.
#
#     examples/check.sh EXECUTABLE
#
# Tables in README.md: arguments are those after the program's name; after ` < ` comes the file that is standard input. An output is one
# line, or the name of a file that has it to the byte, or nothing. Where a row of `solve` or `certify` begins with the line `unsat`, all
# that `certify` writes for the same arguments is given to `check` as the proof, and has to be `valid`. Where it begins with `sat`, and
# `certify` writes one model and nothing else, all of that is given to `validate`, and has to be `valid`, too.
#
# Files NAME.rows: a row has three or four parts, set apart by lines `----`: its runs, a line each; the script; the proof or model, if there
# is one; what is written. A script or a proof `=` is that of the row before. A line `====` is between rows. A run is a status and the
# arguments, from the program's name on, with `|` between them; after tabs may come the names of the script and of the proof, which are
# else `script.smt2` and `proof.alethe`, and how many bytes the script has with spaces after it. Standard input is a text of no name, or
# the script where it has its usual name. A line alone that ends with ` ..` stands for each line that begins with what is before.
#
# Files NAME.lines: an answer, a tab, and what a script states. `solve` gives the answer. What `certify` writes is judged in the same way.
#
# Each row that comes out otherwise is printed, and the script then ends with status 1.
set -euo pipefail

if [ $# -ne 1 ]; then
    sed -n '2,20s/^# \{0,1\}//p' "$0" >&2
    exit 2
fi
executable=$(realpath -- "$1")
cd "$(dirname "$0")"
folder=$(mktemp -d)
trap 'rm -rf "$folder"' EXIT

rows=0 proofs=0 models=0 wrong=0

# The text of a cell, without the spaces and the quotes round it.
cell() {
    local text
    read -r text <<<"$1"
    text=${text#\`}
    printf '%s' "${text%\`}"
}

# Tells of a row that came out otherwise.
differs() {
    wrong=$((wrong + 1))
    echo "$1"
    diff "$folder/wanted" "$folder/output" || true
}

# Tells whether a file is the answer `sat` and one model.
is_model() {
    [ "$(sed -n '1p;2p' "$1")" = $'sat\n(' ] && [ "$(grep -cx ')' "$1")" = 1 ] && [ "$(tail -n 1 "$1")" = ')' ]
}

# Gives what `certify` writes for these words to `check`, or a single model to `validate`, which has to find it valid.
judge_evidence() {
    local words judging
    read -ra words <<<"$1"
    words[0]=certify
    "$executable" "${words[@]}" </dev/null >"$folder/evidence" || true
    if [ "$2" = unsat ]; then
        judging=check proofs=$((proofs + 1))
    elif [ "$2" = sat ] && is_model "$folder/evidence"; then
        judging=validate models=$((models + 1))
    else
        return 0
    fi
    echo valid >"$folder/wanted"
    "$executable" "$judging" "${words[-1]}" "$folder/evidence" >"$folder/output" || true
    cmp -s "$folder/wanted" "$folder/output" || differs "$judging ${words[-1]}, and what ${words[*]} writes:"
}

# Runs the program with these words, and compares its output and its status.
run_row() {
    local words input=/dev/null status=0
    read -ra words <<<"${1% < *}"
    if [[ $1 == *" < "* ]]; then input=${1##* < }; fi
    if [ "$2" = nothing ]; then
        : >"$folder/wanted"
    elif [ -f "$2" ]; then
        cp "$2" "$folder/wanted"
    else
        printf '%s\n' "$2" >"$folder/wanted"
    fi
    rows=$((rows + 1))
    "$executable" "${words[@]}" <"$input" >"$folder/output" || status=$?
    if [ "$status" != "$3" ]; then
        differs "$1: status $status, and $3 is wanted"
    elif ! cmp -s "$folder/wanted" "$folder/output"; then
        differs "$1: another output"
    elif [ "${words[0]}" != check ] && [ -f "${words[-1]}" ]; then
        judge_evidence "$1" "$(head -n 1 "$folder/wanted")"
    fi
}

# Runs the rows of the page of a folder.
run_page() {
    local table='' line a b c d
    while IFS= read -r line; do
        IFS='|' read -r _ a b c d _ <<<"$line"
        case $line in
            "| arguments "* | "| proof | output "* | "| script | proof "*) table=$line ;;
            "|---"*) ;;
            "| "*)
                case $table in
                    "| arguments of"*) run_row "check $(cell "$a")" "$(cell "$b")" "$(cell "$c")" ;;
                    "| arguments "*) run_row "$(cell "$a")" "$(cell "$b")" "$(cell "$c")" ;;
                    "| proof "*) run_row "check valid.smt2 $(cell "$a")" "$(cell "$b")" "$(cell "$c")" ;;
                    "| script "*) run_row "check $(cell "$a") $(cell "$b")" "$(cell "$c")" "$(cell "$d")" ;;
                    *) differs "a table without a known header: $line" ;;
                esac
                ;;
            *) table= ;;
        esac
    done <README.md
}

# Writes the parts of the rows of a file: NUMBER.runs, NUMBER.script, NUMBER.proof and NUMBER.wanted.
split_rows() {
    rm -rf "$folder/parts"
    mkdir "$folder/parts"
    awk -v folder="$folder/parts/" '
        function put(name, text) {
            printf "%s", text >(folder rows name)
            close(folder rows name)
        }
        function finish() {
            rows++
            if (part[2] != "=") script = part[2]
            if (n == 4 && part[3] != "=") proof = part[3]
            put(".runs", part[1] "\n")
            put(".script", script)
            put(".proof", n == 4 ? proof : "")
            put(".wanted", part[n] (lines[n] ? "\n" : ""))
            split("", part)
            split("", lines)
            n = 1
        }
        BEGIN { n = 1 }
        $0 == "----" { n++; next }
        $0 == "====" { finish(); next }
        { part[n] = part[n] (lines[n]++ ? "\n" : "") $0 }
        END { finish() }' "$1"
}

# Puts the texts of a row, whose parts are in files NAME.script and NAME.proof, where a run looks for them; gives the file that is
# standard input.
place_texts() {
    local input=/dev/null name=$1 script_name=$2 proof_name=$3 length=$4
    rm -rf "$folder/here"
    mkdir "$folder/here"
    if [ -n "$proof_name" ]; then cp "$name.proof" "$folder/here/$proof_name"; else input=$name.proof; fi
    if [ -n "$length" ]; then
        head -c "$((length - $(wc -c <"$name.script")))" /dev/zero | tr '\0' ' ' | cat "$name.script" - >"$folder/long"
        name=$folder/long
    else
        name=$name.script
    fi
    if [ -n "$script_name" ]; then ln -f "$name" "$folder/here/$script_name"; fi
    if [ -z "$script_name" ] || [ "$script_name" = script.smt2 ]; then input=$name; fi
    echo "$input"
}

# Tells whether the second file has what the first one wants: the same bytes, or one line that begins as it says.
is_wanted() {
    local wanted output
    if cmp -s "$1" "$2"; then return; fi
    wanted=$(<"$1")
    output=$(<"$2")
    [[ $wanted == *" .." && $wanted != *$'\n'* && $output == "${wanted% ..} "* && $output != *$'\n'* ]]
}

# Runs a line of a row, and compares its output and its status.
run_line() {
    local fields words input status=0
    IFS=$'\x1f' read -ra fields <<<"${1//$'\t'/$'\x1f'}"
    IFS='|' read -ra words <<<"${fields[0]#* }|"
    if [ "${#fields[@]}" -lt 2 ]; then fields+=(script.smt2 proof.alethe); fi
    input=$(place_texts "$2" "${fields[1]}" "${fields[2]-}" "${fields[3]-}")
    rows=$((rows + 1))
    (cd "$folder/here" && exec "$executable" "${words[@]:1}") <"$input" >"$folder/output" || status=$?
    cp "$2.wanted" "$folder/wanted"
    if [ "$status" != "${fields[0]%% *}" ]; then
        differs "$1: status $status"
        cat "$2.script"
    elif ! is_wanted "$2.wanted" "$folder/output"; then
        differs "$1: another output"
        cat "$2.script"
    fi
}

# Runs the rows of a file.
run_rows() {
    local runs line
    split_rows "$1"
    for runs in "$folder"/parts/*.runs; do
        while IFS= read -r line; do
            run_line "$line" "${runs%.runs}"
        done <"$runs"
    done
}

# Asks for the answers of a file of lines.
run_lines() {
    local answer stated
    while IFS=$'\t' read -r answer stated; do
        rows=$((rows + 1))
        printf '(set-option :print-success false)%s(check-sat)' "$stated" >"$folder/stated"
        echo "$answer" >"$folder/wanted"
        "$executable" solve "$folder/stated" >"$folder/output" || true
        if ! cmp -s "$folder/wanted" "$folder/output"; then
            differs "$stated"
        else
            judge_evidence "solve $folder/stated" "$answer"
        fi
    done <"$1"
}

# Runs words where a device refuses all that is written, or a folder is read, and compares the status.
run_fault() {
    local status=0
    rows=$((rows + 1))
    "$executable" "${@:3}" </dev/null >"$2" || status=$?
    if [ "$status" != "$1" ]; then
        : >"$folder/wanted"
        : >"$folder/output"
        differs "${*:3}: status $status, and $1 is wanted"
    fi
}

# Runs that meet no text, or whose output fails.
run_faults() {
    run_fault 4 "$folder/output" solve answers
    run_fault 4 "$folder/output" check answers/unsat.smt2 answers
    run_fault 5 /dev/full solve answers/sat.smt2
    run_fault 5 /dev/full certify answers/unsat.smt2
    run_fault 5 /dev/full check proofs/valid.smt2 proofs/valid.alethe
    run_fault 4 "$folder/output" validate answers/sat.smt2 answers
    run_fault 5 /dev/full validate answers/sat.smt2 answers/sat.smt2
    run_fault 5 /dev/full gen 8
    run_fault 5 /dev/full
}

# Gives what `solve` and `certify` write of a formula that is nested so deep, with a small stack, and the proof to `check`.
run_deep() {
    local depth=$1
    {
        echo '(set-option :print-success false)'
        echo '(declare-const p Bool)(assert p)'
        printf '(assert'
        printf ' (not%.0s' $(seq "$depth")
        printf ' p'
        printf '%*s' "$((depth + 1))" '' | tr ' ' ')'
        printf '\n(check-sat)\n'
    } >"$folder/deep.smt2"
    rows=$((rows + 1)) proofs=$((proofs + 1))
    echo unsat >"$folder/wanted"
    (ulimit -s 256 && exec "$executable" solve "$folder/deep.smt2") >"$folder/output" || true
    cmp -s "$folder/wanted" "$folder/output" || differs "solve, $depth times nested:"
    (ulimit -s 256 && exec "$executable" certify "$folder/deep.smt2") >"$folder/evidence" || true
    echo valid >"$folder/wanted"
    (ulimit -s 256 && exec "$executable" check "$folder/deep.smt2" "$folder/evidence") >"$folder/output" || true
    cmp -s "$folder/wanted" "$folder/output" || differs "check, $depth times nested:"
}

top=$PWD
for page in */README.md; do
    cd "$top/$(dirname "$page")"
    run_page
done
cd "$top"
for file in */*.rows; do run_rows "$file"; done
for file in */*.lines; do run_lines "$file"; done
run_faults
run_deep 100001

echo "$rows rows, $proofs proofs and $models models, $wrong otherwise than they should be"
[ "$rows" -gt 0 ] && [ "$wrong" -eq 0 ]
