"""Terms by number, as scripts and proofs have them, and what is asked of their form."""

GREATEST = 2**127 - 1
BOOL, REAL = (b"Bool",), (b"Real",)


class Terms:
    """Terms as they are read, each by a number, with its sort; equal terms of one sort have equal numbers."""

    def __init__(self):
        self.numbers = {}
        self.nodes = []
        self.sorts = []

    def make(self, head, given=(), sort=BOOL):
        """Returns the number of the term of a head before terms."""
        node = (head, tuple(given))
        if (node, sort) not in self.numbers:
            self.numbers[node, sort] = len(self.nodes)
            self.nodes.append(node)
            self.sorts.append(sort)
        return self.numbers[node, sort]

    def negation(self, term):
        """Returns the number of the negated term."""
        return self.make(b"not", (term,))

    def is_formula(self, term):
        """Tells whether the term has the sort Bool."""
        return self.sorts[term] == BOOL

    def conjunction(self, terms):
        """Returns one term alone, or the conjunction of several."""
        return terms[0] if len(terms) == 1 else self.make(b"and", terms)

    def filled(self, term, arguments):
        """Returns the term with each parameter replaced by the argument of its number."""
        made = {}
        for number in self.below([term]):
            head, given = self.nodes[number]
            if head[0] == "parameter":
                made[number] = arguments[head[1]]
            else:
                made[number] = self.make(head, [made[t] for t in given], self.sorts[number])
        return made[term]

    def below(self, roots):
        """Returns the numbers of the terms and of all their subterms, arguments first."""
        seen, waiting = set(), list(roots)
        while waiting:
            number = waiting.pop()
            if number not in seen:
                seen.add(number)
                waiting += self.nodes[number][1]
        return sorted(seen)

    def is_closed(self, term):
        """Tells whether no parameter of a definition is in the term."""
        return all(self.nodes[number][0][0] != "parameter" for number in self.below([term]))

    def have_numbers(self, roots):
        """Tells whether a subterm has the sort Real."""
        return any(self.sorts[number] == REAL for number in self.below(roots))

    def are_over_truths(self, roots):
        """Tells whether the terms have constants of sort Bool and theory Core alone: truth tables decide these."""
        return all(self.sorts[t] == BOOL and not (self.nodes[t][0][0] == "symbol" and self.nodes[t][1])
                   for t in self.below(roots))

    def is_constant(self, term):
        """Tells whether the term is a literal, or `-`, `+`, `*`, `/` before such."""
        heads = (self.nodes[number][0] for number in self.below([term]))
        return all(head[0] == "number" or head in (b"-", b"+", b"*", b"/") for head in heads)

    def is_divisor(self, term):
        """Tells whether the term is a literal, or `(- d)` or `(/ d e)` of such."""
        head, given = self.nodes[term]
        if head[0] == "number":
            return True
        if head == b"-":
            return len(given) == 1 and self.is_divisor(given[0])
        return head == b"/" and all(self.is_divisor(t) for t in given)

    def is_zero(self, term):
        """Tells whether a divisor is zero: its literal is 0, or what `-` or `/` has first is zero."""
        head, given = self.nodes[term]
        return head[1] == 0 if head[0] == "number" else self.is_zero(given[0])
