"""Truth tables of formulas whose constants have the sort Bool, and whose heads are those of theory Core."""


class Tables:
    """Truth tables of formulas as numbers: bit r is the value in row r, and bit k of r that of the constant k."""

    def __init__(self, terms, roots):
        self.terms = terms
        below = terms.below(roots)
        constants = [number for number in below if terms.nodes[number][0][0] == "symbol"]
        self.rows = 1 << len(constants)
        self.all_true = (1 << self.rows) - 1
        self.known = {}
        for place, number in enumerate(constants):
            self.known[number] = sum(1 << row for row in range(self.rows) if (row >> place) & 1)
        for number in below:
            if number not in self.known:
                head, given = terms.nodes[number]
                self.known[number] = self.value(head, [self.known[t] for t in given])

    def value(self, head, given):
        """Returns the table of a head over the tables of its arguments."""
        no = self.all_true.__xor__
        if head == b"true":
            return self.all_true
        if head in (b"false", b"or"):
            result = 0
            for table in given:
                result |= table
            return result
        if head == b"and":
            result = self.all_true
            for table in given:
                result &= table
            return result
        if head == b"not":
            return no(given[0])
        if head == b"ite":
            return (given[0] & given[1]) | (no(given[0]) & given[2])
        return {b"xor": given[0] ^ given[1], b"=": no(given[0] ^ given[1]), b"=>": no(given[0]) | given[1]}[head]
