"""What the peers in Python share: instances read from OPB text, and the report of a run.

Every peer is a program that is called in two ways. Without arguments it prints the solver's version, and fails where the solver is not installed.
With LIMIT FILE it reports: a line `done SECONDS calls N`, or `limit SECONDS calls N` where LIMIT seconds did not suffice, then a line
`values V1 ... Vk` for each vector found. SECONDS is what the solver took to solve: start-up and building of models are apart.
"""
import sys


class Instance:
    """Sums are pairs (constant, {variable: coefficient}); rows are triples (coefficients, kind, bound). Negated literals are folded away."""

    def __init__(self, path):
        self.objectives, self.rows, self.n = [], [], 0
        with open(path) as text:
            for statement in text.read().split(";")[:-1]:
                self.add(statement.split())

    def add(self, words):
        if words[0] == "min:":
            self.objectives.append(self.fold(words[1:]))
        else:
            constant, coefficients = self.fold(words[:-2])
            self.rows.append((coefficients, words[-2], int(words[-1]) - constant))

    def fold(self, words):
        constant, coefficients = 0, {}
        for c, literal in zip(map(int, words[0::2]), words[1::2]):
            variable = int(literal.lstrip("~x"))
            self.n = max(self.n, variable)
            if literal[0] == "~":
                constant, c = constant + c, -c
            coefficients[variable] = coefficients.get(variable, 0) + c
        return constant, {v: c for v, c in coefficients.items() if c}

    def vector(self, on):
        """The values of an assignment, given as the set of variables that are on; None where it does not meet all rows."""
        for coefficients, kind, bound in self.rows:
            left = total(coefficients, on)
            if not (left >= bound if kind == ">=" else left <= bound if kind == "<=" else left == bound):
                return None
        return [constant + total(coefficients, on) for constant, coefficients in self.objectives]

    def span(self, objective):
        """The least and the greatest value that the objective's coefficients allow."""
        constant, coefficients = self.objectives[objective]
        return (constant + sum(c for c in coefficients.values() if c < 0), constant + sum(c for c in coefficients.values() if c > 0))


def total(coefficients, on):
    return sum(c for v, c in coefficients.items() if v in on)


def report(done, seconds, calls, vectors):
    print("%s %.6f calls %d" % ("done" if done else "limit", seconds, calls))
    for vector in vectors:
        print("values " + " ".join(map(str, vector)))
    sys.stdout.flush()
