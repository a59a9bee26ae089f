"""A front by one optimum after another, for solvers that are called with a file: the loop that the peers clasp and cbc share.

Each call finds the least sum of all costs. Then for the point p that it gave, one of the costs must be below p's: a variable y_i says which, by the
row f_i + (most_i - p_i + 1) y_i <= most_i, where most_i is the greatest value of f_i, and the y_i of a point sum to 1 or more. Each optimum is a
point of the front, as what is open below a vector stays open.
"""
import re
import subprocess
import sys

from opb import Instance, report


class Model:
    """The instance, and what was added to it: rows (coefficients, kind, bound), one cost, and the number of variables."""

    def __init__(self, instance):
        self.instance, self.rows, self.variables, self.cost = instance, list(instance.rows), instance.n, {}
        for _, coefficients in instance.objectives:
            for v, c in coefficients.items():
                self.cost[v] = self.cost.get(v, 0) + c

    def bar(self, point):
        """Demands a value below the point's for one cost. A cost that cannot be lower has no part in it."""
        choice = {}
        for k, (constant, coefficients) in enumerate(self.instance.objectives):
            least, most = self.instance.span(k)
            if point[k] > least:
                self.variables += 1
                choice[self.variables] = 1
                self.rows.append(({**coefficients, self.variables: most - point[k] + 1}, "<=", most - constant))
        self.rows.append((choice, ">=", 1))
        return bool(choice)


def version(*command):
    """Prints the first dotted number that the command prints."""
    print(re.search(r"\d+\.[\d.]*\d", subprocess.run(command, capture_output=True, text=True).stdout).group())


def run(solve):
    """`solve(model, seconds)` answers the seconds that it took, whether it came to an end, and the set of variables that are on, or None where
    nothing is feasible."""
    limit, instance = float(sys.argv[1]), Instance(sys.argv[2])
    model, vectors, calls, seconds, open_still = Model(instance), [], 0, 0.0, True
    while open_still and seconds < limit:
        took, ended, on = solve(model, limit - seconds)
        seconds, calls = seconds + took, calls + 1
        if not ended:
            break
        if on is None:
            open_still = False
        else:
            vectors.append(checked(instance, on))
            open_still = model.bar(vectors[-1])
    report(not open_still, seconds, calls, vectors)


def checked(instance, on):
    vector = instance.vector({v for v in on if v <= instance.n})
    if vector is None:
        sys.exit("%s: an assignment does not meet all rows" % sys.argv[0])
    return vector
