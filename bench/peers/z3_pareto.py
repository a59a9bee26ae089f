#!/usr/bin/python3
"""Z3's Pareto mode on one instance: z3_pareto.py [LIMIT FILE], as opb.py says. Needs Debian's binding, so Debian's Python runs it.

The costs and the rows are sums of If(x, c, 0). Of the forms tried (these sums throughout, pseudo-Boolean rows, clauses, soft clauses, whole
numbers from 0 to 1, bit vectors) this one is the fastest at n = 50 and 64 by a small margin, bit vectors far behind.
"""
import sys
import time

import z3

from opb import Instance, report


def build(instance):
    x = {v: z3.Bool("x%d" % v) for v in range(1, instance.n + 1)}
    solver = z3.Optimize()
    solver.set(priority="pareto")

    def weigh(coefficients):
        return z3.Sum([z3.If(x[v], c, 0) for v, c in coefficients.items()])

    for coefficients, kind, bound in instance.rows:
        left = weigh(coefficients)
        solver.add(left >= bound if kind == ">=" else left <= bound if kind == "<=" else left == bound)
    for _, coefficients in instance.objectives:
        solver.minimize(weigh(coefficients))
    return x, solver


def main():
    if len(sys.argv) == 1:
        return print(z3.get_version_string())
    limit, instance = float(sys.argv[1]), Instance(sys.argv[2])
    x, solver = build(instance)
    vectors, calls, seconds, answer = [], 0, 0.0, z3.sat
    while answer == z3.sat and seconds < limit:
        solver.set(timeout=max(1, int(1000 * (limit - seconds))))
        begin = time.perf_counter()
        answer = solver.check()
        seconds += time.perf_counter() - begin
        calls += 1
        if answer == z3.sat:
            model = solver.model()
            vectors.append(instance.vector({v for v in x if z3.is_true(model[x[v]])}))
    report(answer == z3.unsat, seconds, calls, vectors)


if __name__ == "__main__":
    main()
