"""Writes the instances of the listing benchmark, the same at every run: families.py FOLDER [SEEDS [quick]].

Fence placements are built from a small random program. Its blocks hold the sites where a fence can stand; loops lie in one another; each ordering
that the program needs is a walk from one access to another, and asks for a fence on some site of the walk. A file's name says the family, then
n variables, k objectives, d orderings for each site, and the seed. SEEDS is how many seeds the fence family has; `quick` leaves out most sizes.
"""
import os
import sys


class Dice:
    """A splitmix generator: the same numbers in every version of Python."""

    def __init__(self, name):
        self.state = 0
        for byte in name.encode():
            self.state = (self.state * 1099511628211 + byte + 1) % 2**64

    def below(self, n):
        self.state = (self.state + 0x9E3779B97F4A7C15) % 2**64
        z = self.state
        z = (z ^ z >> 30) * 0xBF58476D1CE4E5B9 % 2**64
        z = (z ^ z >> 27) * 0x94D049BB133111EB % 2**64
        return (z ^ z >> 31) % n

    def between(self, low, high):
        return low + self.below(high - low + 1)

    def chance(self, percent):
        return self.below(100) < percent

    def some(self, count, n):
        """`count` different numbers of 1..n, rising."""
        pool = list(range(1, n + 1))
        return sorted(pool.pop(self.below(len(pool))) for _ in range(count))


def terms(pairs):
    return " ".join("%+d %s" % (c, v if isinstance(v, str) else "x%d" % v) for c, v in pairs)


def objective(costs):
    """A cost for each variable, x1 first; zeros are left out."""
    return "min: %s ;" % terms((c, v) for v, c in enumerate(costs, 1) if c)


def row(pairs, kind, bound):
    return "%s %s %d ;" % (terms(pairs), kind, bound)


def ones(sites):
    return [(1, v) for v in sites]


class Program:
    """Blocks of sites with a loop depth and the blocks that may follow."""

    def __init__(self, dice, n):
        self.dice, self.blocks, self.depths, self.after = dice, [], [], []
        order = dice.some(n, n)
        for i in range(n - 1, 0, -1):
            j = dice.below(i + 1)
            order[i], order[j] = order[j], order[i]
        while order:
            size = min(len(order), dice.between(1, 4))
            self.blocks.append([order.pop() for _ in range(size)])
        self.shape()

    def shape(self):
        """Blocks follow one another; a loop's last block goes back to its first, and a branch passes over one block."""
        heads, last = [], len(self.blocks) - 1
        for i in range(last + 1):
            turn = self.dice.below(10)
            if turn < 4 and len(heads) < 3:
                heads.append(i)
            self.depths.append(len(heads))
            self.after.append([i + 1] if i < last else [])
            if i + 2 <= last and self.dice.chance(30):
                self.after[i].append(i + 2)
            if turn > 5 and heads:
                self.after[i].append(heads.pop())

    def walk(self, length):
        """The sites on a walk from a site somewhere in the program."""
        at = self.dice.below(len(self.blocks))
        found = self.blocks[at][self.dice.below(len(self.blocks[at])):]
        while len(found) < length and self.after[at]:
            at = self.after[at][self.dice.below(len(self.after[at]))]
            found = found + self.blocks[at]
        return sorted(set(found[:length]))

    def depth_of(self):
        return {site: depth for block, depth in zip(self.blocks, self.depths) for site in block}


def fence(dice, n, k, d):
    program = Program(dice, n)
    depth = [program.depth_of()[site] for site in range(1, n + 1)]
    stalls = [dice.between(15, 45) * 7 ** min(depth[i], 3) + dice.below(10) for i in range(n)]
    sizes = [dice.between(1, 6) for _ in range(n)]
    hot = [int(level >= min(2, max(depth))) for level in depth]
    saves = [dice.between(0, 5) for _ in range(n)]
    asked, tries = [], 0
    while len(asked) < d * n and tries < 50 * n:
        tries += 1
        sites = program.walk(dice.between(2, 6))
        if len(sites) > 1 and sites not in asked:
            asked.append(sites)
    rows = [row(ones(sites), ">=", 1) for sites in asked]
    for _ in range(n // 16):
        a, b = dice.some(2, n)
        rows.append(row([(1, a), (-1, b)], ">=", 0))
    for _ in range(n // 32):
        rows.append(row(ones(dice.some(8, n)), "<=", 6))
    return [objective(costs) for costs in (stalls, sizes, hot, saves)[:k]] + rows


def cover(dice, n, k):
    highest = (90, 5, 1)
    costs = [[dice.between(0 if j == 2 else 1, highest[j]) for _ in range(n)] for j in range(k)]
    return [objective(c) for c in costs] + [row(ones(dice.some(dice.between(3, 6), n)), ">=", 1) for _ in range(n)]


def literal(dice, v):
    return "~x%d" % v if dice.chance(50) else "x%d" % v


def knapsack(dice, n, k):
    """Two-sided costs and rows of large weights that half of the assignments meet."""
    lines = [objective([dice.between(-40, 90) for _ in range(n)]) for _ in range(k)]
    for _ in range(3):
        pairs = [(dice.between(-4000, 4000), literal(dice, v)) for v in dice.some(2 * n // 3, n)]
        lines.append(row(pairs, ("<=", ">=")[dice.below(2)], sum(c for c, _ in pairs) // 2))
    return lines


def equality(dice, n, k):
    """Small sums that a hidden assignment meets."""
    hidden = [0] + [dice.below(2) for _ in range(n)]
    lines = [objective([dice.between(1, 30) for _ in range(n)]) for _ in range(k)]
    for _ in range(n // 5):
        pairs = [(dice.between(1, 5) * (-1) ** dice.below(2), v) for v in dice.some(dice.between(4, 8), n)]
        lines.append(row(pairs, "=", sum(c * hidden[v] for c, v in pairs)))
    return lines


def infeasible(dice, n, k):
    """m + 1 things, m places: each thing has a place, no place has two. n is m times m + 1."""
    m = next(m for m in range(n) if m * (m + 1) == n)
    lines = [objective([dice.between(1, 50) for _ in range(n)]) for _ in range(k)]
    lines += [row(ones(range(i * m + 1, i * m + m + 1)), ">=", 1) for i in range(m + 1)]
    return lines + [row(ones(range(j + 1, n + 1, m)), "<=", 1) for j in range(m)]


def free(dice, n, k):
    return [objective([dice.between(-50, 50) for _ in range(n)]) for _ in range(k)]


def all_instances(seeds, quick):
    """Names and texts."""
    for n in (20, 40) if quick else (20, 30, 40, 50, 64):
        for k in (2, 3, 4):
            for d in (1, 2):
                for seed in range(1, seeds + 1):
                    name = "fence_n%d_k%d_d%d_s%d" % (n, k, d, seed)
                    yield name, fence(Dice(name), n, k, d)
    for build, sizes in ((cover, (20, 30, 40)), (knapsack, (16, 20, 24)), (equality, (16, 24, 40)), (infeasible, (20, 30, 42)), (free, (10, 14, 18))):
        for n in sizes[:1] if quick else sizes:
            for k in (2, 3):
                name = "%s_n%d_k%d" % (build.__name__, n, k)
                yield name, build(Dice(name), n, k)


def main():
    folder, seeds, quick = sys.argv[1], int((sys.argv + ["2"])[2]), sys.argv[3:] == ["quick"]
    os.makedirs(folder, exist_ok=True)
    for name, lines in all_instances(seeds, quick):
        with open(os.path.join(folder, name + ".opb"), "w") as out:
            out.write("\n".join(lines) + "\n")


if __name__ == "__main__":
    main()
