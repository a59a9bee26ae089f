"""Prints the table of the listing benchmark in Markdown, and writes it to FOLDER/table.md: table.py FOLDER LIMIT."""
import os
import sys

import results
from results import PEERS, mean


def short(x):
    """Three digits that count, without an exponent."""
    return "%.0f" % x if x >= 100 else "%.*f" % (2 if x >= 1 else 3 if x >= 0.1 else 4 if x >= 0.01 else 5 if x >= 0.001 else 6, x)


def times(x):
    return "%.0f" % x if x >= 10 else "%.1f" % x if x >= 1 else "%.2f" % x


def line(cells):
    return "| " + " | ".join(cells) + " |"


def average(rows, column):
    return "%.0f" % (sum(row[column] for row in rows) / len(rows))


def with_figure(rows, peer):
    """The rows where the peer has seconds, and how many of them are the limit."""
    rows = [row for row in rows if row[peer][0] is not None]
    return rows, sum(row[peer][1] == "limit" for row in rows)


def ratio(rows, peer):
    return mean(row[peer][0] / row["ours"] for row in rows)


def peer_cells(rows, peer):
    """Seconds and ratio, geometric means over the instances of a line, or why there are none."""
    known, reached = with_figure(rows, peer)
    states = {row[peer][1] for row in rows}
    if "failed" in states or not known:
        return ["failed" if "failed" in states else "/".join(sorted(states)), ""]
    more = "> " if reached else ""
    return [more + short(mean(row[peer][0] for row in known)), more + times(ratio(known, peer))]


def group(rows):
    """Rows by family, n, k and d, in the order in which they come."""
    groups = {}
    for row in rows:
        name = "%s n=%d k=%d" % (row["family"], row["n"], row["k"]) + (" d=" + row["d"] if row["d"] else "")
        groups.setdefault(name, []).append(row)
    return groups.items()


def main_table(rows):
    heads = ["instances", "points", "nodes", "ours s", "C s", "ours / C"]
    for name in PEERS.values():
        heads += [name + " s", name + " / ours"]
    lines = [line(heads), line(["---"] + ["---:"] * (len(heads) - 1))]
    for name, members in group(rows):
        cells = [name, average(members, "points") + ("+" if any(row["refusal"] for row in members) else ""), average(members, "nodes"),
                 short(mean(row["ours"] for row in members)), short(mean(row["yardstick"] for row in members)),
                 "%.2f" % mean(row["ours"] / row["yardstick"] for row in members)]
        lines.append(line(cells + [cell for peer in PEERS for cell in peer_cells(members, peer)]))
    return lines


def peer_mean(rows, peer):
    """The mean ratio to ours, with the number of instances and how many of them reached the limit."""
    known, reached = with_figure(rows, peer)
    if not known:
        return "-"
    text = times(ratio(known, peer))
    return "> %s (%d of %d at the limit)" % (text, reached, len(known)) if reached else "%s (%d)" % (text, len(known))


def mean_table(rows):
    lines = [line(["fence placements", "k = 2", "k = 3", "k = 4", "all k"]), line(["---"] + ["---:"] * 4)]
    fences = [row for row in rows if row["family"] == "fence"]
    for title, members in (("n = 50 and 64", [row for row in fences if row["n"] >= 50]), ("n = 20 to 40", [row for row in fences if row["n"] < 50])):
        for peer, name in PEERS.items():
            cells = [peer_mean([row for row in members if row["k"] == k], peer) for k in (2, 3, 4)]
            lines.append(line(["%s / ours, %s" % (name, title)] + cells + [peer_mean(members, peer)]))
    return lines


def yardstick_lines(rows):
    longer = [row for row in rows if row["ours"] > 0.001]
    lines = ["ours / C, all %d instances: %.2f" % (len(rows), mean(row["ours"] / row["yardstick"] for row in rows))]
    if longer:
        ratios = [row["ours"] / row["yardstick"] for row in longer]
        lines.append("ours / C, the %d instances above 1 ms: %.2f (from %.2f to %.2f)" % (len(longer), mean(ratios), min(ratios), max(ratios)))
    return ["- " + text for text in lines]


def start_lines(folder):
    lines = []
    for name, version, seconds in results.start_ups(folder):
        title = "examples/list" if name == "ours" else "%s %s" % (PEERS[name], version)
        lines.append("- %s: %s s" % (title, short(seconds)))
    return lines


HEAD = """# Listing times

Seconds to solve, start-up and reading apart, on one core; the least of several runs for ours and C, one run for the peers. A line has the geometric
means over its seeds. n variables, k costs, d orderings for each site. C is the same search in C (search.c); nodes are those of its tree. `>`: a
run reached the limit of %s s; the limit counts as its time, so that the ratio is a lower bound. `skipped`: not run, as that peer reached the limit on
a smaller instance of the family and k. `absent`: not installed. clasp and CBC are not timed below %s s, which is their least figure.
"""

START = """
## Start-up

Wall time of a run on an instance of three variables, less solving. clasp and CBC are called three times in it, by a script in Python.
"""


def agreement(rows):
    states = [row[peer][1] for row in rows for peer in PEERS]
    done, failed = states.count("done"), states.count("failed")
    return "Peers listed %d whole fronts, all equal to ours." % done if not failed else "%d runs of peers failed or gave another front." % failed


def page(folder, limit):
    rows = results.read(folder)
    lines = [HEAD % (limit, results.LEAST)] + main_table(rows) + ["", agreement(rows), "", "## Geometric means of ratios", ""]
    return lines + mean_table(rows) + [""] + yardstick_lines(rows) + [START] + start_lines(folder)


def main():
    text = "\n".join(page(sys.argv[1], sys.argv[2])) + "\n"
    with open(os.path.join(sys.argv[1], "table.md"), "w") as out:
        out.write(text)
    print(text, end="")


if __name__ == "__main__":
    main()
