"""What compare.py wrote, as table.py and plot.py read it."""
import csv
import math
import os

PEERS = {"z3": "Z3", "glpk": "GLPK", "clasp": "clasp", "cbc": "CBC"}
# clasp reports thousandths, and for CBC a start-up is taken off: less than half a thousandth counts as that.
LEAST = 0.0005


def read(folder):
    """A dictionary for each instance. A peer's entry is its seconds, None where there are none, and how it went, as compare.py says."""
    with open(os.path.join(folder, "table.tsv")) as text:
        return [numbers(line) for line in csv.DictReader(text, delimiter="\t")]


def numbers(line):
    parts = line["name"].split("_")
    row = {"family": parts[0], "d": next((p[1:] for p in parts[1:] if p[0] == "d"), "")}
    for column in ("n", "k", "rows", "points", "refusal", "nodes"):
        row[column] = int(line[column])
    for column in ("ours", "yardstick"):
        row[column] = float(line[column])
    for peer in PEERS:
        state = line[peer + "_state"]
        least = LEAST if peer in ("clasp", "cbc") else 0
        row[peer] = (max(float(line[peer]), least) if line[peer] else None, state)
    return row


def start_ups(folder):
    """(program, version, seconds) for ours and each peer that is installed."""
    with open(os.path.join(folder, "start.tsv")) as text:
        return [(name, version, float(seconds)) for name, version, seconds in csv.reader(text, delimiter="\t")]


def mean(values):
    """The geometric mean."""
    values = list(values)
    return math.exp(sum(map(math.log, values)) / len(values))
