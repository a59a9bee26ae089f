"""Runs the peers on the instances that bench/timing timed, and holds their vectors against the listings: compare.py FOLDER LIMIT.

FOLDER has instances/NAME.opb, listings/NAME.out, timing.tsv and the programs glpk and list. Writes FOLDER/table.tsv, a line for each instance: what
timing.tsv says, then for each peer its seconds and how it went:
  done     it found the whole front
  limit    LIMIT seconds did not suffice; they are its seconds
  skipped  not run: it reached the limit on a smaller instance of the same family and number of objectives. At n = 50 and above every peer is run on
           every fence placement
  absent   it is not installed
  failed   it broke off, or its vectors are not those of the listing
and FOLDER/start.tsv: each program's version and what a run on a tiny instance takes beyond solving. Answers 1 where one failed.
"""
import os
import signal
import subprocess
import sys
import time

BENCH = os.path.dirname(os.path.abspath(__file__))
TINY = os.path.join(BENCH, "..", "examples", "t.opb")
TIMING = ["name", "n", "k", "rows", "points", "refusal", "nodes", "ours", "yardstick"]
PEERS = ["z3", "glpk", "clasp", "cbc"]


def program(folder, peer):
    if peer == "glpk":
        return os.path.join(folder, "glpk")
    return os.path.join(BENCH, "peers", "z3_pareto.py" if peer == "z3" else peer)


def call(command, seconds):
    """Standard output, or None where the command fails or takes longer; then all its processes are ended."""
    try:
        process = subprocess.Popen(command, stdout=subprocess.PIPE, stderr=subprocess.PIPE, text=True, start_new_session=True)
    except OSError:
        return None
    try:
        out, message = process.communicate(timeout=seconds)
    except subprocess.TimeoutExpired:
        os.killpg(process.pid, signal.SIGKILL)
        process.communicate()
        return "limit"
    if process.returncode != 0 and message and len(command) > 1:
        print(message, file=sys.stderr)
    return out if process.returncode == 0 else None


def listing(path):
    """The vectors of a listing, and whether it is cut."""
    with open(path) as text:
        head, *lines = text.read().splitlines()
    return [tuple(map(int, line.split(" values ")[1].split(" model ")[0].split())) for line in lines], head.endswith(" cut")


def fits(state, found, ours, cut):
    """A whole front is ours, or begins with ours where that is cut; a part of one has nothing else."""
    found = sorted(found)
    if state == "done":
        return found[:len(ours)] == ours if cut else found == ours
    return cut or set(found) <= set(ours)


def run_peer(folder, peer, name, limit):
    """Seconds and how it went. A peer that does not keep its limit by itself is ended at twice that, as solving is only a part of its time."""
    out = call([program(folder, peer), str(limit), os.path.join(folder, "instances", name + ".opb")], 2 * limit + 10)
    if out is None:
        return "", "failed"
    head, *lines = out.splitlines()
    state, seconds = head.split()[0], limit
    if state == "done":
        seconds = float(head.split()[1])
        state = "done" if seconds <= limit else "limit"
    found = [tuple(map(int, line.split()[1:])) for line in lines]
    if not fits(state, found, *listing(os.path.join(folder, "listings", name + ".out"))):
        print("compare: %s: %s has other vectors than the listing" % (name, peer), file=sys.stderr)
        return "", "failed"
    return "%.6f" % min(seconds, limit), state


def start_up(command):
    """The least wall time of five runs on the tiny instance, less what the program says that it took to solve."""
    least = None
    for _ in range(5):
        begin = time.perf_counter()
        out = call(command + [TINY], 60)
        took = time.perf_counter() - begin
        if out is None:
            sys.exit("compare: %s fails on %s" % (command[0], TINY))
        if out.startswith("done"):
            took -= float(out.split()[1])
        least = took if least is None else min(least, took)
    return least


def present(folder):
    """The peers that are installed; writes start.tsv."""
    found = []
    with open(os.path.join(folder, "start.tsv"), "w") as out:
        out.write("ours\t\t%.6f\n" % start_up([os.path.join(folder, "list")]))
        for peer in PEERS:
            version = call([program(folder, peer)], 60)
            if version is None:
                print("compare: %s is not installed and is left out (bench/setup installs it)" % peer, file=sys.stderr)
                continue
            found.append(peer)
            out.write("%s\t%s\t%.6f\n" % (peer, version.strip(), start_up([program(folder, peer), "20"])))
    return found


def wanted(line, reached, peer):
    """Whether the peer is run: see above."""
    family, n = line["name"].split("_")[0], int(line["n"])
    return (family == "fence" and n >= 50) or reached.get((peer, family, line["k"]), 99) >= n


def compare(folder, limit, lines, peers, out):
    reached, failures = {}, 0
    for number, line in enumerate(lines, 1):
        cells = []
        for peer in PEERS:
            if peer not in peers or not wanted(line, reached, peer):
                cells += ["", "skipped" if peer in peers else "absent"]
                continue
            seconds, state = run_peer(folder, peer, line["name"], limit)
            cells += [seconds, state]
            failures += state == "failed"
            if state == "limit":
                key = (peer, line["name"].split("_")[0], line["k"])
                reached[key] = min(reached.get(key, 99), int(line["n"]))
        out.write("\t".join([line[column] for column in TIMING] + cells) + "\n")
        out.flush()
        print("%d of %d: %s %s" % (number, len(lines), line["name"], " ".join(cells)), file=sys.stderr)
    return failures


def main():
    folder, limit = sys.argv[1], float(sys.argv[2])
    with open(os.path.join(folder, "timing.tsv")) as text:
        lines = [dict(zip(TIMING, line.split("\t"))) for line in text.read().splitlines()]
    lines.sort(key=lambda line: (line["name"].split("_")[0] != "fence", line["name"].split("_")[0], int(line["n"]), line["name"]))
    with open(os.path.join(folder, "table.tsv"), "w") as out:
        out.write("\t".join(TIMING + [cell for peer in PEERS for cell in (peer, peer + "_state")]) + "\n")
        failures = compare(folder, limit, lines, present(folder), out)
    if failures:
        sys.exit("compare: %d runs of peers failed" % failures)


if __name__ == "__main__":
    main()
