#!/usr/bin/env python3
"""Prints how long the gate takes, crate by crate, as the table of docs/GATE.md.

usage: bash .ci/run 2>&1 | python3 tests/gate.py, where nothing else runs

The gate prints no times, so each of its lines is noted as it comes. Checks run side by side: the seconds of a crate are those
of the clock between the line that says it is proved and the line before that said so of another; those of its edits, between
the line that says they are tried and the next one of that kind. So a crate that is checked beside slower ones shows fewer
seconds than it takes, and the sums are the clock's. What an earlier run kept is not done again and takes no time;
`rt ci --anew` in place of .ci/run does all.
"""
import re
import sys
import time

PROVED = re.compile(r"rt: (\w+) proved$")
TRYING = re.compile(r"rt: (\w+): trying its must-fail edits \((\d+)\)$")
TRIED = re.compile(r"rt: must-fail \w+/")


def main():
    start = before = time.monotonic()
    proofs, edits, counts = {}, {}, {}
    tried, line = None, ""
    for line in sys.stdin:
        now = time.monotonic()
        proved, trying = PROVED.match(line), TRYING.match(line)
        if not proved and not trying and not (tried and TRIED.match(line)):
            continue
        if tried:
            edits[tried] += now - before
        if proved:
            proofs[proved[1]] = now - before
        tried = trying[1] if trying else None
        if trying:
            edits.setdefault(tried, 0.0)
            counts[tried] = int(trying[2])
        before = now
    print(line.strip())
    print("| crate | proved, s | edits | edits, s |\n|---|---|---|---|")
    rows = [(n, proofs.get(n, 0.0), counts.get(n, 0), edits.get(n, 0.0)) for n in set(proofs) | set(edits)]
    for row in sorted(rows, key=lambda r: -r[1] - r[3]):
        print("| %s | %.0f | %d | %.0f |" % row)
    print("| all %d | %.0f | %d | %.0f |" % (len(rows), *(sum(r[i] for r in rows) for i in (1, 2, 3))))
    print("In all %.0f s by the clock, tests and programs among them." % (time.monotonic() - start))


if __name__ == "__main__":
    main()
