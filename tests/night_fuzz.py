#!/usr/bin/env python3
"""Merges damaged reports: each is refused as no report, or read as one, and then writing and reading it again
changes nothing.

    night_fuzz.py TOOL REPORT COUNT [SEED]
"""
import os
import random
import subprocess
import sys

PIECES = [b"{", b"}", b"[", b"]", b",", b":", b'"', b"\\", b"\\u0000", b"\\ud800", b"\\udc80", b"\\u00e9", b"-1", b"0",
          b"4294967295", b"4294967296", b"1e9", b"null", b"\0", b"\xff", b"differs", b"agrees", b"map", b"x" * 300]


def damaged(rng, report):
    report = bytearray(report)
    for _ in range(rng.choice([1, 1, 2, 5])):
        at = rng.randrange(len(report))
        end = min(len(report), at + rng.choice([0, 1, 1, 2, 8, 100]))
        report[at:end] = rng.choice([b"", rng.choice(PIECES), bytes([rng.randrange(256)]), report[end:end + 20]])
        if not report:
            return b""
    return bytes(report)


def merge(tool, source, result):
    if os.path.exists(result):
        os.remove(result)
    process = subprocess.run([tool, "night", "--merge", source, "--json", "-o", result], capture_output=True)
    if process.returncode not in (0, 1, 3, 4) or (process.returncode == 3 and not process.stderr):
        with open(result, "rb") if os.path.exists(result) else open(source, "rb") as file:
            sys.exit(f"exit status {process.returncode}: {process.stderr[:300]} for {file.read()!r}")
    return os.path.exists(result)


def main(tool, path, count, seed=1):
    rng = random.Random(int(seed))
    with open(path, "rb") as file:
        report = file.read()
    taken = 0
    for _ in range(int(count)):
        with open("damaged.json", "wb") as file:
            file.write(damaged(rng, report))
        if merge(tool, "damaged.json", "once.json"):
            taken += 1
            if not merge(tool, "once.json", "twice.json"):
                sys.exit("what was written is not read again")
            with open("once.json", "rb") as once, open("twice.json", "rb") as twice:
                if once.read() != twice.read():
                    sys.exit("what was read again is written differently")
    print(f"{count} reports, of which {taken} are still reports")


if __name__ == "__main__":
    main(*sys.argv[1:])
