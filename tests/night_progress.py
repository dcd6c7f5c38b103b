#!/usr/bin/env python3
"""Runs a night with a terminal as standard error: the progress must be there, and the report as ever.

    night_progress.py TOOL FOLDER REPORT
"""
import os
import pty
import re
import subprocess
import sys


def main(tool, folder, report):
    ours, theirs = pty.openpty()
    process = subprocess.Popen([tool, "night", folder], stdout=subprocess.PIPE, stderr=theirs)
    os.close(theirs)
    printed = process.communicate()[0]
    shown = b""
    while True:
        try:
            piece = os.read(ours, 4096)
        except OSError:  # the terminal's other end is closed
            break
        if not piece:
            break
        shown += piece
    with open(report, "rb") as file:
        if printed != file.read():
            sys.exit("the report is another one")
    sheets = sum(name.endswith(".sheet") for name in os.listdir(folder))
    line = rb"\d+ of %d sheets, \d+ a second, \d+ s left" % sheets
    if not re.fullmatch(rb"(?:%s\r\x1b\[K)+" % line, shown):
        sys.exit(f"the terminal got {shown[:100]}")


if __name__ == "__main__":
    main(*sys.argv[1:])
