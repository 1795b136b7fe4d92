#!/usr/bin/env python3
"""Refuses memory, reads, writes and threads of the built programs, and compares each answer with the allowed ones.

A line for each list, with its calls, its runs and its time; the last line is `N passed, M failed`, of lists. Words on
the command line choose the lists whose names hold one of them. See README.md beside this file.
"""
import shutil
import sys
import time

import calls
import devices
import program
from machine import Folder, Lists


def main():
    lists = Lists(sys.argv[1:])
    begun = time.monotonic()
    try:
        program.all_lists(lists)
        devices.all_lists(lists)
        calls.all_lists(lists)
    finally:
        shutil.rmtree(Folder.top, ignore_errors=True)
    print(f"{time.monotonic() - begun:.0f} s")
    print(f"{lists.passed} passed, {lists.failed} failed")
    return 1 if lists.failed else 0


if __name__ == "__main__":
    sys.exit(main())
