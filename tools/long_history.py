#!/usr/bin/env python3
"""Prints a stored history that keeps the judge and the replay busy.

usage: python3 tools/long_history.py EVENTS K

One thread puts EVENTS / 4 items, then takes them all, each time from the farthest place that the window allows.
"""

import sys


def main(events, k):
    items = events // 4
    lines = [f"k={k}", "segments=2"]
    for item in range(1, items + 1):
        lines += [f"put=0:{item}", f"accepted=0:{item}"]
    queue, window = list(range(items, 0, -1)), k
    while queue:
        place = min(window, len(queue))
        lines += ["take=0", f"item=0:{queue.pop(-place)}"]
        window = k if place == 1 else window - 1
    print("\n".join(lines))


if __name__ == "__main__":
    main(int(sys.argv[1]), int(sys.argv[2]))
