#!/usr/bin/env python3
"""Prints a script that adds methods and sends one pattern so many times.

    python3 bench/patterns.py PATTERN COUNT [TABLE]

TABLE is `groups`, 1,000 methods `/gG/nN` in ten groups, or `mixer`: 32 channels `/ch/NN`, each with thirty methods, as
`/ch/01/mix/fader`. Each message has one int; after every 100 comes a pump, and one at the end.
"""
import struct
import sys

MIX = ["fader", "on", "pan", "mono", "level"]
CHANNEL = (
    [f"mix/{name}" for name in MIX]
    + [f"eq/{band}/{name}" for band in (1, 2, 3, 4) for name in ("type", "f", "g", "q")]
    + [f"gate/{name}" for name in ("on", "thr", "range", "hold")]
    + [f"dyn/{name}" for name in ("on", "thr", "ratio", "knee", "mgain")]
)


def methods(table):
    if table == "mixer":
        return [f"/ch/{channel:02}/{name}" for channel in range(1, 33) for name in CHANNEL]
    return [f"/g{group}/n{name}" for group in range(10) for name in range(100)]


def message(pattern, number):
    text = pattern.encode()
    return text + b"\0" * (4 - len(text) % 4) + b",i\0\0" + struct.pack(">i", number)


def main():
    pattern, count = sys.argv[1], int(sys.argv[2])
    for address in methods(sys.argv[3] if len(sys.argv) > 3 else "groups"):
        print("add", address)
    for number in range(count):
        print("send", message(pattern, number).hex())
        if number % 100 == 99:
            print("pump")
    print("pump")


main()
