"""Whether a lamp of examples/ does what is sent to it: lamp.py COMMAND WORDS..

What has to be printed follows from the rules of docs/FORMATS.md and docs/SERVER.md: a pattern calls its methods in the order of the
addresses, a fault is a kind and a place, a bundle waits for its time and runs as one piece."""
import socket
import struct
import subprocess
import sys
import time


def text(words):
    return words.encode() + b"\0" * (4 - len(words.encode()) % 4)


def message(address, tags="", *arguments):
    words = {"i": ">i", "f": ">f"}
    return text(address) + text("," + tags) + b"".join(struct.pack(words[tag], value) for tag, value in zip(tags, arguments))


def bundle(seconds, *messages):
    moment = time.time() + seconds + 2208988800
    tag = struct.pack(">II", int(moment), int(moment % 1 * 2**32))
    return b"#bundle\0" + tag + b"".join(struct.pack(">I", len(it)) + it for it in messages)


PACKETS = [
    (lambda: message("/lamp/on", "T"), ["on"]),
    (lambda: message("/lamp/level", "f", 0.25), ["level 0.25"]),
    (lambda: message("lamp/on", "T"), ["no packet: fault 4 at 0"]),
    (lambda: message("/lamp/hue", "i", 3), []),
    (lambda: message("/lamp/{on,level}", "i", 0), ["level 0.00", "off"]),
    (lambda: bundle(0.5, message("/lamp/on", "T"), message("/lamp/level", "f", 0.5)), []),
    (lambda: message("/lamp/level", "i", 1), ["level 1.00", "on", "level 0.50"]),
    (lambda: bundle(1, message("/lamp/[t-v]*")), ["unplugged"]),
]


def main():
    lamp = subprocess.Popen(sys.argv[1:], stdout=subprocess.PIPE, text=True)
    try:
        port = int(lamp.stdout.readline().split()[1])
        link = socket.socket(socket.AF_INET, socket.SOCK_DGRAM)
        for packet, _ in PACKETS:
            link.sendto(packet(), ("127.0.0.1", port))
        printed = lamp.communicate(timeout=20)[0].splitlines()
    finally:
        lamp.kill()
    wanted = [line for _, lines in PACKETS for line in lines]
    if printed != wanted or lamp.returncode != 0:
        print(f"status {lamp.returncode}, printed {printed}, and not {wanted}")
    return printed != wanted or lamp.returncode != 0


sys.exit(main())
