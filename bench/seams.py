#!/usr/bin/env python3
"""A show that turns over while it plays: whether a datagram is lost or done twice, and how late what was sent on comes.

    python3 bench/seams.py [COUNT [RATE [BYTES]]]

Sends COUNT datagrams (20,000), so many a second (1,000), to a hundred methods of `oscstage serve --turn-over BYTES` (600,000); each tenth
is a bundle for a second later, so that a hundred wait. Then it replays all recordings, and compares their calls with what was sent. Of
each seam it tells the latest of what came within a fifth of a second of it, which is how long nobody was served. It needs what
bin/oscstage and bin/osc need.
"""
import os
import socket
import struct
import subprocess
import sys
import tempfile
import threading
import time

TOP = os.path.join(os.path.dirname(os.path.abspath(__file__)), "..")
PORT = 9300
METHODS = 100
AHEAD = 1.0
NEAR = 0.2
SECONDS_TO_1970 = 2208988800


def string(raw):
    return raw + b"\0" * (4 - len(raw) % 4)


def message(n):
    return string(b"/light/%d" % (n % METHODS)) + string(b",i") + struct.pack(">i", n)


def bundle(when, element):
    tag = int((when + SECONDS_TO_1970) * 2**32)
    return b"#bundle\0" + struct.pack(">Q", tag) + struct.pack(">i", len(element)) + element


def receive(receiver, got):
    while True:
        try:
            datagram = receiver.recv(64)
        except socket.timeout:
            return
        got.append((struct.unpack(">i", datagram[-4:])[0], time.time()))


def send(count, rate):
    """When each datagram is to arrive."""
    sender = socket.socket(socket.AF_INET, socket.SOCK_DGRAM)
    wanted, start = [], time.time()
    for n in range(count):
        while time.time() < start + n / rate:
            time.sleep(0.0001)
        timed = n % 10 == 9
        wanted.append(time.time() + (AHEAD if timed else 0))
        sender.sendto(bundle(wanted[n], message(n)) if timed else message(n), ("127.0.0.1", PORT))
    return wanted


def watch(folder, parts, ends):
    """When each recording but the first is there."""
    while not ends.is_set():
        for name in os.listdir(folder):
            if name.startswith("show.rec.") and name not in parts:
                parts[name] = time.time()
        time.sleep(0.001)


def calls(name):
    """The numbers that the recording's calls have."""
    with open(name) as recording:
        said = subprocess.run([f"{TOP}/bin/osc", "replay"], stdin=recording, capture_output=True, text=True, check=True)
    return [int(line.split("i:")[-1]) for line in said.stdout.splitlines() if line.startswith("call ")]


def main():
    count, rate, size = [int(word) for word in (sys.argv[1:] + ["20000", "1000", "600000"][len(sys.argv) - 1:])]
    receiver = socket.socket(socket.AF_INET, socket.SOCK_DGRAM)
    receiver.setsockopt(socket.SOL_SOCKET, socket.SO_RCVBUF, 1 << 24)
    receiver.bind(("127.0.0.1", 0))
    receiver.settimeout(2)
    with tempfile.TemporaryDirectory() as folder:
        patch, file = f"{folder}/patch.osc", f"{folder}/show.rec"
        with open(patch, "w") as out:
            out.writelines(f"add /light/{k} 127.0.0.1 {receiver.getsockname()[1]}\n" for k in range(METHODS))
        words = ["serve", "--port", str(PORT), "--units", "256", "--blocks", "1024", "--methods", "128", "--nodes", "512", "--turn-over", str(size), "--quiet"]
        show = subprocess.Popen([f"{TOP}/bin/oscstage", *words, patch, file], stdin=subprocess.PIPE)
        time.sleep(2)
        got, begun, ends = [], {}, threading.Event()
        thread = threading.Thread(target=receive, args=(receiver, got))
        thread.start()
        watcher = threading.Thread(target=watch, args=(folder, begun, ends))
        watcher.start()
        wanted = send(count, rate)
        time.sleep(AHEAD + 1)
        show.communicate(b"end\n")
        thread.join()
        ends.set()
        watcher.join()
        parts = sorted((name for name in os.listdir(folder) if name.startswith("show.rec")), key=lambda name: (len(name), name))
        recorded = [n for part in parts for n in calls(f"{folder}/{part}")]
    late = sorted(1000 * (when - wanted[n]) for n, when in got)
    at = lambda share: late[min(len(late) - 1, int(share * len(late)))]
    print(f"{len(parts)} recordings, status {show.returncode}")
    print(f"sent {count}, sent on {len(got)}, of which different {len({n for n, _ in got})}")
    print(f"recorded calls {len(recorded)}, each once: {sorted(recorded) == list(range(count))}")
    print("messages in order:", [n for n in recorded if n % 10 != 9] == [n for n in range(count) if n % 10 != 9])
    seams = sorted(max([0.0] + [1000 * (when - wanted[n]) for n, when in got if abs(when - seam) < NEAR]) for seam in begun.values())
    print(f"seams, ms: {' '.join(f'{seam:.1f}' for seam in seams)}")
    print(f"late by ms: median {at(0.5):.2f}, 99th {at(0.99):.2f}, 99.9th {at(0.999):.2f}, most {late[-1]:.2f}")


main()
