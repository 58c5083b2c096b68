#!/usr/bin/env python3
"""How far each message of a sheet of cues arrives from its moment, on loopback.

    python3 bench/cues.py [SHEET [PATCH [ROUNDS]]]

Plays SHEET (examples/sixteen-bars.cues), three seconds ahead in place of eight o'clock, by `oscstage play`, with the methods of PATCH
(examples/band.patch) sent to a port of this program; and compares what comes, in its order, with the notes of `oscstage play
--as-score`. It needs what bin/oscstage needs.
"""
import os
import socket
import subprocess
import sys
import threading
import time

TOP = os.path.join(os.path.dirname(os.path.abspath(__file__)), "..")
PORT = 9400
SECONDS_TO_1970 = 2208988800
EIGHT = "20:00:00"


def patch_of(text):
    """The patch with all that it sends on sent here, and the addresses that it sends on."""
    lines, sent = [], set()
    for words in (line.split("#")[0].split() for line in text.splitlines()):
        if len(words) > 2:
            sent.add(words[1])
        if words:
            lines.append(" ".join(words[:2] + (["127.0.0.1", str(PORT)] if len(words) > 2 else [])))
    return "\n".join(lines) + "\n", sent


def oscstage(words, sheet):
    run = subprocess.run([TOP + "/bin/oscstage", "play", *words], input=sheet, capture_output=True, text=True)
    if run.returncode:
        sys.exit(run.stderr)
    return run


def notes_of(patch, sheet, sent):
    """The moment and the address of each note that is sent on, in order."""
    notes = []
    for line in oscstage(["--as-score", patch], sheet).stdout.splitlines():
        moment, address = line.split()[:2]
        if address in sent:
            notes.append((int(moment, 16) / 2**32 - SECONDS_TO_1970, address))
    return notes


def receive(receiver, got, over):
    while True:
        try:
            datagram = receiver.recv(65536)
        except socket.timeout:
            if over.is_set():
                return
            continue
        got.append((time.time(), datagram.split(b"\0")[0].decode()))


def main(name="examples/sixteen-bars.cues", patch_name="examples/band.patch", rounds="1"):
    patch, sent = patch_of(open(os.path.join(TOP, patch_name)).read())
    text = open(os.path.join(TOP, name)).read()
    patch_file = "/tmp/cues-%d.patch" % os.getpid()
    open(patch_file, "w").write(patch)
    oscstage(["--as-score", patch_file], text) # builds it
    for round_number in range(int(rounds)):
        start = time.strftime("%Y-%m-%dT%H:%M:%SZ", time.gmtime(time.time() + 3))
        sheet = text.replace(EIGHT, start)
        wanted = notes_of(patch_file, sheet, sent)
        receiver = socket.socket(socket.AF_INET, socket.SOCK_DGRAM)
        receiver.bind(("127.0.0.1", PORT))
        receiver.settimeout(0.5)
        got, over = [], threading.Event()
        thread = threading.Thread(target=receive, args=(receiver, got, over))
        thread.start()
        run = oscstage([patch_file], sheet)
        over.set()
        thread.join()
        receiver.close()
        if [address for _, address in got] != [address for _, address in wanted]:
            sys.exit("%d messages came for %d notes, or in another order" % (len(got), len(wanted)))
        away = sorted((came - moment) * 1000 for (came, _), (moment, _) in zip(got, wanted))
        print("%d messages; milliseconds after the moment: least %.2f, median %.2f, 99th %.2f, most %.2f"
              % (len(away), away[0], away[len(away) // 2], away[len(away) * 99 // 100], away[-1]))
        sys.stderr.write(run.stderr)
    os.remove(patch_file)


main(*sys.argv[1:])
