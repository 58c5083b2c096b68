#!/usr/bin/env python3
"""How an honest browser is answered by `oscstage page` while others do it harm, on loopback.

    python3 bench/page.py [FILE [PORT]]        the table of README.md
    python3 bench/page.py --shots [FILE [PORT]]    three pictures of the page, by Chromium, in this folder

Serves a page of FILE (a recording; by default that of examples/light-cues.osc) at PORT, 8090. One browser asks for the state five times a
second, and each line of the table has what others do meanwhile, how long the answers took in milliseconds, and the processor time that
the page took. It needs what bin/osc and bin/oscstage need; for the pictures `chromium`.
"""
import os
import random
import resource
import socket
import subprocess
import sys
import tempfile
import threading
import time
import urllib.request

TOP = os.path.join(os.path.dirname(os.path.abspath(__file__)), "..")
SIZES = {"phone": "390,844", "tablet": "820,1180", "desk": "1280,800"}
SECONDS = 20


def connect(port):
    one = socket.socket()
    one.settimeout(5)
    one.connect(("127.0.0.1", port))
    return one


def answers(port, seconds):
    """How long each answer took, in milliseconds; None for one that failed."""
    took = []
    end = time.time() + seconds
    while time.time() < end:
        start = time.time()
        try:
            with urllib.request.urlopen(f"http://127.0.0.1:{port}/state.json", timeout=5) as answer:
                body = answer.read()
            took.append((time.time() - start) * 1000 if body[:1] == b"{" and body[-1:] == b"}" else None)
        except OSError:
            took.append(None)
        time.sleep(0.2)
    return took


def nobody(port, seconds):
    time.sleep(seconds)


def slow(port, seconds):
    """A hundred clients send a byte a second, and come back at once where they are let go."""
    text = b"GET /state.json HTTP/1.1\r\nHost: x\r\nX-Slow: " + b"a" * 1000
    ones = [[connect(port), 0] for _ in range(100)]
    for _ in range(seconds):
        for one in ones:
            try:
                one[0].send(text[one[1]:one[1] + 1])
                one[1] += 1
            except OSError:
                one[0].close()
                one[:] = [connect(port), 0]
        time.sleep(1)
    for one, _ in ones:
        one.close()


def rubbish(port, seconds):
    """Bytes that are no request, too many fields, long targets, bodies, another protocol."""
    draw = random.Random(7)
    end = time.time() + seconds
    while time.time() < end:
        for text in (
            bytes(draw.randrange(256) for _ in range(draw.randrange(1, 3000))),
            b"GET / HTTP/1.1\r\n" + b"".join(b"A%d: x\r\n" % i for i in range(70)) + b"\r\n",
            b"GET /" + b"a" * 20000 + b" HTTP/1.1\r\n\r\n",
            b"POST / HTTP/1.1\r\nContent-Length: 5\r\n\r\nhello",
            b"\x16\x03\x01\x02\x00\x01\x00\x01\xfc\x03\x03",
            b"GET /state.json HTTP/1.1\r\nHost: x\r\n\r\n" * 50,
        ):
            try:
                one = connect(port)
                one.sendall(text)
                one.settimeout(0.2)
                one.recv(100)
            except OSError:
                pass
            one.close()


def deaf(port, seconds):
    """A hundred clients ask for the page and read nothing."""
    ones = []
    for _ in range(100):
        one = socket.socket()
        one.setsockopt(socket.SOL_SOCKET, socket.SO_RCVBUF, 2048)
        one.settimeout(5)
        one.connect(("127.0.0.1", port))
        one.sendall(b"GET / HTTP/1.1\r\n\r\n")
        ones.append(one)
    time.sleep(seconds)
    for one in ones:
        one.close()


def many(port, seconds):
    """1,600 connections are held."""
    ones = []
    for _ in range(1600):
        try:
            one = connect(port)
            one.send(b"GET /")
            ones.append(one)
        except OSError:
            pass
    time.sleep(seconds)
    for one in ones:
        one.close()


def processor(pid):
    """The seconds of processor that the process and its children took."""
    total = 0.0
    for one in os.listdir("/proc"):
        if one.isdigit():
            try:
                fields = open(f"/proc/{one}/stat").read().rsplit(")", 1)[1].split()
                if int(one) == pid or int(fields[1]) == pid:
                    total += (int(fields[11]) + int(fields[12])) / os.sysconf("SC_CLK_TCK")
            except OSError:
                pass
    return total


def recording(folder):
    name = os.path.join(folder, "light-cues.rec")
    with open(TOP + "/examples/light-cues.osc") as script, open(name, "wb") as out:
        subprocess.run([TOP + "/bin/osc", "run", "--bytes"], stdin=script, stdout=out, check=True)
    return name


def table(port, pid):
    print("| others | answers | median | 95th | most | failed | processor, s a minute |\n|---|---|---|---|---|---|---|")
    works = (nobody, slow, rubbish, deaf, many)
    for work, name in zip(works, ("nobody", "100 that send a byte a second", "rubbish", "100 that read nothing", "1,600 held")):
        before = processor(pid)
        other = threading.Thread(target=work, args=(port, SECONDS))
        other.start()
        took = answers(port, SECONDS)
        other.join()
        spent = (processor(pid) - before) * 60 / SECONDS
        good = sorted(one for one in took if one is not None)
        print(f"| {name} | {len(good)} | {good[len(good) // 2]:.1f} | {good[len(good) * 95 // 100]:.1f} | {good[-1]:.1f} "
              f"| {len(took) - len(good)} | {spent:.2f} |", flush=True)


def shots(port):
    for name, size in SIZES.items():
        subprocess.run(["chromium", "--headless", "--no-sandbox", "--disable-gpu", "--hide-scrollbars", f"--window-size={size}",
                        "--virtual-time-budget=3000", f"--screenshot={name}.png", f"http://127.0.0.1:{port}/"],
                       check=True, capture_output=True)
        print(f"{name}.png")


def main():
    words = [word for word in sys.argv[1:] if word != "--shots"]
    resource.setrlimit(resource.RLIMIT_NOFILE, (4096, resource.getrlimit(resource.RLIMIT_NOFILE)[1]))
    with tempfile.TemporaryDirectory() as folder:
        file = words[0] if words else recording(folder)
        port = int(words[1]) if len(words) > 1 else 8090
        page = subprocess.Popen([TOP + "/bin/oscstage", "page", "--port", str(port), file], stderr=subprocess.PIPE, text=True)
        try:
            print(page.stderr.readline().strip(), file=sys.stderr)
            shots(port) if "--shots" in sys.argv else table(port, page.pid)
        finally:
            page.terminate()


main()
