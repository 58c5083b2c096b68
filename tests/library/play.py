"""Plays drawn scripts through the library and by `osc run`, and compares the printed text and the recordings, byte for byte:

    play.py COUNT OSC                 by the program OSC
    play.py COUNT --unproved FOLDER   by `rt try` in FOLDER, the crate of the program: the text alone, and with small limits

What the library answers is printed here as docs/FORMATS.md ("Printed text") has it."""
import os
import random
import struct
import subprocess
import sys
import tempfile

sys.dont_write_bytecode = True
sys.path.insert(0, f"{os.path.dirname(os.path.abspath(__file__))}/../../examples/python")
import vestrulj  # noqa: E402

NAMES = ["/a/x", "/a/y", "/b/c", "/b/d", "/c", "/b", "/a-b/x", "/a/x/y", "/" + "n" * 63]
PATTERNS = [*NAMES, "/a/*", "/?/c", "/{a,b}/*", "/a", "/z", "/b/[cd]", "/b/[!c]", "/*", "/{a,}*/x", "//c"]
ROOM = {"units": 1024, "blocks": 4096, "methods": 1024, "nodes": 4096, "recording": 1 << 20, "discards_late": False}
SMALL = {"units": 6, "blocks": 7, "methods": 5, "nodes": 7, "recording": 5000, "discards_late": True}


# Drawing.
def text(words):
    return words.encode() + b"\0" * (4 - len(words.encode()) % 4)


def argument(random, tag):
    if tag in "sS":
        return text(random.choice(["", "hello", "act two", "caf\u00e9", "\\", "x" * 70]))
    if tag == "b":
        size = random.randrange(9)
        return struct.pack(">I", size) + random.randbytes(size) + b"\0" * (-size % 4)
    if tag in "fd":
        return struct.pack(f">{tag}", random.choice([0.0, -0.0, 1.5, 440.0, 1e30, float("inf")]))
    return random.randbytes({"i": 4, "h": 8, "t": 8, "c": 4, "r": 4, "m": 4}.get(tag, 0))


def message(random):
    pattern = text(random.choice(PATTERNS))
    if random.random() < 0.1:
        return pattern
    tags = [random.choice("ifsbhtdScrmTFNI") for _ in range(random.randrange(5))]
    if random.random() < 0.1:
        tags.insert(random.randrange(len(tags) + 1), random.choice("q]"))
    if random.random() < 0.3:
        tags = ["[", *tags, "]"]
    return pattern + text("," + "".join(tags)) + b"".join(argument(random, tag) for tag in tags)


def bundle(random, clock, least=0):
    tag = max(random.choice([1, clock + random.randrange(5), max(2, clock - random.randrange(5))]), least)
    out = b"#bundle\0" + struct.pack(">Q", tag)
    for _ in range(random.randrange(5)):
        element = bundle(random, clock, tag) if random.random() < 0.2 else message(random)
        out += struct.pack(">I", len(element)) + element
    return out


def packet(random, clock):
    found = message(random) if random.random() < 0.5 else bundle(random, clock)
    if random.random() < 0.1:
        place = random.randrange(len(found))
        found = random.choice([found[:place], found[:place] + random.randbytes(1) + found[place + 1 :]])
    return found


def script(seed):
    drawn = random.Random(seed)
    clock = 1
    for _ in range(60):
        kind = drawn.random()
        if kind < 0.25:
            yield ("add" if kind < 0.2 else "remove"), drawn.choice(NAMES)
        elif kind < 0.6:
            yield "send", packet(drawn, clock)
        elif kind < 0.7:
            clock = max(1, clock + drawn.randrange(-1, 4))
            yield "tick", clock
        else:
            yield "pump", None
    yield "pump", None


def line_of(word, operand):
    if word == "send":
        return f"send {operand.hex()}"
    return word if word == "pump" else f"{word} {operand:016x}" if word == "tick" else f"{word} {operand}"


# Playing through the library.
def escaped(value):
    raw = value.encode(errors="surrogateescape")
    return "".join(chr(it) if 0x21 <= it <= 0x7E and it != 0x5C else f"\\x{it:02x}" for it in raw)


def word_of(tag, value):
    if tag in "ih":
        return f"{tag}:{value}"
    if tag in "sS":
        return f"{tag}:{escaped(value)}"
    if tag in "fd":
        return f"{tag}:{struct.pack(f'>{tag}', value).hex()}"
    if tag in "bm":
        return f"{tag}:{value.hex()}"
    if tag in "crt":
        value = ord(value) if isinstance(value, str) else value
        return f"{tag}:{value:0{16 if tag == 't' else 8}x}"
    return tag


def flat(values):
    for value in values:
        yield from ["[", *flat(value), "]"] if isinstance(value, list) else [value]


def call_line(call):
    rest = call.message[call.message.index(b"\0") // 4 * 4 + 4 :]
    tags = rest[: rest.index(b"\0")].decode() if rest else "-"
    words = [word_of(tag, value) for tag, value in zip(tags[1:], flat(call.arguments), strict=True)]
    return " ".join(["call", *map(str, call[3:5]), str(call.method), call.address, tags, *words])


REFUSALS = {
    3: "units-full {need} {free}", 4: "pool-full {need} {free}", 5: "taken {number}", 6: "under-method {number}",
    7: "is-container", 8: "methods-full {number}", 9: "nodes-full {need} {free}", 10: "not-there", 11: "clock-back {unit:016x}",
}  # fmt: skip


def refusal(why):
    if why.status == 2:
        raise why
    numbers = {name: getattr(why.answer, name) for name in ("need", "free", "number", "unit")}
    return REFUSALS[why.status].format(**numbers)


def event_line(server, word, operand):
    try:
        if word == "send":
            queued = server.submit(operand)
            return f"submit 0 queued {queued.first} {queued.count}" + f" late {queued.late}" * (queued.late > 0)
        if word == "tick":
            server.tick(operand)
            return f"tick 0 {operand:016x} ticked"
        return f"{word} 0 {operand} id {getattr(server, word)(operand)}"
    except vestrulj.BadPacket:
        raise
    except vestrulj.Refused as why:
        head = "submit 0" if word == "send" else f"tick 0 {operand:016x}" if word == "tick" else f"{word} 0 {operand}"
        return f"{head} {refusal(why)}"


def play(lines, limits):
    history, faults, last = [], [], []
    with vestrulj.Server(callers=1, **limits) as server:
        for number, (word, operand) in enumerate(lines, 1):
            try:
                if word != "pump":
                    history.append(event_line(server, word, operand))
                while word == "pump" and (released := server.release()):
                    calls = [call_line(call) for call in server.calls()]
                    assert len(calls) == released.count
                    history += [f"release 0 {released.unit} {released.count}", *calls]
            except vestrulj.BadPacket as fault:
                faults.append(f"fault {number} {fault.kind} {fault.place}")
            except vestrulj.Refused as why:
                last = [f"recording-full {why.answer.need} {why.answer.free}"]
                break
        return "".join(f"{line}\n" for line in history + faults + last).encode("latin1"), server.recording


# Playing by osc.
def options(limits):
    numbers = [word for name in ("units", "blocks", "methods", "nodes", "recording") for word in (f"--{name}", str(limits[name]))]
    return [*numbers, "--late", "discard" if limits["discards_late"] else "deliver"]


def play_by(osc, scripts, words):
    return [subprocess.run([osc, "run", *words], input=it, capture_output=True).stdout for it in scripts]


def play_unproved(folder, scripts, words):
    with tempfile.TemporaryDirectory() as room:
        for number, it in enumerate(scripts):
            with open(f"{room}/{number:04}", "wb") as file:
                file.write(it)
        tried = ["rt", "try", "--cases", room, "--", "run", *words]
        said = subprocess.run(tried, cwd=folder, stdout=subprocess.PIPE, stderr=subprocess.DEVNULL, stdin=subprocess.DEVNULL).stdout
    found = []
    for number in range(len(scripts)):
        said = said[said.index(f"== {number:04}\n".encode()) + 8 :]
        ends = said.find(f"== {number + 1:04}\n".encode()) if number + 1 < len(scripts) else len(said)
        found.append(said[:ends])
    return found


def main(count, how, folder=None):
    drawn = [list(script(seed)) for seed in range(int(count))]
    scripts = ["".join(f"{line_of(*it)}\n" for it in lines).encode() for lines in drawn]
    failed = calls = 0
    for limits in [SMALL] if folder else [SMALL, ROOM]:
        words = options(limits)
        printed = play_unproved(folder, scripts, words) if folder else play_by(how, scripts, words)
        recorded = [None] * len(scripts) if folder else play_by(how, scripts, ["--bytes", *words])
        for seed, (lines, *wanted) in enumerate(zip(drawn, printed, recorded, strict=True)):
            text, recording = play(lines, limits)
            calls += text.count(b"\ncall ")
            if text != wanted[0] or wanted[1] not in (recording, None):
                failed += 1
                print(f"seed {seed}: the {'recording' if text == wanted[0] else 'text'} differs")
                print(*next(((a, b) for a, b in zip(text.split(b"\n"), wanted[0].split(b"\n")) if a != b), ()))
    print(f"{len(drawn)} scripts, {calls} calls, {failed} differ")
    return failed != 0 or calls == 0


sys.exit(main(*sys.argv[1:]))
