"""Draws messages, and compares what the library writes and reads with the bytes that the OSC 1.0 Specification gives them, which are
made here by themselves: messages.py COUNT."""
import math
import os
import random
import struct
import sys

sys.dont_write_bytecode = True
sys.path.insert(0, f"{os.path.dirname(os.path.abspath(__file__))}/../../examples/python")
import vestrulj  # noqa: E402


def text(raw):
    return raw + b"\0" * (4 - len(raw) % 4)


def blob(raw):
    return struct.pack(">I", len(raw)) + raw + b"\0" * (-len(raw) % 4)


def drawn_text(drawn):
    return "".join(drawn.choice("abc /,#\u00e9\u266b") for _ in range(drawn.randrange(12)))


def single(drawn, tag):
    """A value as Python has it, and its bytes."""
    if tag in "sS":
        value = drawn_text(drawn)
        return value, text(value.encode())
    if tag == "b":
        value = drawn.randbytes(drawn.randrange(12))
        return value, blob(value)
    if tag in "fd":
        value = drawn.choice([0.0, -1.5, 440.0, 2.0**-20])
        return value, struct.pack(f">{tag}", value)
    if tag in "TFNI":
        return {"T": True, "F": False, "N": None, "I": math.inf}[tag], b""
    raw = drawn.randbytes(8 if tag in "ht" else 4)
    if tag == "c":
        raw = bytes([0, 0, 0, drawn.randrange(1, 128)])
        return chr(raw[3]), raw
    if tag == "m":
        return raw, raw
    return int.from_bytes(raw, "big", signed=tag in "ih"), raw


def arguments(drawn, deep=0):
    """The tags of some arguments, their bytes, what is written and what has to be read."""
    tags, raw, written, read = "", b"", [], []
    for _ in range(drawn.randrange(6)):
        if deep < 3 and drawn.random() < 0.2:
            inner_tags, inner_raw, inner_written, inner_read = arguments(drawn, deep + 1)
            tags, raw = f"{tags}[{inner_tags}]", raw + inner_raw
            written.append(inner_written)
            read.append(inner_read)
            continue
        tag = drawn.choice("ifsbhtdScrmTFNI")
        value, bytes_ = single(drawn, tag)
        tags, raw = tags + tag, raw + bytes_
        written.append((tag, value))
        read.append(value)
    return tags, raw, written, read


def main(count):
    failed = 0
    for seed in range(int(count)):
        drawn = random.Random(seed)
        pattern = drawn.choice(["/a", "/light/dim", "/{a,b}/*", "/x/[0-9]"])
        tags, raw, written, read = arguments(drawn)
        wanted = text(pattern.encode()) + text(b"," + tags.encode()) + raw
        message = vestrulj.message(pattern, *written)
        if message != wanted or vestrulj.read_message(wanted) != (pattern, read):
            failed += 1
            print(f"seed {seed}: {wanted.hex()} is written as {message.hex()} and read as {vestrulj.read_message(wanted)}")
    print(f"{count} messages, {failed} differ")
    return failed != 0


sys.exit(main(*sys.argv[1:]))
