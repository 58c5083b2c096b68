"""The Vestrulj OSC 1.0 server for Python, over its library for C (bin/library).

    from vestrulj import Server, message

    with Server() as server:
        server.add("/light/dim")
        server.submit(message("/light/dim", 7))
        for call in server:
            print(call.address, call.arguments)    # /light/dim [7]

Iteration does what is due: it releases unit after unit, and ends when nothing is due. Then `next_moment` is when the next one will
be. Moments are NTP times, 32 bits of seconds since 1900 and 32 of fraction; `moment(time.time())` makes one. A refusal is a
`Refused`, or a kind of it. A server is used by the thread that made it.
"""
import ctypes as c
import ctypes.util
import math
import os
import struct
from typing import NamedTuple

__all__ = [
    "BadPacket", "Call", "Queued", "Refused", "Released", "Server",
    "bundle", "check", "matches", "message", "moment", "read_message", "seconds",
]  # fmt: skip


class _Server(c.Structure):
    _fields_ = [("inside", c.c_void_p), ("is_open", c.c_bool)]


class _Limits(c.Structure):
    _fields_ = [(name, c.c_uint32) for name in ("units", "blocks", "methods", "nodes", "callers", "recording")]
    _fields_ += [("discards_late", c.c_bool)]


class _Answer(c.Structure):
    _fields_ = [("status", c.c_uint32), ("number", c.c_uint32), ("unit", c.c_uint64), ("count", c.c_uint32)]
    _fields_ += [("late", c.c_uint32), ("need", c.c_uint64), ("free", c.c_uint64)]


class _Call(c.Structure):
    _fields_ = [("unit", c.c_uint64), ("method", c.c_uint32), ("index", c.c_uint32), ("size", c.c_uint32)]


class _Argument(c.Structure):
    _fields_ = [("word", c.c_uint64), ("place", c.c_uint32), ("size", c.c_uint32), ("tag", c.c_uint32)]


def _load():
    """Loads the library: the file that VESTRULJ_LIBRARY names, else the one that the system finds."""
    lib = c.CDLL(os.environ.get("VESTRULJ_LIBRARY") or ctypes.util.find_library("vestrulj") or "libvestrulj.so.1")
    server, text, size = c.POINTER(_Server), c.c_char_p, c.c_size_t
    for name, result, *words in [
        ("osc_server_open", _Answer, server, c.POINTER(_Limits)),
        ("osc_server_close", None, server),
        ("osc_server_add", _Answer, server, text, size),
        ("osc_server_remove", _Answer, server, text, size),
        ("osc_server_submit", _Answer, server, text, size),
        ("osc_server_tick", _Answer, server, c.c_uint64),
        ("osc_server_release", _Answer, server),
        ("osc_server_due", _Answer, server),
        ("osc_server_next_call", c.c_uint32, server, c.POINTER(_Call), text, size),
        ("osc_server_recorded", size, server),
        ("osc_server_read_recording", size, server, size, text, size),
        ("osc_packet_check", _Answer, text, size),
        ("osc_message_read", _Answer, text, size, c.POINTER(_Argument), size),
        ("osc_message_write", _Answer, text, size, c.POINTER(_Argument), size, text, size, text, size),
        ("osc_pattern_matches", c.c_uint32, text, size, text, size),
    ]:
        call = getattr(lib, name)
        call.restype, call.argtypes = result, words
    return lib


_lib = _load()
_OK, _NOTHING_DUE, _BAD_PACKET, _NO_MEMORY = 0, 1, 12, 15
_REASONS = [
    "ok", "nothing due", "recording full", "units full", "pool full", "taken", "under a method", "is a container", "methods full",
    "nodes full", "not there", "clock back", "bad packet", "bad address", "bad limit", "out of memory", "closed", "open",
    "no call", "buffer small", "callers full", "not enrolled", "bad pattern", "bad argument", "too long", "brackets",
]  # fmt: skip


class Refused(Exception):
    """A call that was refused. `status` is the status of vestrulj.h, and `answer` has the numbers that go with it."""

    def __init__(self, answer):
        self.answer, self.status = answer, answer.status
        super().__init__(f"{_REASONS[answer.status]} (status {answer.status}, number {answer.number})")


class BadPacket(Refused, ValueError):
    """Bytes that are no packet: the kind of the first fault, 1 to 18 (docs/FORMATS.md), and its place."""

    def __init__(self, answer):
        super().__init__(answer)
        self.kind, self.place = answer.number, answer.unit
        self.args = (f"bad packet: fault {self.kind} at {self.place}",)


class Queued(NamedTuple):
    """What a packet became: so many units, numbered from `first` on. Of them `late` were late and are discarded."""

    first: int
    count: int
    late: int


class Released(NamedTuple):
    """A unit that was released, and how many calls it makes."""

    unit: int
    count: int


class Call(NamedTuple):
    """A method's call: which message of which unit, and the method's address and id."""

    address: str
    arguments: list
    method: int
    unit: int
    index: int
    message: bytes


def _accepted(answer):
    if answer.status == _NO_MEMORY:
        raise MemoryError
    if answer.status == _BAD_PACKET:
        raise BadPacket(answer)
    if answer.status != _OK:
        raise Refused(answer)
    return answer


def moment(seconds_since_1970):
    """The moment of a time as time.time() gives it."""
    return int((seconds_since_1970 + 2208988800) * 2**32)


def seconds(moment):
    """The time of a moment as time.time() gives it."""
    return moment / 2**32 - 2208988800


def check(packet):
    """Raises BadPacket where the bytes are no packet."""
    _accepted(_lib.osc_packet_check(packet, len(packet)))


def matches(pattern, address):
    """Whether the pattern matches the address."""
    pattern, address = pattern.encode(), address.encode()
    result = _lib.osc_pattern_matches(pattern, len(pattern), address, len(address))
    if result == 4:
        raise MemoryError
    if result > 1:
        raise ValueError("no pattern" if result == 2 else "no address")
    return result == 1


def _value(tag, argument, message):
    word, bits = argument.word, argument.word & 0xFFFFFFFF
    if tag in "sSb":
        found = message[argument.place : argument.place + argument.size]
        return found if tag == "b" else found.decode(errors="surrogateescape")
    return {
        "i": lambda: bits - (bits >> 31 << 32),
        "h": lambda: word - (word >> 63 << 64),
        "f": lambda: struct.unpack("f", struct.pack("I", bits))[0],
        "d": lambda: struct.unpack("d", struct.pack("Q", word))[0],
        "t": lambda: word,
        "c": lambda: chr(bits) if bits < 0x110000 else bits,
        "r": lambda: bits,
        "m": lambda: struct.pack(">I", bits),
        "T": lambda: True,
        "F": lambda: False,
        "N": lambda: None,
        "I": lambda: math.inf,
    }[tag]()


def read_message(message):
    """The address pattern of a message and its arguments: numbers, str for s and S, bytes for b and m, an int for t and r, a str of
    one letter for c, True, False, None, and math.inf for I. An array is a list."""
    arguments = (_Argument * (len(message) + 1))()
    answer = _accepted(_lib.osc_message_read(message, len(message), arguments, len(arguments)))
    open_lists = [[]]
    for argument in arguments[: answer.count]:
        tag = chr(argument.tag)
        if tag == "[":
            open_lists.append([])
        elif tag == "]":
            inner = open_lists.pop()
            open_lists[-1].append(inner)
        else:
            open_lists[-1].append(_value(tag, argument, message))
    return message[: message.index(b"\0")].decode("ascii"), open_lists[0]


def _tagged(value):
    """The tags and the values of an argument, one for each argument of the message."""
    if isinstance(value, list):
        return [("[", None), *(it for inner in value for it in _tagged(inner)), ("]", None)]
    if isinstance(value, tuple):
        return [value]
    if value is None or isinstance(value, bool):
        return [({True: "T", False: "F", None: "N"}[value], None)]
    if isinstance(value, int):
        return [("i" if -(2**31) <= value < 2**31 else "h", value)]
    return [("f" if isinstance(value, float) else "s" if isinstance(value, str) else "b", value)]


def _word(tag, value):
    if tag in "ihrt":
        return value & (0xFFFFFFFF if tag in "ir" else 0xFFFFFFFFFFFFFFFF)
    if tag in "fd":
        return struct.unpack("I" if tag == "f" else "Q", struct.pack(tag, value))[0]
    return ord(value) if tag == "c" else int.from_bytes(value, "big") if tag == "m" else 0


def message(pattern, *arguments):
    """The bytes of a message: an int is i, or h where it takes 64 bits, a float f, a str s, bytes b, True, False and None are T, F
    and N, and a list is an array. A pair of a tag and a value is that: ("d", 0.1), ("t", moment), ("I", None)."""
    tagged = [it for value in arguments for it in _tagged(value)]
    words, texts = (_Argument * len(tagged))(), b""
    for argument, (tag, value) in zip(words, tagged):
        argument.tag, argument.place = ord(tag), len(texts)
        if tag in "sSb":
            text = value.encode(errors="surrogateescape") if isinstance(value, str) else value
            argument.size = len(text)
            texts += text
        else:
            argument.word = _word(tag, value)
    pattern, room = pattern.encode(), c.create_string_buffer(65504)
    answer = _lib.osc_message_write(pattern, len(pattern), words, len(words), texts, len(texts), room, len(room))
    return room[: _accepted(answer).count]


def bundle(moment, *elements):
    """The bytes of a bundle of messages and bundles. 1 is immediately."""
    return b"#bundle\0" + struct.pack(">Q", moment) + b"".join(struct.pack(">I", len(it)) + it for it in elements)


class Server:
    """A server of so many units, blocks, methods and nodes, with a recording of so many bytes (docs/FORMATS.md, "Limits").
    It is closed by close(), at the end of a with, or when it is dropped."""

    def __init__(self, *, units=1024, blocks=4096, methods=1024, nodes=4096, callers=1, recording=1 << 24, discards_late=False):
        self._server = _Server()
        self._addresses = {}
        self._buffer = c.create_string_buffer(65504)
        self.next_moment = None
        limits = _Limits(units, blocks, methods, nodes, callers, recording, discards_late)
        _accepted(_lib.osc_server_open(c.byref(self._server), c.byref(limits)))

    def close(self):
        """Frees what the server has. From then on every call is refused."""
        _lib.osc_server_close(c.byref(self._server))

    def __enter__(self):
        return self

    def __exit__(self, *_):
        self.close()

    def __del__(self):
        if hasattr(self, "_server"):
            self.close()

    def add(self, address):
        """Adds a method at the address, and returns its id."""
        text = address.encode()
        method = _accepted(_lib.osc_server_add(c.byref(self._server), text, len(text))).number
        self._addresses[method] = address
        return method

    def remove(self, address):
        """Removes the method at the address, and returns the id that it had."""
        text = address.encode()
        return _accepted(_lib.osc_server_remove(c.byref(self._server), text, len(text))).number

    def submit(self, packet):
        """Queues what the packet has, all or nothing."""
        answer = _accepted(_lib.osc_server_submit(c.byref(self._server), packet, len(packet)))
        return Queued(answer.unit, answer.count, answer.late)

    def tick(self, moment):
        """Sets the clock. A moment before it is refused."""
        _accepted(_lib.osc_server_tick(c.byref(self._server), moment))

    def release(self):
        """Takes out the unit that is due first, or returns None where nothing is due. Its calls are to be read by calls() before
        the next release."""
        answer = _lib.osc_server_release(c.byref(self._server))
        if answer.status == _NOTHING_DUE:
            self.next_moment = answer.unit or None
            return None
        _accepted(answer)
        return Released(answer.unit, answer.count)

    @property
    def due(self):
        """The moment at which the next unit is due, or None where none waits. Nothing is released."""
        answer = _lib.osc_server_due(c.byref(self._server))
        return None if answer.status == _NOTHING_DUE else _accepted(answer).unit

    def calls(self):
        """The calls of the last release that aren't read yet."""
        call, buffer = _Call(), self._buffer
        while _lib.osc_server_next_call(c.byref(self._server), c.byref(call), buffer, len(buffer)) == _OK:
            message = buffer[: call.size]
            arguments = read_message(message)[1]
            yield Call(self._addresses[call.method], arguments, call.method, call.unit, call.index, message)

    def __iter__(self):
        yield from self.calls()
        while self.release():
            yield from self.calls()

    @property
    def recording(self):
        """All that happened, as bytes for `osc replay`."""
        size = _lib.osc_server_recorded(c.byref(self._server))
        buffer = c.create_string_buffer(size)
        return buffer[: _lib.osc_server_read_recording(c.byref(self._server), 0, buffer, size)]
