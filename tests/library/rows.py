"""Whether the library answers what the rows of docs/FORMATS.md say: faults of packets, and which pattern matches which address."""
import os
import re
import sys

sys.dont_write_bytecode = True
top = f"{os.path.dirname(os.path.abspath(__file__))}/../.."
sys.path.insert(0, f"{top}/examples/python")
import vestrulj  # noqa: E402

ROW = re.compile(r"^\| (.+?) \| (.+?) \|(?: (.+?) \|)?$")
NAMED = {"none": b"", "30 zero bytes": bytes(30), "65,508 bytes": b"/" * 65508}


def fault_of(packet):
    try:
        vestrulj.check(packet)
    except vestrulj.BadPacket as fault:
        return f"{fault.kind} at {fault.place}"
    return "none"


def rows(page, section):
    found = re.search(rf"^## {section}$(.*?)^## ", page, re.M | re.S)[1]
    return [match.groups() for line in found.splitlines() if (match := ROW.match(line))]


def main():
    with open(f"{top}/docs/FORMATS.md", encoding="utf-8") as file:
        page = file.read()
    tried = failed = 0
    for section in ("Messages", "Packets"):
        for bytes_, wanted, _ in rows(page, section):
            hexadecimal = re.fullmatch(r"`((?:[0-9a-f]{8} ?)+)`", bytes_)
            packet = bytes.fromhex(hexadecimal[1]) if hexadecimal else NAMED.get(bytes_)
            fault = re.fullmatch(r"\d+ at \d+", wanted)
            if packet is not None and (fault or wanted.startswith(("accepted", "1 unit", "2 units"))):
                tried += 1
                if fault_of(packet) != (wanted if fault else "none"):
                    failed += 1
                    print(f"{bytes_}: {fault_of(packet)}, and not {wanted}")
    for pattern, address, wanted in rows(page, "Patterns"):
        if wanted in ("yes", "no"):
            tried += 1
            if vestrulj.matches(pattern.strip("`"), address.strip("`")) != (wanted == "yes"):
                failed += 1
                print(f"{pattern} {address}: not {wanted}")
    print(f"{tried} rows, {failed} answered otherwise")
    return failed != 0 or tried < 40


sys.exit(main())
