"""The desk lamp of examples/c in Python: lamp.py [PORT].

VESTRULJ_LIBRARY names the library, as out/lib/libvestrulj.so.1 after bin/library, where the system doesn't find it."""
import select
import socket
import sys
import time

import vestrulj

METHODS = {
    "/lamp/level": lambda value=1: f"level {value:.2f}",
    "/lamp/on": lambda value=True: "on" if value else "off",
    "/lamp/unplug": lambda *_: "unplugged",
}


def take(server, link):
    try:
        server.submit(link.recv(65536))
    except BlockingIOError:
        pass
    except vestrulj.BadPacket as fault:
        print(f"no packet: fault {fault.kind} at {fault.place}")
    except vestrulj.Refused as why:
        print(f"no room: {why}")


def seconds_until(moment):
    return None if moment is None else max(0, vestrulj.seconds(moment) - time.time()) + 0.001


def main(port=0):
    link = socket.socket(socket.AF_INET, socket.SOCK_DGRAM)
    link.bind(("", int(port)))
    link.setblocking(False)
    print("port", link.getsockname()[1], flush=True)
    with vestrulj.Server(units=64, blocks=256, methods=16, nodes=32) as server:
        for address in METHODS:
            server.add(address)
        while True:
            select.select([link], [], [], seconds_until(server.next_moment))
            server.tick(vestrulj.moment(time.time()))
            take(server, link)
            for call in server:
                print(METHODS[call.address](*call.arguments), flush=True)
                if call.address == "/lamp/unplug":
                    return


main(*sys.argv[1:])
