# Sends messages and bundles by python3-liblo: python_liblo.py URL
import sys
import time

import liblo
from liblo import Bundle, Message

to = liblo.Address(sys.argv[1])
liblo.send(to, "/1/fader1", 0.5)
liblo.send(to, "/cue/name", "act two")
liblo.send(to, "/a", ("b", b"\x01\x02\x03"), True, None)
liblo.send(to, Bundle(Message("/a", 1), Message("/b", 2)))
liblo.send(to, Bundle(liblo.time() + 0.2, Message("/a", 3), Message("/b", 4)))
liblo.send(to, "light/dim", 7)
liblo.send(to, "/cue/name", "caf\u00e9")
liblo.send(to, "/caf\u00e9", 1)
time.sleep(1)  # a link over TCP ends with its connection, and then what waits isn't called
