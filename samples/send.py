#!/usr/bin/env python3
"""Sends what comes on standard input over a link, ends its side, and meanwhile writes what comes back, until the other
side ends: `send.py HOST PORT < messages > receipts`. It waits 10 seconds for a door that isn't open yet. The status is
1 where there is no link, it broke, the other side ended before it had all that was sent and its end, so that not all
receipts can have come, or the receipts couldn't be written; what came until then is written. It is 2 where the words
are other ones; `send.py --help` writes this. What the other side has is what its system has taken, as Linux tells it;
behind a tunnel the other side is the tunnel's end.

With --no-receipts before HOST all is sent, whenever the other side ends what it writes: `validate` and `watch` write
nothing over a link, and may say so while they read it.
"""
import os
import signal
import socket
import sys
import threading
import time

if signal.getsignal(signal.SIGINT) is signal.default_int_handler:
    signal.signal(signal.SIGINT, signal.SIG_DFL)  # Ctrl-C ends it without a word
if sys.stdin is None or sys.stdout is None:
    sys.exit("send.py: standard input or output is closed")  # the link may not come to stand there
if sys.stderr is None:
    sys.stderr = open(os.devnull, "w")
words = sys.argv[1:]
if words in (["--help"], ["-h"], ["help"]):
    try:
        os.write(1, __doc__.encode())
    except OSError as fault:
        sys.exit(f"send.py: standard output: {fault.strerror}")
    sys.exit(0)
wants_receipts = words[:1] != ["--no-receipts"]
if not wants_receipts:
    words = words[1:]
host, port = words if len(words) == 2 else ("", "")
if not (port.isascii() and port.isdecimal() and len(port) < 6 and 0 < int(port) < 65536):  # a greater one would be taken modulo 65536
    print("usage: send.py [--no-receipts] HOST PORT < messages > receipts; a PORT is 1 to 65535", file=sys.stderr)
    sys.exit(2)
for attempt in range(101):
    try:
        link = socket.create_connection((host, int(port)))
        break
    except ConnectionRefusedError as fault:
        if attempt == 100:
            sys.exit(f"send.py: {host}, port {port}: {fault.strerror}")
        time.sleep(0.1)
    except (OSError, UnicodeError) as fault:
        sys.exit(f"send.py: {host}, port {port}: {fault}")
faults, is_sent = [], threading.Event()
EARLY = "the other side ended before all was sent"
TIME_WAIT, CLOSED, CLOSE_WAIT = 6, 7, 8


def is_in(*states):
    """Whether the link is in one of these states of TCP; None where the system doesn't tell."""
    if sys.platform != "linux":
        return None
    return link.getsockopt(socket.IPPROTO_TCP, socket.TCP_INFO, 1)[0] in states


def send():
    try:
        while piece := os.read(0, 65536):  # a buffered reader would be locked at the end
            link.sendall(piece)
        if wants_receipts and is_in(CLOSE_WAIT):
            faults.append(EARLY)
        is_sent.set()  # before the other side can know
        link.shutdown(socket.SHUT_WR)
    except OSError as fault:
        faults.append(fault)


# Receipts come while messages are still sent: who doesn't read them then is waited for, and waits itself.
sender = threading.Thread(target=send, daemon=True)
sender.start()
try:
    while rest := link.recv(65536):
        while rest:
            rest = rest[os.write(1, rest):]  # a write may take a part alone
except OSError as fault:
    faults.append(fault)
if is_sent.is_set() or not wants_receipts:
    sender.join()
    ended_early = wants_receipts and is_in(TIME_WAIT, CLOSED) is False  # its end was under way before it had ours
    if not faults and (link.getsockopt(socket.SOL_SOCKET, socket.SO_ERROR) or ended_early):
        faults.append(EARLY)
elif not faults:
    faults.append(EARLY)
if faults:
    sys.exit(f"send.py: {faults[0]}")
