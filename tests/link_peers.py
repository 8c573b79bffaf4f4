"""The program where links come over TCP, and peers that are the other ends of these links.

Ports are taken below those that the system hands out by itself, so that none is another link's by chance. Whoever waits
for a peer or for the program waits for at most SECONDS.
"""
import pathlib
import random
import socket
import struct
import subprocess
import threading
import time

SECONDS, ATTEMPTS = 60, 3
HOST, HOST_6 = "127.0.0.1", "::1"
PORTS = 20_000, 32_000

lock, used, children = threading.Lock(), set(), []


def family(host):
    return socket.AF_INET6 if ":" in host else socket.AF_INET


def address_text(host, port):
    return "[%s]:%d" % (host, port) if ":" in host else "%s:%d" % (host, port)


def is_free(host, port):
    with socket.socket(family(host)) as probe:
        try:
            probe.bind((host, port))
        except OSError:
            return False
    return True


def free_port(host=HOST):
    """A port that nobody has, and that wasn't answered before."""
    while True:
        port = random.SystemRandom().randrange(*PORTS)
        with lock:
            is_new = port not in used
            used.add(port)
        if is_new and is_free(host, port):
            return port


def sockets():
    """What the system says of each socket: its own port and the other end's, its state, and how many bytes of it wait
    to be taken and to be read."""
    tables = [pathlib.Path("/proc/net") / name for name in ("tcp", "tcp6")]
    for line in (line for table in tables if table.exists() for line in table.read_text().splitlines()[1:]):
        _, own, other, state, queues, *_ = line.split()
        yield own.split(":")[1], other.split(":")[1], state, *(int(queue, 16) for queue in queues.split(":"))


def is_listened_at(port):
    """Whether a program listens at the port."""
    return any(own == "%04X" % port and state == "0A" for own, _, state, *_ in sockets())


class Peer:
    """One end of a link. It is tried until the program has opened its door."""

    def __init__(self, address, is_wanted=lambda: True, room=None):
        until = time.monotonic() + SECONDS
        while True:
            self.socket = socket.socket(family(address[0]))
            self.socket.settimeout(SECONDS)
            if room:
                self.socket.setsockopt(socket.SOL_SOCKET, socket.SO_RCVBUF, room)
            try:
                self.socket.connect(address)
                return
            except ConnectionRefusedError:
                self.socket.close()
                if time.monotonic() > until or not is_wanted():
                    raise
                time.sleep(0.005)

    def send(self, text):
        self.socket.sendall(text.encode() if isinstance(text, str) else text)
        return self

    def end(self):
        """Says that no more comes. What comes in can still be read."""
        self.socket.shutdown(socket.SHUT_WR)
        return self

    def read(self, length):
        """So many bytes, or fewer where they end before."""
        taken = b""
        while len(taken) < length and (piece := self.socket.recv(length - len(taken))):
            taken += piece
        return taken.decode()

    def rest(self):
        """All that comes until the end."""
        with self.socket:
            return self.read(1 << 32)

    def asked(self, text):
        """All that comes in answer to the text."""
        return self.send(text).end().rest()

    def is_quiet(self, seconds):
        """Whether nothing comes for so long, and no end."""
        self.socket.settimeout(seconds)
        try:
            self.socket.recv(1, socket.MSG_PEEK)
            return False
        except TimeoutError:
            return True
        finally:
            self.socket.settimeout(SECONDS)

    def is_read(self):
        """Whether all that was sent was read at the other end, within the time."""
        own, other = ("%04X" % name[1] for name in (self.socket.getsockname(), self.socket.getpeername()))
        until = time.monotonic() + SECONDS
        while time.monotonic() < until:
            found = list(sockets())
            sent = any(row[:2] == (own, other) and row[3] == 0 for row in found)
            read = any(row[:2] == (other, own) and row[4] == 0 for row in found)
            if sent and read:
                return True
            time.sleep(0.005)
        return False

    def fill(self, text, quiet):
        """Sends the text again and again, until nothing is taken for so many seconds; how many bytes were taken."""
        data, count = text.encode(), 0
        self.socket.settimeout(quiet)
        while True:
            try:
                count += self.socket.send(data[count % len(data):])
            except TimeoutError:
                return count

    def close(self):
        self.socket.close()

    def reset(self):
        """Gives the link up, so that whoever reads it is told of a fault."""
        self.socket.setsockopt(socket.SOL_SOCKET, socket.SO_LINGER, struct.pack("ii", 1, 0))
        self.socket.close()


class Served:
    """The program that takes so many links at an address of its own."""

    def __init__(self, words, links, host=HOST, port=None, **more):
        for _ in range(ATTEMPTS):
            self.address = host, port or free_port(host)
            self.start([*words, "--listen", address_text(*self.address), "--links", str(links)], **more)
            # Somebody else may have taken the port in the meantime.
            if port or not self.lost_port():
                break

    def start(self, words, **more):
        self.child = subprocess.Popen(words, stdin=subprocess.DEVNULL, stdout=subprocess.PIPE, **more)
        with lock:
            children.append(self.child)

    def lost_port(self):
        """Whether the program ended since it couldn't open its door."""
        while self.is_running() and not is_listened_at(self.address[1]):
            time.sleep(0.005)
        return self.child.poll() == 5

    def peer(self, **more):
        return Peer(self.address, self.is_running, **more)

    def peers(self, count):
        """So many peers, in order: the program takes their links in that order too."""
        return [self.peer() for _ in range(count)]

    def is_running(self):
        return self.child.poll() is None

    def ended(self):
        """What it writes, and its status."""
        text, _ = self.child.communicate(timeout=SECONDS)
        return text.decode(), self.child.returncode

    def kill(self):
        self.child.kill()
        self.child.communicate(timeout=SECONDS)


def end_all():
    """Ends each program that runs still."""
    for child in children:
        if child.poll() is None:
            child.kill()
