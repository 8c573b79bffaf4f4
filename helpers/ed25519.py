#!/usr/bin/env python3
"""The helper protocol over PyNaCl: what keri-ed25519 does, but for making keys and allowing what was refused, written
apart from it. It reads a record whole for each signature, and has no index.

It is there to test keri-ed25519 against. Seeds aren't locked in memory and aren't wiped here. README.md in the folder
ed25519 has the protocol, the key folder and the statuses.
"""
import fcntl
import hashlib
import os
import re
import stat
import sys

from nacl.exceptions import BadSignatureError
from nacl.signing import SigningKey, VerifyKey

ALPHABET = "ABCDEFGHIJKLMNOPQRSTUVWXYZabcdefghijklmnopqrstuvwxyz0123456789-_"
MOST_BYTES = 65535
WORDS, MALFORMED, READ_FAULT, WRITE_FAULT, KEY_FAULT = 2, 3, 5, 6, 7


class Fault(Exception):
    """What ends the helper: the status, and what its line says."""


def raw_of(text, code, length):
    """The raw bytes behind the code: the digits are one whole number. None where they aren't."""
    if not text.startswith(code) or not set(text) <= set(ALPHABET):
        return None
    number = 0
    for character in text[len(code):]:
        number = 64 * number + ALPHABET.index(character)
    return number.to_bytes(length, "big") if number < 256 ** length else None


def spelled(code, raw, characters):
    number = int.from_bytes(raw, "big")
    return code + "".join(ALPHABET[number >> 6 * place & 63] for place in reversed(range(characters - len(code))))


def taken(length):
    """So many bytes of the input and none behind them, or fewer where it ends."""
    found = b""
    try:
        while len(found) < length and (piece := os.read(0, length - len(found))):
            found += piece
    except OSError as fault:
        raise Fault(READ_FAULT, fault.strerror) from None
    return found


def field(length):
    found = taken(length)
    if len(found) < length:
        raise Fault(MALFORMED, "the question is cut short")
    return found


def primitive(codes, characters, length):
    """A primitive's characters and its raw bytes."""
    text = field(characters).decode("latin-1")
    raw = next(filter(None, (raw_of(text, code, length) for code in codes)), None)
    if raw is None:
        raise Fault(MALFORMED, "a key or signature isn't one")
    return text, raw


def body():
    text = field(8)
    if not set(text) <= set(b"0123456789abcdef") or int(text, 16) > MOST_BYTES:
        raise Fault(MALFORMED, "the length isn't one")
    return field(int(text, 16))


def private(found):
    return found.st_uid == os.geteuid() and not found.st_mode & 0o077


def line_of(key):
    """What the key's file holds, where folder and file are the caller's alone."""
    folder = os.environ.get("KERI_KEYS")
    if not folder:
        raise Fault(KEY_FAULT, f"{key}: KERI_KEYS names no folder")
    path = os.path.join(folder, key)
    try:
        found = os.lstat(path)
        if not (private(os.lstat(folder.rstrip("/") or "/")) and private(found) and stat.S_ISREG(found.st_mode)):
            raise Fault(KEY_FAULT, f"{key}: others can read or write it or its folder")
        with open(path, "rb") as file:
            return file.read().decode("latin-1")
    except OSError as fault:
        raise Fault(KEY_FAULT, f"{key}: {fault.strerror}") from None


def signing_key(key):
    line = line_of(key)
    seed = raw_of(line[:-1], "A", 32) if len(line) == 45 and line.endswith("\n") else None
    if seed is None or spelled(key[0], bytes(SigningKey(seed).verify_key), 44) != key:
        raise Fault(KEY_FAULT, f"{key}: its file doesn't hold its seed")
    return SigningKey(seed)


# The front of an event's body, and the line that records one.
FRONT = re.compile(rb'\{"v":"KERI10JSON([0-9a-f]{6})_","t":"(icp|rot|ixn|dip|drt)","d":"([EI][A-Za-z0-9_-]{43})","i":"([BDEI][A-Za-z0-9_-]{43})",'
                   rb'"s":"(0|[1-9a-f][0-9a-f]{0,15})",')
EVENT = rb"(icp|rot|ixn|dip|drt) ([EI][A-Za-z0-9_-]{43}) (I[A-Za-z0-9_-]{43}) "
LINE = re.compile(rb"([BDEI][A-Za-z0-9_-]{43}) ([0-9a-f]{16}) " + EVENT + rb"(first   |recovers|allowed )")
OLDER = re.compile(rb"(0|[1-9a-f][0-9a-f]{0,15}) " + EVENT + rb"(first|recovers|allowed)")


class Record:
    """The lines of a file in the key folder, which is locked. The last one is left out where a stop left it
    unfinished."""

    def __init__(self, folder, name, form):
        self.folder = folder
        self.file = os.open(name, os.O_RDWR | os.O_CREAT | os.O_NOFOLLOW | os.O_NONBLOCK, 0o600, dir_fd=folder)
        if not (private(os.fstat(self.file)) and stat.S_ISREG(os.fstat(self.file).st_mode)):
            raise OSError(0, "the file isn't a plain one, or isn't yours alone")
        fcntl.flock(self.file, fcntl.LOCK_EX)
        with open(os.dup(self.file), "rb") as file:
            file.seek(0)
            lines = file.read().splitlines(True)
        found = [form.fullmatch(line[:-1]) if line.endswith(b"\n") else None for line in lines]
        if None in found[:-1]:
            raise OSError(0, "the file in the key folder is damaged")
        self.matches = [match for match in found if match]
        self.end = sum(len(match[0]) + 1 for match in self.matches)

    def keep(self, lines=b""):
        """Puts lines behind the others where there are some, and syncs the file and its name."""
        try:
            if lines:
                os.ftruncate(self.file, self.end)
                os.lseek(self.file, self.end, os.SEEK_SET)
                if os.write(self.file, lines) < len(lines):
                    raise OSError(0, "there is no room")
            os.fsync(self.file)
            os.fsync(self.folder)
        except OSError:
            os.ftruncate(self.file, self.end)
            raise

    def close(self):
        os.close(self.file)


def is_allowed(folder, key, said):
    name = f".allowed-{key[1:]}"
    if name not in os.listdir(folder):
        return False
    record = Record(folder, name, re.compile(b"[EI][A-Za-z0-9_-]{43}"))
    record.close()
    return said in [match[0] for match in record.matches]


def way_of(folder, key, asked, digest, lines):
    """How an event comes to be recorded; None where just its body is. One that mayn't be is told."""
    _, kind, said, prefix, number = asked.groups()
    here = {b"ixn": None, b"other": None}
    known = other_body = later = False
    for its_prefix, at, its_kind, its_said, its_digest, way in (line.groups() for line in lines):
        if its_prefix != prefix:
            continue
        if way == b"recovers" and int(at, 16) < int(number, 16):
            here[b"ixn"] = None
        later |= its_kind != b"ixn" and int(at, 16) > int(number, 16)
        if int(at, 16) == int(number, 16):
            known |= its_digest == digest
            other_body |= its_said == said and its_digest != digest
            here[b"ixn" if its_kind == b"ixn" else b"other"] = its_kind + b" " + its_said
    if known:
        return None
    signed = here[b"other"] or here[b"ixn"]
    if not signed:
        return b"first"
    if kind in (b"rot", b"drt") and not here[b"other"] and not later:
        return b"recovers"
    if is_allowed(folder, key, said) and not other_body:
        return b"allowed"
    text = b"it has signed the %s for number %s of %s, and not the %s %s: refused" % (signed, number, prefix, kind, said)
    raise Fault(KEY_FAULT, f"{key}: {text.decode()}")


def line_of_event(prefix, number, kind, said, digest, way):
    return b"%s %016x %s %s %s %-8s\n" % (prefix, int(number, 16), kind, said, digest, way)


def record_of(folder, key, prefix):
    """The key's record, once it has all lines of the older one of the identifier, where there still is one."""
    name, older_name = f".signed-{key[1:]}", f".signed-{key[1:]}-{prefix.decode()}"
    record = Record(folder, name, LINE)
    try:
        os.lstat(older_name, dir_fd=folder)
    except FileNotFoundError:
        return record
    older = Record(folder, older_name, OLDER)
    known = {match.group(1, 2, 5) for match in record.matches}
    lines = [line_of_event(prefix, *match.groups()) for match in older.matches]
    record.keep(b"".join(line for line in lines if LINE.fullmatch(line[:-1]).group(1, 2, 5) not in known))
    os.unlink(older_name, dir_fd=folder)
    os.fsync(folder)
    older.close()
    record.close()
    return Record(folder, name, LINE)


def recorded(key, body):
    """Keeps that the key signs the event before it does; answers the record, which is locked until it is closed. None
    of other bytes."""
    asked = FRONT.match(body)
    if not asked or int(asked[1], 16) != len(body) or not body.endswith(b"}"):
        return None
    folder = os.open(os.environ["KERI_KEYS"], os.O_RDONLY | os.O_DIRECTORY)
    digest = spelled("I", hashlib.sha256(body).digest(), 44).encode()
    try:
        record = record_of(folder, key, asked[4])
        way = way_of(folder, key, asked, digest, record.matches)
        record.keep(way and line_of_event(asked[4], asked[5], asked[2], asked[3], digest, way) or b"")
    except OSError as fault:
        raise Fault(KEY_FAULT, f"{key}: its record can't be kept: {fault.strerror}") from None
    finally:
        os.close(folder)
    return record


def answer(letter):
    if letter not in (b"V", b"S"):
        raise Fault(MALFORMED, "a question begins with neither V nor S")
    key, raw = primitive(["B", "D"], 44, 32)
    if letter == b"S":
        text = body()
        signer, record = signing_key(key), recorded(key, text)
        signature = spelled("0B", signer.sign(text).signature, 88).encode()
        if record:
            record.close()
        return signature
    signature = primitive(["0B"], 88, 64)[1]
    try:
        VerifyKey(raw).verify(body(), signature)
    except BadSignatureError:
        return b"N"
    return b"Y"


def put(text):
    try:
        while text:
            text = text[os.write(1, text):]
    except OSError as fault:
        raise Fault(WRITE_FAULT, fault.strerror) from None


def main():
    os.umask(0o077)
    try:
        if sys.argv[1:] != ["rehearse"]:
            raise Fault(WORDS, "usage: ed25519.py rehearse")
        while letter := taken(1):
            put(answer(letter))
    except Fault as fault:
        status, told = fault.args
        print(f"ed25519.py: {told}", file=sys.stderr)
        return status
    return 0


if __name__ == "__main__":
    sys.exit(main())
