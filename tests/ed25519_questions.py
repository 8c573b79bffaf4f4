"""What tests/ed25519 asks: questions of the helper protocol, the vectors of RFC 8032 and a folder of their keys,
signatures to be refused, and questions that aren't of the form."""
import hashlib
import pathlib

from kit import primitive

ORDER = 2 ** 252 + 27742317777372353535851937790883648493
VECTORS = [[bytes.fromhex(word.strip("-")) for word in line.split()]
           for line in pathlib.Path(__file__).with_name("rfc8032.txt").read_text().splitlines()[1:]]
SEED, PUBLIC, MESSAGE, SIGNATURE = VECTORS[2]

# The points whose order divides 8, in all their spellings, those with a y that isn't reduced among them.
SMALL = ["01" + 31 * "00", "ec" + 30 * "ff" + "7f", 32 * "00", 31 * "00" + "80", "01" + 30 * "00" + "80",
         "ed" + 30 * "ff" + "7f", "ed" + 31 * "ff", "ee" + 30 * "ff" + "7f", "ee" + 31 * "ff", "ec" + 31 * "ff"]
for eighth in ("26e8958fc2b227b045c3f489f2ef98f0d5dfac05d3c63339b13802886d53fc05",
               "c7176a703d4dd84fba3c0b760d10670f2a2053fa2c39ccc64ec7fd7792ac037a"):
    SMALL += [eighth, eighth[:-2] + "%02x" % (int(eighth[-2:], 16) | 128)]


def spelled(code, raw):
    return primitive(code, raw).encode()


def verdict(public, signature, body, code="D"):
    return b"V" + spelled(code, public) + spelled("0B", signature) + b"%08x" % len(body) + body


def signing(public, body, code="D"):
    return b"S" + spelled(code, public) + b"%08x" % len(body) + body


def folder_of(top, *seeds):
    """A key folder made by its description, with both spellings of the vectors' keys."""
    top.mkdir(0o700)
    for seed, public in seeds:
        for code in "BD":
            path = top / primitive(code, public)
            path.write_text(primitive("A", seed) + "\n")
            path.chmod(0o600)
    return top


def scalar(seed):
    number = int.from_bytes(hashlib.sha512(seed).digest()[:32], "little")
    return number & (1 << 254) - 8 | 1 << 254


def challenge(*parts):
    return int.from_bytes(hashlib.sha512(b"".join(parts)).digest(), "little") % ORDER


def with_scalar(point, number):
    return point + number.to_bytes(32, "little")


def forgeries():
    """Signatures that hold by the RFC's equation, or by eight times it: without further rules they are good."""
    nonce = challenge(hashlib.sha512(SEED).digest()[32:], MESSAGE)
    number = int.from_bytes(SIGNATURE[32:], "little")
    yield "S not reduced", PUBLIC, with_scalar(SIGNATURE[:32], number + ORDER), MESSAGE
    for point in map(bytes.fromhex, SMALL):
        body = next(text for text in map(b"%d".__mod__, range(1000))
                    if challenge(SIGNATURE[:32], point, text) % 8 == 0)
        yield f"key {point.hex()}", point, with_scalar(SIGNATURE[:32], nonce), body
    for point in map(bytes.fromhex, SMALL):
        answer = challenge(point, PUBLIC, MESSAGE) * scalar(SEED) % ORDER
        yield f"first half {point.hex()}", PUBLIC, with_scalar(point, answer), MESSAGE


def malformed():
    """Questions up to the end of the first field that isn't of the form."""
    good = verdict(PUBLIC, SIGNATURE, MESSAGE)
    lengths = {"in capital letters": b"0000000A", "one capital": b"0000ffFf", "with a sign": b"+0000002", "over 65535": b"00010000",
               "greatest": b"ffffffff", "65535 in decimal": b"00065535", "without zeros": b"2       ",
               "with spaces": b"       2", "with 0x": b"0x000002", "with a NUL": b"0000000\0"}
    return {
        "letter": b"Q", "line feed": b"\n", "small letter": b"v", "small signing letter": b"s",
        "code of the key": b"VE" + good[2:45], "code of a signing question's key": b"SI" + good[2:45],
        "character in the key": good[:20] + b"+" + good[21:45], "NUL in the key": good[:44] + b"\0",
        "bits before the key": b"VD_" + good[3:45], "bit before the key": b"SBQ" + good[3:45],
        "code of the signature": good[:45] + b"0A" + good[47:133],
        "bits before the signature": good[:47] + b"Q" + good[48:133],
        "one bit before the signature": good[:47] + b"E" + good[48:133],
        "character in the signature": good[:132] + b"=", "eighth bit in the signature": good[:132] + b"\xc1",
    } | {f"length {name}": good[:133] + text for name, text in lengths.items()} | {
        f"signing length {name}": b"S" + good[1:45] + text for name, text in lengths.items()}
