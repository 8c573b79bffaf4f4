"""A helper that answers by the rehearsal, and ends at a question: FAILS_AT says which, as V5 (the fifth verdict) or S1
(the first signature)."""
import base64
import hashlib
import os


def take(length):
    taken = b""
    while len(taken) < length and (piece := os.read(0, length - len(taken))):
        taken += piece
    return taken


counts = {b"V": 0, b"S": 0}
while letter := take(1):
    key, given = take(44), take(88) if letter == b"V" else b""
    raw = hashlib.sha512(b"keri rehearsal" + key + take(int(take(8), 16))).digest()
    counts[letter] += 1
    if os.environ["FAILS_AT"] == letter.decode() + str(counts[letter]):
        break
    signature = b"0B" + base64.urlsafe_b64encode(bytes(2) + raw)[2:]
    os.write(1, signature if letter == b"S" else b"Y" if given == signature else b"N")
