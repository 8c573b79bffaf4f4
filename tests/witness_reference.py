"""A witness by the definitions, which goes over everything it was told each time: a peer of the program, written apart
from it.

Its core is the reference of one who waits for neither receipts nor seals, asked one question after another. Its shelf
is the list of payloads, which `append` brings to a disk.
"""
import base64
import json
import re

from kit import CHARACTERS, KINDS, body, counter, digest, primitive
from plans import blanked
from reference import Claim, Event, Reference, refusal, rehearsal, witnesses_of

MOST_OF_A_MESSAGE, MOST_OF_A_GROUP = 1024, 4095
SIZES = {"A": 1, "B": 1, "2A": 2, "2B": 2}
REASONS = {"group": "WrongGroup", "no-receipts": "DigestOnly", "unsigned": "Unsigned"}
DIGIT = "[A-Za-z0-9_-]"
# Of an indexed signature; its first digit behind the indices holds no more than two bits.
INDEXED = "(?:(?:[AB]{0}|2A{0}{{4}}|2B{0}{{2}}AA)[A-D]{0}{{85}})".format(DIGIT)


class Stop(Exception):
    """The fault that ends a call."""


class Element(Claim):
    """A claim with the letter of its group and its characters."""

    def __init__(self, letter, text):
        self.letter, self.text = letter, text
        if letter == "C":
            super().__init__("couple", base64.urlsafe_b64decode("AA" + text[46:])[2:], key=text[:44])
            return
        code = text[:2] if text[0] == "2" else text[0]
        index, other = text[len(code):len(code) + SIZES[code]], text[len(code) + SIZES[code]:-86]
        others = {"A": index, "2A": other}.get(code)
        raw = base64.urlsafe_b64decode("AA" + text[-86:])[2:]
        super().__init__("controller" if letter == "A" else "witness", raw, number(index), others and number(others))


def number(digits):
    return sum(CHARACTERS.index(digit) * 64**power for power, digit in enumerate(reversed(digits)))


def length_of(letter, text):
    """How many characters the element at the front has."""
    return {"C": 132, "E": 60, "G": 68}.get(letter, 92 if text[0] == "2" else 88)


def parts_of(text):
    """The body of a message, its claims, the letters of its groups, and how many elements they have."""
    place = int(text[16:22], 16)
    text_of_body, claims, letters, count = text[:place], [], [], 0
    while place < len(text):
        letter, members = text[place + 1], number(text[place + 2:place + 4])
        place += 4
        if letter == "V":
            continue
        letters.append(letter)
        for _ in range(members):
            size = length_of(letter, text[place:place + 1])
            if letter in "ABC":
                claims.append(Element(letter, text[place:place + size]))
            place, count = place + size, count + 1
    return text_of_body, claims, letters, count


def event_in(text):
    """The event that the text spells, where it spells one that isn't a receipt."""
    if not re.fullmatch(r'\{"v":"KERI10JSON[0-9a-f]{6}_".*\}', text) or int(text[16:22], 16) != len(text):
        return None
    fields = json.loads(text)
    if fields.get("t") not in KINDS or fields["t"] == "rct" or list(fields)[2:] != KINDS[fields["t"]]:
        return None
    return Event(text) if digest(blanked(text), text[40]) == fields["d"] else None


def event_of_payload(payload):
    """The event of a payload, where good groups of signatures alone are behind it."""
    text = payload.decode()
    if not re.match(r'\{"v":"KERI10JSON[0-9a-f]{6}_"', text):
        return None
    place = int(text[16:22], 16)
    event = event_in(text[:place])
    while place < len(text):
        head = re.match(r"-A([A-Za-z0-9_-]{2})", text[place:])
        group = head and re.match(head.group() + INDEXED + "{%d}" % number(head.group(1)), text[place:])
        if not group:
            return None
        place += group.end()
    return event


class Core(Reference):
    """What was told, and what is accepted of that, with the payload of each event that was accepted."""

    def __init__(self, base):
        super().__init__(watches=True)
        self.bodies, self.accepted, self.payloads, self.claims, self.states = list(base), [], [], 0, {}
        for event in base:
            self.accept(event)

    def accept(self, event):
        self.states[event.text] = self.state(event.prefix)
        self.accepted.append(event)

    def is_forbidden(self, state, event):
        return False

    def is_backed(self, state, event):
        return True

    def fits(self, event):
        state = self.state(event.prefix)
        return event.is_inception if state is None else not state.misfits(event)

    def settle(self):
        while ready := next((event for event in self.bodies if self.is_ready(event)), None):
            kept = self.kept(self.state(ready.prefix), ready)
            self.accept(ready)
            self.payloads.append(payload_of(ready.text, kept))

    def reveal(self, state, event, claim):
        """The place of the commitment that the signature opens alone."""
        if not event.is_rotation or state is None or claim.other is None or claim.other >= len(state.commitments):
            return None
        if claim.index >= len(event.fields["k"]):
            return None
        commitment = state.commitments[claim.other]
        return claim.other if digest(event.fields["k"][claim.index], commitment[0]) == commitment else None

    def kept(self, state, event):
        """Of the good signatures with one index and one reveal the first."""
        parts = {}
        for claim in self.good(state, event):
            parts.setdefault((claim.index, self.reveal(state, event, claim)), claim.text)
        return list(parts.values())

    def held(self, text):
        return next((event for event in self.bodies if event.text == text), None)

    def waiting(self):
        return [event for event in self.bodies if event not in self.accepted]

    def signatures_on(self, text):
        return sum(claim.sort == "controller" for event, claims in self.came if event.text == text for claim in claims)


def payload_of(text, sigs):
    parts = [sigs[first:first + MOST_OF_A_GROUP] for first in range(0, len(sigs), MOST_OF_A_GROUP)]
    return (text + "".join(counter("A", len(part)) + "".join(part) for part in parts)).encode()


def resumed(payloads):
    """The core of the payloads, and else the number of the first that is no event which fits."""
    base = Core([])
    for place, payload in enumerate(payloads):
        event = event_of_payload(payload)
        if event is None or base.held(event.text) or not base.fits(event):
            return None, place
        base.bodies.append(event)
        base.accept(event)
    return Core(base.bodies), None


class Helper:
    """A verifier or a signer, of which the calls of these numbers fail."""

    def __init__(self, rule="rehearsal", failing=()):
        self.rule, self.failing, self.calls = rule, failing, 0

    def call(self, fault):
        self.calls += 1
        if self.calls - 1 in self.failing:
            raise Stop(fault)

    def verdict(self, text, key, signature):
        self.call("VerifierFault")
        return signature == rehearsal(key, text) if self.rule == "rehearsal" else self.rule == "yes"

    def sign(self, key, text):
        self.call("SignerFault")
        return rehearsal(key, text)


class Witness:
    """A witness of a key, over a core and a shelf. The shelf has a list, a size, limits, and a call that appends a
    payload."""

    def __init__(self, key, core, shelf, limits):
        self.key, self.core, self.shelf, self.limits, self.broken = key, core, shelf, limits, False
        self.entries = []

    def take(self, text, verifier, signer):
        """What is answered: the fate, or a fault, and the receipts, each with the digest of its event."""
        if self.broken:
            return "Broken", []
        text_of_body, claims, letters, count = parts_of(text)
        event = Event(text_of_body)
        if count > MOST_OF_A_MESSAGE:
            return "Refused TooManySigs", []
        if reason := refusal(event, claims, letters):
            return "Refused " + REASONS[reason], []
        if event.is_receipt:
            return "NotAnEvent", []
        if self.is_full(event.text, claims):
            return "Full", []
        try:
            return self.taken(event, claims, verifier, signer)
        except Stop as stop:
            self.broken = str(stop) == "DiskFault"
            return str(stop), []

    def is_full(self, text, claims):
        core, limits = self.core, self.limits
        if len(core.came) >= limits["messages"] or core.claims + len(claims) > limits["signatures"]:
            return True
        if not core.held(text) and sum(len(event.text) for event in core.bodies) + len(text) > limits["body_bytes"]:
            return True
        weights = [len(event.text) + 13 + 92 * core.signatures_on(event.text) for event in core.waiting()]
        own = core.signatures_on(text) + sum(claim.sort == "controller" for claim in claims)
        if len(self.shelf.list) + len(weights) + 1 > limits["records"]:
            return True
        return self.shelf.size() + sum(weights) + len(text) + 13 + 92 * own > limits["shelf_bytes"]

    def taken(self, event, claims, verifier, signer):
        core, front = self.core, len(self.core.accepted)
        if not core.held(event.text):
            core.bodies.append(event)
        event = core.held(event.text)
        core.came.append((event, claims))
        core.claims += len(claims)
        self.note("took 0 %d" % core.bodies.index(event), *("%s=%s" % (claim.letter, claim.text) for claim in claims))
        self.store()
        while question := core.question():
            yes = verifier.verdict(*question)
            core.verdicts[question] = yes
            text, key, signature = question
            self.note("heard 0 %d" % core.bodies.index(core.held(text)), key, primitive("0B", signature), "true" if yes else "false")
            self.store()
        return self.outcome(event, front, signer)

    def note(self, *words):
        self.entries.append(" ".join(words))

    def store(self):
        """Stores what the last entry made accepted."""
        before = len(self.core.payloads)
        self.core.settle()
        for payload in self.core.payloads[before:]:
            fault = self.shelf.appended(payload)
            if fault != "Ok":
                raise Stop(fault)

    def is_listed(self, event):
        return self.key in witnesses_of(self.core.states[event.text], event)

    def outcome(self, event, front, signer):
        accepted = self.core.accepted
        due = [other for other in accepted[front:] if self.is_listed(other)]
        due += [event] if event in accepted[:front] and self.is_listed(event) else []
        receipts = [self.receipt(other, signer) for other in due]
        return self.fate(event), receipts

    def receipt(self, event, signer):
        text = body("rct", d=event.said, i=event.prefix, s="%x" % event.number)
        return event.said, text + counter("C", 1) + self.key + primitive("0B", signer.sign(self.key, event.text))

    def fate(self, event):
        core = self.core
        if event in core.accepted:
            return "Stored listed" if self.is_listed(event) else "Stored"
        why = core.reason(event).capitalize()
        if core.fits(event) and why in ("Signatures", "Next"):
            return "Waits " + why
        seen = [other.said for other in core.live(event.prefix) if other.number == event.number]
        return "Seen " + seen[0] if seen else "Waits " + why
