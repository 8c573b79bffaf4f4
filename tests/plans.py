"""What `make` answers to a plan and a log: a peer of the program, written apart from it, by the definitions.

The body is spelled here field by field and judged by the rules of bodies, the log is read by the reference of a
validator that waits for neither receipts nor seals, and the signatures are the rehearsal's.
"""
import base64
import json

from kit import CHARACTERS, PLACEHOLDER, counter, digest, indexed_signature
from plan_text import BadLine, is_met, is_threshold, read_plan, threshold
from reference import Claim, Reference, rehearsal

MOST_BYTES, MOST_MEMBERS, MOST_SLOTS, MOST_PLACE = 65535, 64, 4095, 4095
GOOD, REFUSED = 0, 3


class Malformed(Exception):
    """The log, or a message in it, is refused."""


class Unmade(Exception):
    """Why there is no message."""


def compact(value):
    return json.dumps(value, separators=(",", ":"))


def quoted(text):
    return '"%s"' % text


# The log.

def claim_at(text, place, letter):
    """The claim of a group with this letter that begins at the place, and the place behind it."""
    if letter == "C":
        raw = base64.urlsafe_b64decode("AA" + text[place + 46:place + 132])[2:]
        return Claim("couple", raw, key=text[place:place + 44]), place + 132
    code = text[place:place + 2] if text[place:place + 1] == "2" else text[place:place + 1]
    size = {"A": 1, "B": 1, "2A": 2, "2B": 2}.get(code)
    if size is None:
        raise Malformed
    number = lambda digits: sum(CHARACTERS.index(digit) * 64**power for power, digit in enumerate(reversed(digits)))
    first = place + len(code)
    behind = first + (1 if size == 1 else 4)
    index = number(text[first:first + size])
    other = {"A": index, "2A": number(text[first + 2:first + 4])}.get(code)
    raw = base64.urlsafe_b64decode("AA" + text[behind:behind + 86])[2:]
    return Claim("controller" if letter == "A" else "witness", raw, index, other), behind + 86


def groups_at(text, place):
    """The claims of the groups that begin at the place, their letters, and the place behind them."""
    claims, letters = [], []
    while text[place:place + 1] == "-":
        letter, count = text[place + 1], CHARACTERS.index(text[place + 2]) * 64 + CHARACTERS.index(text[place + 3])
        place += 4
        if letter not in "ABCEV":
            raise Malformed
        if letter == "E":
            place += 60 * count
        for _ in range(count if letter in "ABC" else 0):
            claim, place = claim_at(text, place, letter)
            claims.append(claim)
            letters.append(letter)
    return claims, letters, place


def read_log(stream):
    """The reference that was told the stream, all of which is good."""
    text, place, reference = stream.decode(), 0, Reference(watches=True)
    while place < len(text):
        if not text.startswith('{"v":"KERI10JSON', place):
            raise Malformed
        body = text[place:place + int(text[place + 16:place + 22], 16)]
        if '"t":"rct"' not in body[:40] and digest(blanked(body), body[40]) != body[40:84]:
            raise Malformed
        claims, letters, behind = groups_at(text, place + len(body))
        if behind > len(text):
            raise Malformed
        reference.take(place, body, claims, letters)
        place = behind
    if reference.refused:
        raise Malformed
    return reference


def blanked(body):
    """The text whose digest a body has."""
    fields = json.loads(body)
    text = body[:40] + PLACEHOLDER + body[84:]
    return text[:91] + PLACEHOLDER + text[135:] if fields["t"] in ("icp", "dip") and fields["i"][0] in "EI" else text


# The body.

class Body:
    """The event of a plan behind a state, or of none, with its text."""

    def __init__(self, plan, state):
        self.plan, self.state, self.kind, self.lists = plan, state, plan.kind, plan.lists
        self.is_inception = plan.kind in ("icp", "dip")
        self.is_rotation = plan.kind in ("rot", "drt")
        self.number = 0 if self.is_inception else state.number + 1
        self.is_basic = plan.kind == "icp" and plan.get("prefix") == "basic" and plan.lists["key"] != []
        self.said = digest(self.spelled(PLACEHOLDER), plan.get("code"))
        self.text = self.spelled(self.said)

    def prefix(self, said):
        if not self.is_inception:
            return self.state.prefix
        return self.lists["key"][0] if self.is_basic else said

    def spelled(self, said):
        """The body's text with this digest."""
        members = self.members(said)
        size = len(self.joined("0" * 6, members).encode())
        return self.joined("%06x" % size, members)

    def joined(self, size, members):
        fields = [("v", quoted("KERI10JSON%s_" % size)), ("t", quoted(self.kind)), *members]
        return "{%s}" % ",".join('"%s":%s' % field for field in fields)

    def members(self, said):
        fields = [("d", quoted(said)), ("i", quoted(self.prefix(said))), ("s", quoted("%x" % self.number))]
        if not self.is_inception:
            fields.append(("p", quoted(self.state.since[-1])))
        if self.is_inception or self.is_rotation:
            fields += [("kt", self.plan.get("kt")), ("k", compact(self.lists["key"])), ("nt", self.plan.get("nt")),
                ("n", compact(self.lists["next"])), ("bt", quoted(self.plan.get("bt")))]
        if self.is_inception:
            fields += [("b", compact(self.lists["add"])), ("c", "[%s]" % ",".join(self.lists["trait"]))]
        if self.is_rotation:
            fields += [("br", compact(self.lists["cut"])), ("ba", compact(self.lists["add"]))]
        fields.append(("a", "[%s]" % ",".join(self.lists["seal"])))
        return fields + ([("di", quoted(self.plan.get("di")))] if self.kind == "dip" else [])

    def fault(self):
        """The first rule of bodies that the text fails."""
        if len(self.text.encode()) > MOST_BYTES:
            return "large"
        if self.kind == "ixn":
            return None
        lists = [("add", 10)] if self.is_inception else [("cut", 11), ("add", 12)]
        for name, place in lists:
            if any(key[0] != "B" for key in self.lists[name]):
                return "field %d" % place
        counted = ["key", "next", *(name for name, _ in lists)] + (["trait"] if self.is_inception else [])
        if any(len(self.lists[name]) > MOST_MEMBERS for name in counted):
            return "many"
        thresholds = [("kt", "key"), ("nt", "next")]
        if not self.lists["key"] or any(not is_threshold(threshold(self.plan.get(of)), len(self.lists[name])) for of, name in thresholds):
            return "threshold"
        return "witnesses" if self.has_bad_witnesses() else "prefix" if self.has_bad_prefix() else None

    def has_bad_witnesses(self):
        cuts, adds = [] if self.is_inception else self.lists["cut"], self.lists["add"]
        if len(set(cuts + adds)) < len(cuts + adds):
            return True
        return self.is_inception and not is_toad(int(self.plan.get("bt"), 16), len(adds))

    def has_bad_prefix(self):
        return self.is_basic and (len(self.lists["key"]) > 1 or (self.lists["key"][0][0] == "B" and self.lists["next"] != []))

    # What follows from the state.

    def misfit(self):
        """The first rule by which the event doesn't follow its state."""
        if self.is_inception:
            return None
        if self.is_rotation and (self.kind == "drt") != (self.state.delegator is not None):
            return "kind"
        if not self.state.commitments:
            return "ended"
        if not self.is_rotation:
            return "est-only" if "EO" in self.state.traits else None
        return "witness-change" if self.changes_witnesses_badly() else None

    def changes_witnesses_badly(self):
        cuts, adds, before = self.lists["cut"], self.lists["add"], self.state.witnesses
        if any(key not in before for key in cuts) or any(key in before for key in adds):
            return True
        count = len(before) - len(cuts) + len(adds)
        return count > MOST_MEMBERS or not is_toad(int(self.plan.get("bt"), 16), count)

    def keys(self):
        return self.state.keys if self.kind == "ixn" else self.lists["key"]

    def is_signed(self):
        """Whether signatures in the slots are enough, and each of them can be made and written."""
        slots, keys = self.lists["sign"], self.keys()
        if len(slots) > MOST_SLOTS or any(index >= len(keys) or max(index, other or 0) > MOST_PLACE for index, other in slots):
            return False
        own = threshold(compact(self.state.threshold) if self.kind == "ixn" else self.plan.get("kt"))
        if not is_met(own, {index for index, _ in slots}):
            return False
        if not self.is_rotation:
            return True
        commitments = self.state.commitments
        revealed = {other for index, other in slots if other is not None and other < len(commitments)
            and digest(keys[index], commitments[other][0]) == commitments[other]}
        return is_met(threshold(compact(self.state.next_threshold)), revealed)

    def message(self):
        sigs = [indexed_signature(index, other, rehearsal(self.keys()[index], self.text)) for index, other in self.lists["sign"]]
        return self.text + counter("A", len(sigs)) + "".join(sigs)


def is_toad(number, count):
    """Whether so many receipts can be wanted of so many witnesses."""
    return 1 <= number <= count if count else number == 0


# The answer.

def message(plan, log):
    try:
        plan = read_plan(plan)
    except BadLine as line:
        raise Unmade("line %d" % line.args[0])
    try:
        reference = read_log(log or b"")
    except (Malformed, ValueError, IndexError):
        raise Unmade("log")
    state = None if plan.kind in ("icp", "dip") else reference.state(plan.get("prefix"))
    if state is None and plan.kind not in ("icp", "dip"):
        raise Unmade("log")
    body = Body(plan, state)
    if fault := body.fault():
        raise Unmade("body " + fault)
    if misfit := body.misfit():
        raise Unmade("misfit " + misfit)
    if not body.is_signed():
        raise Unmade("unsigned")
    return body.message()


def answer(plan, log=None):
    """What is written for the bytes of a plan and, where one is given, of a log, and the status."""
    try:
        return message(plan, log), GOOD
    except Unmade as why:
        return "plan %s\n" % why, REFUSED
