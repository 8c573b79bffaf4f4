"""A validator and a watcher by the definitions of acceptance, which go over everything they were told each time: a peer
of the program, written apart from it, for streams whose messages are in form.

The verifier is the rehearsal, or the one that is handed in. Nothing is kept but the bodies, what was told, and the
accepted events.
"""
import hashlib
import json
from fractions import Fraction

from kit import counter, digest, indexed_signature

MOST_OF_A_MESSAGE = 1024


class Event:
    """A body with the values that its JSON text gives."""

    def __init__(self, text):
        fields = json.loads(text)
        self.text, self.fields = text, fields
        self.kind, self.prefix, self.said = fields["t"], fields["i"], fields["d"]
        self.number, self.prior = int(fields["s"], 16), fields.get("p")
        self.is_receipt = self.kind == "rct"
        self.is_inception = self.kind in ("icp", "dip")
        self.is_rotation = self.kind in ("rot", "drt")
        self.is_delegated = self.kind in ("dip", "drt")
        self.toad = int(fields.get("bt", "0"), 16)

    def is_before(self, later):
        return self.prefix == later.prefix and self.number + 1 == later.number and self.said == later.prior

    def seals(self, other):
        seal = {"i": other.prefix, "s": "%x" % other.number, "d": other.said}
        return any(list(value) == list(seal) and value == seal for value in self.fields.get("a", []) if isinstance(value, dict))


class State:
    """What the accepted events of an identifier say of its keys."""

    def __init__(self, event, witnesses, since, prefix, traits, delegator):
        fields = event.fields
        self.prefix, self.traits, self.delegator = prefix, traits, delegator
        self.established, self.since = event.number, since
        self.keys, self.threshold = fields["k"], fields["kt"]
        self.commitments, self.next_threshold = fields["n"], fields["nt"]
        self.witnesses, self.toad = witnesses, event.toad

    @staticmethod
    def first(event):
        fields = event.fields
        return State(event, fields["b"], [event.said], event.prefix, fields["c"], fields.get("di"))

    @property
    def number(self):
        return self.established + len(self.since) - 1

    def misfits(self, event):
        """Whether the event can't be the next."""
        if event.is_inception or event.is_receipt or event.prefix != self.prefix:
            return True
        if event.is_rotation and event.is_delegated != (self.delegator is not None):
            return True
        if not self.commitments or (not event.is_rotation and "EO" in self.traits):
            return True
        if event.kind == "rot":
            if not self.established < event.number <= self.number + 1:
                return True
        elif event.number != self.number + 1:
            return True
        return event.prior != self.since[event.number - 1 - self.established] or self.loses_witnesses(event)

    def loses_witnesses(self, event):
        """Whether a rotation's change of the witnesses can't be made."""
        if not event.is_rotation:
            return False
        cuts, adds = event.fields["br"], event.fields["ba"]
        if any(key not in self.witnesses for key in cuts) or any(key in self.witnesses for key in adds):
            return True
        count = len(witnesses_of(self, event))
        return count > 64 or not (1 <= event.toad <= count if count else event.toad == 0)

    def after(self, event):
        if event.is_rotation:
            return State(event, witnesses_of(self, event), [event.said], self.prefix, self.traits, self.delegator)
        state = State.__new__(State)
        state.__dict__.update(self.__dict__, since=self.since + [event.said])
        return state


def keys_of(state, event):
    return event.fields["k"] if "k" in event.fields else state.keys if state else []


def threshold_of(state, event):
    return event.fields["kt"] if "kt" in event.fields else state.threshold if state else "0"


def witnesses_of(state, event):
    """The witness list under which an event is accepted."""
    if event.is_inception:
        return event.fields["b"]
    if state is None:
        return []
    if not event.is_rotation:
        return state.witnesses
    return [key for key in state.witnesses if key not in event.fields["br"]] + event.fields["ba"]


def is_met(threshold, count, indices):
    """Whether a threshold of so many keys is met by these indices: a number, or clauses of weights."""
    there = {index for index in indices if index < count}
    if isinstance(threshold, str):
        return len(there) >= int(threshold, 16)
    clauses = threshold if isinstance(threshold[0], list) else [threshold]
    first = 0
    for clause in clauses:
        if sum(Fraction(weight) for place, weight in enumerate(clause) if first + place in there) < 1:
            return False
        first += len(clause)
    return True


class Claim:
    """A signature that came with a body: a controller's or a witness's by an index, or a witness's by its key."""

    def __init__(self, sort, signature, index=None, other=None, key=None):
        self.sort, self.signature, self.index, self.other, self.key = sort, signature, index, other, key

    def key_under(self, state, event):
        """The key that it is to verify under, where there is one."""
        keys = keys_of(state, event) if self.sort == "controller" else witnesses_of(state, event)
        if self.sort == "couple":
            return self.key if self.key in keys else None
        return keys[self.index] if self.index < len(keys) else None


def is_rehearsal(text, key, signature):
    return signature == rehearsal(key, text)


class Reference:
    """What a validator was told, and what it accepts of that; or a watcher, who waits for neither receipts nor seals.
    The verifier says of a text, a key and a signature whether it is the key's on the text."""

    def __init__(self, watches=False, verifier=is_rehearsal):
        self.watches, self.verifier = watches, verifier
        self.bodies, self.came, self.verdicts, self.accepted, self.refused = [], [], {}, [], []

    # What the accepted events say.

    def state(self, prefix, log=None):
        state = None
        for event in self.accepted if log is None else log:
            if event.prefix != prefix:
                continue
            if state is None:
                state = State.first(event)
            elif not state.misfits(event):
                state = state.after(event)
        return state

    def predecessor(self, event):
        return next((place for place, earlier in enumerate(self.accepted) if earlier.is_before(event)), None)

    def state_before(self, event):
        place = self.predecessor(event)
        return None if place is None else self.state(event.prefix, self.accepted[:place + 1])

    def stands(self, event):
        state = self.state_before(event)
        return event.is_inception or (state is not None and not state.misfits(event))

    def live(self, prefix):
        events = []
        for event in self.accepted:
            if event.prefix == prefix:
                events = [earlier for earlier in events if earlier.number < event.number] + [event]
        return events

    def has_one_each(self):
        """Whether no two different events that came have one identifier and number."""
        places = [(event.prefix, event.number) for event in self.bodies if not event.is_receipt]
        return len(set(places)) == len(places)

    # What supports an event.

    def claims_on(self, event):
        return [claim for body, claims in self.came for claim in claims if body is event or (
            body.is_receipt and (body.said, body.prefix, body.number) == (event.said, event.prefix, event.number))]

    def good(self, state, event):
        """The controller's claims on the event whose verdict is yes."""
        claims = (claim for claim in self.claims_on(event) if claim.sort == "controller")
        return [claim for claim in claims if self.verdicts.get((event.text, claim.key_under(state, event), claim.signature))]

    def is_signed(self, state, event):
        indices = [claim.index for claim in self.good(state, event)]
        return is_met(threshold_of(state, event), len(keys_of(state, event)), indices)

    def is_revealed(self, state, event):
        if not event.is_rotation:
            return True
        if state is None:
            return False
        keys, commitments = event.fields["k"], state.commitments
        opened = [claim.other for claim in self.good(state, event)
            if claim.other is not None and claim.other < len(commitments) and claim.index < len(keys)
            and digest(keys[claim.index], commitments[claim.other][0]) == commitments[claim.other]]
        return is_met(state.next_threshold, len(commitments), opened)

    def is_backed(self, state, event):
        witnesses = witnesses_of(state, event)
        backers = {key for (text, key, _), yes in self.verdicts.items() if yes and text == event.text and key in witnesses}
        return len(backers) >= (event.toad if "bt" in event.fields else state.toad if state else 0)

    def delegator(self, state, event):
        return event.fields["di"] if event.kind == "dip" else state.delegator if event.kind == "drt" and state else None

    def is_forbidden(self, state, event):
        delegator = self.delegator(state, event)
        return any(other.prefix == delegator and other.is_inception and "DND" in other.fields["c"] for other in self.accepted)

    def is_anchored(self, state, event):
        if not event.is_delegated:
            return True
        delegator = self.delegator(state, event)
        sealed = any(other.prefix == delegator and other.seals(event) for other in self.accepted)
        return sealed and not self.is_forbidden(state, event)

    def is_ready(self, event):
        if event.is_receipt or event in self.accepted:
            return False
        state = self.state(event.prefix)
        takes = event.is_inception if state is None else not state.misfits(event)
        tests = (self.is_signed, self.is_revealed) + (() if self.watches else (self.is_backed, self.is_anchored))
        return takes and all(test(state, event) for test in tests)

    # What it is told.

    def settle(self):
        while ready := next((event for event in self.bodies if self.is_ready(event)), None):
            self.accepted.append(ready)

    def question(self):
        for event in self.bodies:
            if event.is_receipt or not self.stands(event):
                continue
            for claim in self.claims_on(event):
                key = claim.key_under(self.state_before(event), event)
                if key is not None and (event.text, key, claim.signature) not in self.verdicts:
                    return event.text, key, claim.signature
        return None

    def take(self, place, text, claims, letters):
        """A message at a place of the stream, with the letters of its groups."""
        body = Event(text)
        if reason := refusal(body, claims, letters):
            self.refused.append((place, reason))
            return
        held = next((event for event in self.bodies if event.text == text), None)
        if held is None:
            self.bodies.append(body)
        self.came.append((held or body, claims))
        self.settle()
        while question := self.question():
            self.verdicts[question] = self.verifier(*question)
            self.settle()

    def reason(self, event):
        """Why the event waits."""
        state, place = self.state(event.prefix), self.predecessor(event)
        if event.is_inception and state is not None or self.is_forbidden(state, event):
            return "never"
        if place is not None and (not self.stands(event) or state.misfits(event)):
            return "never"
        if not event.is_inception and place is None:
            return "predecessor"
        tests = (("signatures", self.is_signed), ("next", self.is_revealed), ("receipts", self.is_backed))
        return next((reason for reason, test in tests if not test(state, event)), "seal")

    def conflicts(self):
        """The bodies of one place that differ, where each stands and is signed, by places; those of each place in byte
        order."""
        places = {}
        for event in self.bodies:
            state = self.state_before(event)
            if not event.is_receipt and self.stands(event) and self.is_signed(state, event) and self.is_revealed(state, event):
                place = (event.prefix, event.number, event.prior or "", event.kind == "ixn")
                places.setdefault(place, []).append(event)
        sets = [sorted(places[place], key=lambda event: event.text.encode()) for place in sorted(places)]
        return [events for events in sets if len(events) > 1]

    def evidence(self):
        """Each body in conflict with its controller's good signatures, each once, in messages of as many as one may
        have."""
        text = ""
        for event in (event for events in self.conflicts() for event in events):
            good = self.good(self.state_before(event), event)
            sigs = list(dict.fromkeys(indexed_signature(claim.index, claim.other, claim.signature) for claim in good))
            parts = [sigs[first:first + MOST_OF_A_MESSAGE] for first in range(0, len(sigs), MOST_OF_A_MESSAGE)]
            text += "".join(event.text + counter("A", len(part)) + "".join(part) for part in parts)
        return text

    def report(self):
        lines = ["refused 0 %d %s" % refused for refused in self.refused]
        for prefix in sorted({event.prefix for event in self.accepted}):
            live, state = self.live(prefix), self.state(prefix)
            for event in self.accepted:
                if event.prefix == prefix:
                    standing = "live" if event in live else "superseded"
                    lines.append("event %s %x %s %s %s" % (prefix, event.number, event.kind, event.said, standing))
            sizes = (len(state.keys), len(state.witnesses), state.toad)
            lines.append("state %s %x %s keys=%d witnesses=%d toad=%d" % (prefix, state.number, state.since[-1], *sizes))
        waiting = [event for event in self.bodies if not event.is_receipt and event not in self.accepted]
        for event in sorted(waiting, key=lambda event: (event.prefix, event.number, event.text.encode())):
            lines.append("waits %s %x %s %s" % (event.prefix, event.number, event.said, self.reason(event)))
        for events in self.conflicts():
            saids = " ".join(event.said for event in events)
            lines.append("conflict %s %x %s" % (events[0].prefix, events[0].number, saids))
        return "".join(line + "\n" for line in lines)


def refusal(body, claims, letters):
    """Why a message is refused by its groups."""
    if body.is_receipt:
        if "A" in letters:
            return "group"
        return None if any(claim.sort != "controller" for claim in claims) else "no-receipts"
    return None if any(claim.sort == "controller" for claim in claims) else "unsigned"


def rehearsal(key, text):
    """The rehearsal's signature of a key on a body."""
    return hashlib.sha512(b"keri rehearsal" + key.encode() + text.encode()).digest()
