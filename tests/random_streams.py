"""Random streams of messages: logs of several identifiers, some delegated, with rotations that take the place of
interactions, changes of witnesses, and faults; each event with some of its signatures and receipts; in many orders.

A stream is made by its seed alone. Each message has its text, and the parts that the reference takes.
"""
import random

from kit import body, counter, digest, indexed_signature, key, primitive
from reference import Claim, Event, rehearsal

WITNESSES = [key(number, "B") for number in range(1, 10)]


class Message:
    """A body with the claims that come with it, whose signatures are on the signed text."""

    def __init__(self, text, signed):
        self.text, self.signed, self.claims, self.letters, self.groups = text, signed, [], [], ""
        self.is_wrapped = False

    def add(self, letter, elements, claims):
        if claims:
            self.letters.append(letter)
            self.claims += claims
            self.groups += counter(letter, len(claims)) + "".join(elements)

    def add_indexed(self, sort, signers):
        """Signatures, each by its signer, or nobody, with its index and its other index."""
        claims = [Claim(sort, rehearsal(signer or "nobody", self.signed), index, other) for signer, index, other in signers]
        self.add("A" if sort == "controller" else "B", [indexed_signature(claim.index, claim.other, claim.signature) for claim in claims], claims)

    def add_couples(self, signers):
        """Receipts, each by its witness, and whether it is right."""
        claims = [Claim("couple", rehearsal(signer if right else "nobody", self.signed), key=signer) for signer, right in signers]
        self.add("C", [claim.key + primitive("0B", claim.signature) for claim in claims], claims)

    def stream(self):
        wrap = counter("V", len(self.groups) // 4) if self.is_wrapped and self.groups else ""
        return self.text + wrap + self.groups


class Made:
    """An event of a log, with what its successors need: the keys committed to, the witnesses, and the event before."""

    def __init__(self, text, keys, following, witnesses, prior=None):
        self.text, self.keys, self.following, self.witnesses, self.prior = text, keys, following, witnesses, prior
        self.event = Event(text)


class Streams:
    def __init__(self, seed):
        self.random = random.Random(seed)
        # How often something is wrong.
        self.faults = self.random.choice([0, 0.1, 0.3, 1])
        self.logs = []

    def is_chosen(self, part):
        return self.random.random() < part

    def is_wrong(self, part):
        return self.random.random() < part * self.faults

    def some(self, members, least=0):
        return self.random.sample(members, self.random.randint(min(least, len(members)), len(members)))

    def keys(self, count):
        return [key(self.random.randrange(1, 250)) for _ in range(count)]

    def threshold(self, count):
        if count == 0:
            return "0"
        if self.is_chosen(0.5):
            return "%x" % self.random.randint(1, count)
        if count == 1 or self.is_chosen(0.5):
            return ["1/%d" % self.random.randint(1, count)] * count
        first = self.random.randint(1, count - 1)
        return [["1/%d" % self.random.randint(1, part)] * part for part in (first, count - first)]

    def toad(self, witnesses):
        return "%x" % (self.random.randint(1, len(witnesses)) if witnesses else 0)

    def code(self):
        return self.random.choice("IIIE")

    def establishment(self, keys, following, witnesses):
        """The values that all establishment events have."""
        return {
            "k": keys, "kt": self.threshold(len(keys)), "n": [digest(one, self.code()) for one in following],
            "nt": self.threshold(len(following)), "bt": self.toad(witnesses), "code": self.code(),
        }

    def begin(self, delegator=None):
        """The log of a new identifier."""
        keys = self.keys(self.random.choice([1, 1, 1, 2, 3]))
        if self.is_wrong(0.1):
            keys = keys[:1] * len(keys)
        following = self.keys(self.random.choice([1, 1, 2, 3]) if not self.is_wrong(0.1) else 0)
        witnesses = self.random.sample(WITNESSES, self.random.choice([0, 0, 1, 2, 4]))
        traits = [trait for trait in ("EO", "DND") if self.is_chosen(0.06)]
        values = {**self.establishment(keys, following, witnesses), "b": witnesses, "c": traits}
        if delegator:
            text = body("dip", di=delegator, **values)
        elif len(keys) == 1 and self.is_chosen(0.1):
            text = body("icp", i=keys[0], **values)
        else:
            text = body("icp", **values)
        self.logs.append([Made(text, keys, following, witnesses)])

    def tip(self, log):
        """The event of a log behind which another comes: most often the last, or the one before some interaction."""
        interactions = [made for made in log if made.event.kind == "ixn"]
        if interactions and self.is_chosen(0.2):
            return self.random.choice(interactions).prior, True
        return (self.random.choice(log) if self.is_wrong(0.4) else log[-1]), False

    def go_on(self):
        """Some log has an event more."""
        log = self.random.choice(self.logs)
        tip, recovers = self.tip(log)
        event = tip.event
        behind = {"i": event.prefix, "s": "%x" % (event.number + (2 if self.is_wrong(0.05) else 1))}
        behind["p"] = digest("nothing") if self.is_wrong(0.05) else event.said
        behind["a"] = self.anchors(log)
        if not recovers and self.is_chosen(0.5):
            log.append(Made(body("ixn", code=self.code(), **behind), tip.keys, tip.following, tip.witnesses, tip))
        else:
            log.append(self.rotation(log, tip, behind))

    def anchors(self, log):
        """Seals of some events that this identifier is to delegate, and other values."""
        own = log[0].event.prefix
        others = [log for log in self.logs if log[0].event.fields.get("di") == own]
        delegated = [made.event for log in others for made in log[-2:] if made.event.is_delegated]
        seals = [{"i": event.prefix, "s": "%x" % event.number, "d": event.said} for event in delegated]
        other = [{"x": [1, None]}, self.random.randrange(3)]
        return (seals if self.is_chosen(0.75) else []) + (other if self.is_chosen(0.2) else [])

    def rotation(self, log, tip, behind):
        keys = list(tip.following)
        if self.is_chosen(0.25):
            self.random.shuffle(keys)
        if self.is_wrong(0.3) and keys:
            keys = self.some(keys, 1)
        if self.is_chosen(0.2) or not keys:
            keys += self.keys(1)
        following = self.keys(self.random.choice([1, 1, 2, 3]) if not self.is_wrong(0.1) else 0)
        cuts = self.some(tip.witnesses) if self.is_chosen(0.4) else []
        adds = self.some([one for one in WITNESSES if one not in tip.witnesses])[:2] if self.is_chosen(0.4) else []
        kept = [one for one in tip.witnesses if one not in cuts]
        witnesses = kept + adds
        if self.is_wrong(0.05):
            adds = adds + kept[:1]
        is_delegated = log[0].event.is_delegated != self.is_wrong(0.05)
        values = {**self.establishment(keys, following, witnesses), "br": cuts, "ba": adds}
        return Made(body("drt" if is_delegated else "rot", **behind, **values), keys, following, witnesses, tip)

    def signers(self, made):
        """Who signs an event as its controller, by index and other index."""
        committed, signers = made.prior.following if made.prior else [], []
        complete = not self.is_wrong(0.3)
        for index, signer in enumerate(made.keys):
            if complete or self.is_chosen(0.5):
                other = committed.index(signer) if signer in committed else index
                if self.is_wrong(0.2):
                    other = self.random.choice([None, index, self.random.randrange(4)])
                signers.append((None if self.is_wrong(0.05) else signer, index, other))
        if self.is_chosen(0.1):
            signers.append((made.keys[0], self.random.choice([0, 1, 4, 70]), None))
        if self.is_chosen(0.3):
            self.random.shuffle(signers)
        return signers

    def receipts(self, made):
        """Who receipts an event, by index, and by key."""
        by_index, by_key = [], []
        complete = not self.is_wrong(0.4)
        for index, witness in enumerate(made.witnesses):
            if not complete and self.is_chosen(0.5):
                continue
            if self.is_chosen(0.6):
                by_index.append((None if self.is_wrong(0.1) else witness, index, self.random.choice([index, None])))
            else:
                by_key.append((witness, not self.is_wrong(0.1)))
        if self.is_chosen(0.1):
            by_key.append((self.random.choice(WITNESSES), True))
        return by_index, by_key

    def receipt(self, made, by_index, by_key):
        """A message with receipts alone."""
        event = made.event
        message = Message(body("rct", d=event.said, i=event.prefix, s="%x" % event.number), made.text)
        message.add_indexed("witness", by_index)
        message.add_couples(by_key)
        if self.is_wrong(0.05):
            message.add_indexed("controller", [(made.keys[0], 0, 0)])
        return message

    def messages_of(self, made):
        signers, (by_index, by_key) = self.signers(made), self.receipts(made)
        messages = []
        if self.is_chosen(0.3) and (by_index or by_key):
            messages.append(self.receipt(made, by_index, by_key))
            by_index, by_key = [], by_key[:1]
        if self.is_chosen(0.15) and len(signers) > 1:
            part = self.random.randrange(1, len(signers))
            signers, later = signers[:part], signers[part:]
        else:
            later = []
        for part in (signers, later):
            if part or part is signers:
                message = Message(made.text, made.text)
                message.add_indexed("controller", part)
                message.add_indexed("witness", by_index)
                message.add_couples(by_key)
                message.is_wrapped = self.is_chosen(0.2)
                messages.append(message)
                by_index, by_key = [], []
        if self.is_wrong(0.1):
            messages.append(self.receipt(made, [], []))
        return messages

    def arranged(self, logs):
        """The messages of the logs in some order."""
        order = self.random.choice(["straight", "reversed", "shuffled", "mixed", "mixed", "swapped"])
        messages = [message for log in logs for message in log]
        if order == "reversed":
            messages.reverse()
        elif order == "shuffled":
            self.random.shuffle(messages)
        elif order == "swapped":
            for place in self.random.choices(range(len(messages) - 1), k=len(messages) // 3) if len(messages) > 1 else []:
                messages[place], messages[place + 1] = messages[place + 1], messages[place]
        elif order == "mixed":
            left, messages = [list(log) for log in logs if log], []
            while left:
                log = self.random.choice(left)
                messages.append(log.pop(0))
                left = [log for log in left if log]
        return messages + (messages[:5] if self.is_chosen(0.2) else [])


def messages(seed):
    """The messages of the stream of this seed."""
    streams = Streams(seed)
    for _ in range(streams.random.randint(1, 3)):
        streams.begin()
    for _ in range(streams.random.randint(0, 3)):
        streams.begin(streams.random.choice(streams.logs)[0].event.prefix)
    for _ in range(streams.random.choice([6, 12, 20])):
        streams.go_on()
    return streams.arranged([[message for made in log for message in streams.messages_of(made)] for log in streams.logs])
