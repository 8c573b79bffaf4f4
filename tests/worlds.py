"""Random worlds, and the orders in which they are told.

A world is the bodies that come, each with its signatures or receipts: events of several identifiers, some delegated, no
two different ones of one identifier and number, and receipts. Some events don't come, or lack signatures or receipts,
so that they or others wait. In each order the same bodies come with the same signatures and receipts: in one message or
in several, in groups of any order, once or more often, in one to five files.
"""
import itertools
import random

from handover_reference import GROUPS, spelled
from random_streams import Message, Streams
from kit import body

LETTERS = dict(GROUPS)
FILES = 5
# The order of number 0 has each body once, log by log from the front, and that of number 1 the same turned round, each
# in one file.
PLAIN, TURNED = 0, 1


class World(Streams):
    """The bodies of this seed, each as a message with all that comes with it."""

    def __init__(self, seed):
        super().__init__("world %d" % seed)
        self.seed, self.sealed = seed, set()
        self.faults = self.random.choice([0, 0.1, 0.3])
        for _ in range(self.random.randint(1, 3)):
            self.begin()
        for _ in range(self.random.randint(0, 3)):
            self.begin(self.random.choice(self.logs)[0].event.prefix)
        for _ in range(self.random.choice([6, 12, 20])):
            self.go_on()
        self.bodies = [message for log in self.logs for made in log for message in self.bodies_of(made)]

    def begin(self, delegator=None):
        """The log of a new identifier, unless there is one of that identifier."""
        super().begin(delegator)
        if any(log[0].event.prefix == self.logs[-1][0].event.prefix for log in self.logs[:-1]):
            self.logs.pop()

    def tip(self, log):
        """The event behind which another comes: always the last."""
        return log[-1], False

    def anchors(self, log):
        """Seals of most of the events that wait for one of this identifier."""
        children = [other for other in self.logs if other[0].event.fields.get("di") == log[0].event.prefix]
        events = [made.event for child in children for made in child if made.event.is_delegated and made.event.said not in self.sealed]
        sealed = [event for event in events if self.is_chosen(0.8)]
        self.sealed |= {event.said for event in sealed}
        return [{"i": event.prefix, "s": "%x" % event.number, "d": event.said} for event in sealed]

    def signers(self, made):
        """Who signs an event. Now and then some don't, or don't say which commitments they keep."""
        signers = super().signers(made)
        if self.is_chosen(0.06):
            signers = [(signer, index, None) for signer, index, _ in signers]
        return self.some(signers) if self.is_chosen(0.06) else signers

    def bodies_of(self, made):
        """The event, unless it doesn't come, and a receipt, where some come in one. Each receipt comes with the event,
        in the receipt, or in both."""
        event = Message(made.text, made.text)
        event.add_indexed("controller", self.signers(made) or [(None, 0, 0)])
        receipt = Message(body("rct", d=made.event.said, i=made.event.prefix, s="%x" % made.event.number), made.text)
        some_of_both = lambda: self.random.choice([[event], [receipt], [event, receipt]])
        by_index, by_key = self.receipts(made)
        for one in by_index:
            for message in some_of_both():
                message.add_indexed("witness", [one])
        for one in by_key:
            for message in some_of_both():
                message.add_couples([one])
        return [event] * (not self.is_chosen(0.03)) + [receipt] * bool(receipt.claims)

    def order(self, number):
        """The messages of the order of this number, in files."""
        return Order(self.bodies, random.Random("order %d of world %d" % (number, self.seed)), number).files()


class Order:
    """An order of the bodies of a world."""

    def __init__(self, bodies, chooser, number):
        self.bodies, self.random, self.number = bodies, chooser, number

    def is_chosen(self, part):
        return self.random.random() < part

    def shuffled(self, members):
        return self.random.sample(members, len(members))

    def files(self):
        """One to five files, each with its messages. One may have none."""
        if self.number in (PLAIN, TURNED):
            messages = [self.message(whole, whole.claims) for whole in self.bodies]
            return [messages[::-1] if self.number == TURNED else messages]
        messages = [message for whole in self.bodies for message in self.messages_of(whole)]
        again = self.random.sample(messages, self.random.randint(0, len(messages) // 3))
        files = [[] for _ in range(1 + self.number % FILES)]
        for message in self.shuffled(messages + again):
            self.random.choice(files).append(message)
        return files

    def messages_of(self, whole):
        """A body with its claims in one to three messages, in any order. In each an event has a signature of its
        controller, or it would be refused; and a receipt has a receipt."""
        parts = [[] for _ in range(self.random.choice([1, 1, 2, 3]))]
        for claim in self.shuffled(whole.claims):
            self.random.choice(parts).append(claim)
        needed = [claim for claim in whole.claims if claim.sort == "controller"] or whole.claims
        for part in parts:
            if not any(claim in needed for claim in part) or self.is_chosen(0.2):
                part.insert(self.random.randint(0, len(part)), self.random.choice(needed))
        return [self.message(whole, part) for part in parts]

    def message(self, whole, claims):
        """The body with these claims. Those of one sort that follow each other make a group."""
        message = Message(whole.text, whole.signed)
        for sort, run in itertools.groupby(claims, key=lambda claim: claim.sort):
            run = list(run)
            message.add(LETTERS[sort], map(spelled, run), run)
        message.is_wrapped = self.is_chosen(0.2)
        return message
