"""Says which events a validator may accept of a stream in which something was changed, and asks the library of a helper
itself.

An event may be accepted where its body is one of the stream as it was, byte for byte, and the signatures, receipts and
seals that the changed stream has for it are enough by the definitions (`reference.py`), each signature being one that
the library says yes of. Another body brings nothing: it is an event with a digest that isn't its own, or a receipt of
no event that is there.
"""
import functools
import json

from kit import primitive, said
from reference import Reference
from stream_front import messages


class Judge:
    """What the stream had as it was, and what is known of changed ones by now."""

    def __init__(self, helper, stream):
        bodies = [message.text for message in messages(stream)]
        events = {said(text): text for text in bodies if '"t":"rct"' not in text}
        # Of each body the text that its signatures are on: of a receipt it is the event's.
        self.signed = {text: events[said(text)] for text in bodies}
        self.keys = {key for text in bodies for name in ("k", "b", "ba") for key in json.loads(text).get(name, [])}
        self.helper, self.lines = helper, {}

    @functools.cache
    def says(self, text, key, raw):
        """What the library says of a key's signature on a text."""
        return self.helper.says(key, primitive("0B", raw), text)

    @functools.cache
    def is_good(self, text, key, raw):
        """Whether it says yes under the key, or, where none is named, under one of the stream."""
        return any(self.says(text, one, raw) for one in ([key] if key else self.keys))

    def accepted(self, stream):
        """The lines of the events that may be accepted. Streams that bring the same are judged once."""
        told = [(message, self.claims(message)) for message in messages(stream) if message.text in self.signed]
        brought = tuple((message.text, *message.letters, *(tuple(vars(claim).items()) for claim in claims)) for message, claims in told)
        if brought not in self.lines:
            self.lines[brought] = self.judged(told)
        return self.lines[brought]

    def claims(self, message):
        """The message's claims but those that are nobody's, which add nothing."""
        text = self.signed[message.text]
        return [claim for claim in message.claims if self.is_good(text, claim.key, claim.signature)]

    def judged(self, told):
        reference = Reference(verifier=self.says)
        for message, claims in told:
            reference.take(message.place, message.text, claims, message.letters)
        return [line for line in reference.report().splitlines() if line.startswith("event ")]
