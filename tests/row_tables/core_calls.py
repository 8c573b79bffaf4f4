"""The calls of a core, as rows with their answers.

Where a call is given a number of steps it is twice the number of events that it may look at: those that the message or
the question names, and those that wait for an event that it accepts.
"""
from kit import key
from log_cases import field
from row_tables import argument
from row_tables.states import PREFIX


def start(mode="full", messages=0, size=0, signatures=0):
    yield "core %s %d %d %d" % (mode, messages, size, signatures), "begun"


def resume(texts, answer="resumed", mode="full"):
    yield " ".join(["resume", mode, *map(argument, texts)]), answer


def take(text, answer="Taken", waiting=0, reader=0):
    yield "take %d %d %s" % (reader, 2 * (1 + waiting), argument(text)), answer + " true"


def answer(verdict, noted="New", waiting=0):
    yield "answer %s %d" % (verdict, 2 * (1 + waiting)), noted + " true"


def asked(number, person, verdict="yes", waiting=0):
    """The first open question is on the body of the number, by the key, and gets this verdict."""
    yield "next 0", "%d %s" % (number, person)
    yield from answer(verdict, waiting=waiting)


def words(numbers):
    return "".join("%d " % number for number in numbers)


def accepted(*numbers):
    yield "accepted", words(numbers)


def waiting(*numbers):
    yield "waiting", words(numbers)


def live(*numbers, prefix=PREFIX):
    yield "log " + prefix, words(numbers)


def accept(text, numbers, waiting=0):
    """A message with one open question, whose yes makes these bodies the accepted ones."""
    yield from take(text)
    yield from asked(numbers[-1], key(1), waiting=waiting)
    yield from accepted(*numbers)


def logged(held, state):
    """The held bodies are of one identifier, are accepted by their numbers, and are live."""
    numbers = sorted(range(len(held)), key=lambda place: int(field(held[place], "s"), 16))
    prefix = field(held[0], "i")
    yield from accepted(*numbers)
    yield from live(*numbers, prefix=prefix)
    yield from waiting()
    yield "state " + prefix, state
    yield "next 0", "none"
    yield "conflicts", ""
