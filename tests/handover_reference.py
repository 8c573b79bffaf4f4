"""What `export` and `blame` write of what a validator was told, by the definitions of docs/FORMATS.md, over the
reference of a validator (`reference.py`): a peer of the program, written apart from it.
"""
import base64

from kit import CHARACTERS, counter, indexed_signature, primitive
from reference import Claim, Reference, witnesses_of

MOST_BEHIND_THE_FIRST = 1023
GROUPS = [("controller", "A"), ("witness", "B"), ("couple", "C")]
SORTS = {letter: sort for sort, letter in GROUPS}


def family(reference, prefix):
    """The identifier, its delegator, that one's delegator, and so on."""
    found = []
    while prefix and prefix not in found:
        found.append(prefix)
        state = reference.state(prefix)
        prefix = state and state.delegator
    return found


def spelled(claim):
    if claim.sort == "couple":
        return claim.key + primitive("0B", claim.signature)
    return indexed_signature(claim.index, claim.other, claim.signature)


def good_claims(reference, event):
    """The elements of the groups of an event: those whose verdict is yes, each once, sort by sort, in order of first
    coming."""
    state = reference.state_before(event)
    good = [claim for claim in reference.claims_on(event)
            if reference.verdicts.get((event.text, claim.key_under(state, event), claim.signature))]
    return list(dict.fromkeys((sort, spelled(claim)) for sort, _ in GROUPS for claim in good if claim.sort == sort))


def message(event, claims):
    text = event.text
    for sort, letter in GROUPS:
        elements = [element for of, element in claims if of == sort]
        text += counter(letter, len(elements)) + "".join(elements) if elements else ""
    return text


def messages_of(reference, event):
    """The messages of an event: each with the first element, and at most so many of the others."""
    claims = good_claims(reference, event)
    first, rest = claims[:1], claims[1:]
    runs = [rest[place:place + MOST_BEHIND_THE_FIRST] for place in range(0, len(rest), MOST_BEHIND_THE_FIRST)] or [[]]
    return [message(event, first + run) for run in runs]


def exported_events(reference, prefix):
    return [event for event in reference.accepted if event.prefix in family(reference, prefix)]


def exported(reference, prefix):
    """What `export` writes, and whether the identifier is known."""
    if reference.state(prefix) is None:
        return "unknown\n", False
    return "".join(text for event in exported_events(reference, prefix) for text in messages_of(reference, event)), True


def signature(reference, event, key):
    """The first signature on the event that came and is the key's, as a primitive, or None."""
    came = (claim.signature for claim in reference.claims_on(event))
    found = next((raw for raw in came if reference.verdicts.get((event.text, key, raw))), None)
    return found and primitive("0B", found)


def establishments(reference):
    return {(event.prefix, event.number): event for event in reference.accepted if event.kind != "ixn"}


def blamed(first, second):
    """The lines of `blame` over what two validators were told."""
    text, ones, others = "", establishments(first), establishments(second)
    for place in sorted(ones.keys() & others.keys()):
        one, other = ones[place], others[place]
        if one.text == other.text:
            continue
        text += "blame %s %x %s %s\n" % (one.prefix, one.number, one.said, other.said)
        theirs = witnesses_of(second.state_before(other), other)
        for key in witnesses_of(first.state_before(one), one):
            pair = signature(first, one, key), signature(second, other, key)
            if key in theirs and all(pair):
                text += "witness %s %s %s\n" % (key, *pair)
    return text


# What a validator is told of a stream.

def raw(text):
    """The 64 bytes of a signature's last 86 characters."""
    return base64.urlsafe_b64decode("AA" + text[-86:])[2:]


def claim_of(letter, text, place):
    """The claim at the place, and where it ends."""
    if letter == "C":
        return Claim("couple", raw(text[place + 44:place + 132]), key=text[place:place + 44]), place + 132
    big = text[place] == "2"
    code, digits, end = text[place:place + 1 + big], 1 + big, place + 88 + 4 * big
    number = lambda at: sum(CHARACTERS.index(c) * 64 ** power for power, c in enumerate(reversed(text[at:at + digits])))
    index = number(place + len(code))
    other = None if code.endswith("B") else number(place + len(code) + digits) if big else index
    return Claim(SORTS[letter], raw(text[place:end]), index, other), end


def groups_of(text, place):
    """The letters and the claims of the groups at the place, and where the next body begins."""
    letters, claims = "", []
    while text[place:place + 1] == "-":
        letter, count = text[place + 1], 64 * CHARACTERS.index(text[place + 2]) + CHARACTERS.index(text[place + 3])
        place += 4
        letters += letter
        for _ in range(count if letter in "ABC" else 0):
            claim, place = claim_of(letter, text, place)
            claims.append(claim)
        place += 60 * count if letter == "E" else 0
    return letters, claims, place


def told(*streams, **more):
    """The reference of a validator that took whole streams, one behind the other."""
    reference = Reference(**more)
    for text in streams:
        place = 0
        while place < len(text):
            size = int(text[place + 16:place + 22], 16)
            letters, claims, end = groups_of(text, place + size)
            reference.take(place, text[place:place + size], claims, letters)
            place = end
    return reference
