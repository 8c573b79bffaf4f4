"""The questions by chance that tests/ed25519 asks both helpers: signing questions, verdict questions on true signatures
and on changed ones, and questions that aren't of the form or are cut short."""
from ed25519_questions import ORDER, SMALL, spelled
from kit import CHARACTERS, primitive

LENGTHS = [0, 1, 2, 63, 64, 65, 111, 112, 127, 128, 145, 300, 1000, 5000]
DIGITS = CHARACTERS.encode()


def body(chance):
    length = 65535 if chance.random() < 0.002 else chance.choice(LENGTHS)
    return chance.randbytes(length)


def signing(chance, names):
    """A key of those and a body."""
    return chance.choice(names), body(chance)


def signing_question(name, text):
    return b"S" + name + b"%08x" % len(text) + text


def verdict_question(name, signature, text):
    return b"V" + name + signature + b"%08x" % len(text) + text


def raw(text, lead):
    """The raw bytes of a primitive with a code of so many characters."""
    number = 0
    for character in text.decode()[lead:]:
        number = 64 * number + CHARACTERS.index(character)
    return number.to_bytes((len(text) - lead) * 3 // 4, "big")


def replaced(chance, text, first):
    """The text with another of the 64 characters at a place from the first on."""
    place = chance.randrange(first, len(text))
    return text[:place] + bytes([chance.choice([digit for digit in DIGITS if digit != text[place]])]) + text[place + 1:]


def changed_text(chance, text):
    if not text:
        return b"x"
    if chance.random() < 0.3:
        return text[:-1]
    place = chance.randrange(len(text))
    return text[:place] + bytes([text[place] ^ 1 << chance.randrange(8)]) + text[place + 1:]


def with_order_added(signature):
    whole = raw(signature, 2)
    number = int.from_bytes(whole[32:], "little") + ORDER
    return spelled("0B", whole[:32] + number.to_bytes(32, "little"))


def changed(chance, names, name, signature, text):
    """A question by one change, so that the answer to it is no."""
    way = chance.randrange(6)
    if way == 0:
        return name, replaced(chance, signature, 3), text
    if way == 1 and len(text) < 65535:
        return name, signature, changed_text(chance, text)
    if way == 2:
        return chance.choice([other for other in names if other[1:] != name[1:]]), signature, text
    if way == 3:
        return name, with_order_added(signature), text
    if way == 4:
        return spelled(chance.choice("BD"), bytes.fromhex(chance.choice(SMALL))), signature, text
    return spelled("D", chance.randbytes(32)), spelled("0B", chance.randbytes(64)), text


def verdict(chance, names, name, signature, text):
    """A question on the signature, changed every other time, and the answer to it. The key's code doesn't count."""
    if chance.random() < 0.5:
        return verdict_question(*changed(chance, names, name, signature, text)), b"N"
    return verdict_question(chance.choice("BD").encode() + name[1:], signature, text), b"Y"


def spoiled(chance, names):
    """A question with another byte at one place before its body, or the beginning of one."""
    name, text = chance.choice(names), chance.randbytes(20)
    signature = primitive("0B", chance.randbytes(64)).encode()
    whole = chance.choice([signing_question(name, text), verdict_question(name, signature, text)])
    place = chance.randrange(len(whole) - len(text))
    if chance.random() < 0.3:
        return whole[:chance.randrange(len(whole))]
    return whole[:place] + bytes([chance.choice([*b"+/= \nAgZ_-0129afF", 0, 255])]) + whole[place + 1:]
