"""The text of a plan, read line by line: a peer of the program's reading, written apart from it.

A value of JSON is kept as the text that spells it. Of a threshold the weights are kept too: a number of keys, or
clauses of terms, where a term is its weight and the weights of its group, if it is one.
"""
import re
from fractions import Fraction
from math import lcm

from kit import digest

KINDS = ("icp", "dip", "rot", "drt", "ixn")
REPEATED = ("key", "next", "cut", "add", "trait", "seal", "sign")
# The characters of a primitive behind its code: two bits before the raw bytes are zero.
REST = "[A-P][A-Za-z0-9_-]{42}"
FORMS = {
    "code": "[EI]", "key": "[BD]" + REST, "next": "[EI]" + REST, "cut": "[BD]" + REST, "add": "[BD]" + REST,
    "bt": "0|[1-9a-f][0-9a-f]{0,15}", "di": "[BDEI]" + REST, "reuse": "yes",
}
NUMBER = "0|[1-9][0-9]{0,4}"
JSON_STRING = re.compile(r'"((?:[^"\\\x00-\x1f]|\\(?:["\\/bfnrt]|u[0-9a-fA-F]{4}))*)"')
JSON_SCALAR = re.compile(r"-?(?:0|[1-9][0-9]*)(?:\.[0-9]+)?(?:[eE][+-]?[0-9]+)?|true|false|null")
HEX = re.compile("0|[1-9a-f][0-9a-f]*")
WEIGHT = re.compile("0|1|([1-9][0-9]{0,9})/([1-9][0-9]{0,9})")
DEEPEST = 8


class Refused(Exception):
    """The line isn't of the form."""


class Scalar:
    """A number or a word of JSON."""


def value_at(text, place):
    """The JSON value that begins at the place, and the place behind it. A string is its text as it is written, an
    object the list of its members in a tuple."""
    if match := JSON_STRING.match(text, place):
        return match[1], match.end()
    if match := JSON_SCALAR.match(text, place):
        return Scalar(), match.end()
    if text[place:place + 1] not in ("[", "{"):
        raise Refused
    close = "]" if text[place] == "[" else "}"
    members, behind = [], place + 1
    if text[behind:behind + 1] != close:
        while True:
            member, behind = (value_at if close == "]" else member_at)(text, behind)
            members.append(member)
            if text[behind:behind + 1] != ",":
                break
            behind += 1
        if text[behind:behind + 1] != close:
            raise Refused
    return members if close == "]" else (members,), behind + 1


def member_at(text, place):
    """The member of an object that begins at the place, as a name and a value, and the place behind it."""
    name = JSON_STRING.match(text, place)
    if not name or text[name.end():name.end() + 1] != ":":
        raise Refused
    value, behind = value_at(text, name.end() + 1)
    return (name[1], value), behind


def depth(value):
    """How deep a value nests."""
    if isinstance(value, (str, Scalar)):
        return 0
    members = value if isinstance(value, list) else [member for _, member in value[0]]
    return 1 + max(map(depth, members), default=0)


def json_value(text):
    value, behind = value_at(text, 0)
    if behind != len(text) or depth(value) > DEEPEST:
        raise Refused
    return value


def weight(text):
    match = WEIGHT.fullmatch(text) if isinstance(text, str) else None
    if not match or (match[1] and not int(match[1]) <= int(match[2]) < 2**32):
        raise Refused
    return (int(match[1]), int(match[2])) if match[1] else (int(text), 1)


def term(value):
    """A term as its weight and the list of the weights in its group, or None where it is no group."""
    if not isinstance(value, tuple):
        return weight(value), None
    if len(value[0]) != 1 or not isinstance(value[0][0][1], list):
        raise Refused
    outer, inner = value[0][0]
    return weight(outer), [weight(member) for member in inner]


def threshold(text):
    """What a value spells that has the form of a threshold: a number of keys, or clauses."""
    value = json_value(text)
    if isinstance(value, str):
        if not HEX.fullmatch(value) or len(value) > 16:
            raise Refused
        return int(value, 16)
    if not isinstance(value, list):
        raise Refused
    nested = value and all(isinstance(member, list) for member in value)
    return [[term(member) for member in clause] for clause in (value if nested else [value])]


def weights_of(clause):
    """The weights of a clause that stand for keys, in order."""
    return [weight for outer, inner in clause for weight in ([outer] if inner is None else inner)]


def sums(clause):
    """The lists of weights of a clause each of which has to reach a whole."""
    return [[outer for outer, _ in clause]] + [inner for _, inner in clause if inner is not None]


def is_threshold(value, keys):
    """Whether a threshold of this form is one of so many keys."""
    if isinstance(value, int):
        return 1 <= value <= keys if keys else value == 0
    if value == [[]] or sum(len(weights_of(clause)) for clause in value) != keys:
        return False
    parts = [part for clause in value for part in sums(clause)]
    return all(lcm(*(below for _, below in part)) <= 2**64 and sum(Fraction(*weight) for weight in part) >= 1 for part in parts)


def is_met(value, indices):
    """Whether these indices meet the threshold."""
    if isinstance(value, int):
        return len(indices) >= value
    first = 0
    for clause in value:
        total = Fraction(0)
        for outer, inner in clause:
            members = [outer] if inner is None else inner
            given = sum(Fraction(*weight) for place, weight in enumerate(members) if first + place in indices)
            total += given if inner is None else Fraction(*outer) if given >= 1 else 0
            first += len(members)
        if total < 1:
            return False
    return True


def slot(text):
    """An index, and another index or None."""
    match = re.fullmatch("(%s) (-|%s)" % (NUMBER, NUMBER), text)
    if not match:
        raise Refused
    index, other = int(match[1]), None if match[2] == "-" else int(match[2])
    if max(index, other or 0) > 65535:
        raise Refused
    return index, other


def read_value(kind, name, text):
    """What a line of this name gives, in a plan of this kind."""
    if name in ("kt", "nt"):
        threshold(text)
    elif name == "trait":
        if not isinstance(json_value(text), str):
            raise Refused
    elif name == "seal":
        json_value(text)
    elif name == "sign":
        return slot(text)
    else:
        forms = {**FORMS, "prefix": {"icp": "said|basic", "dip": "(?!)"}.get(kind, FORMS["di"])}
        if name not in forms or not re.fullmatch(forms[name], text):
            raise Refused
    return text


class BadLine(Exception):
    """The number of the line that is refused."""


class Plan:
    """What the lines of a plan say: a value of each name that has one, and lists of the others."""

    def __init__(self, kind):
        self.kind, self.values, self.lists = kind, {}, {name: [] for name in REPEATED}
        self.promises = []

    def take(self, number, line):
        name, space, text = line.decode().partition(" ")
        if not space:
            raise Refused
        value = read_value(self.kind, name, text)
        if name in REPEATED:
            self.lists[name].append(value)
        elif name in self.values:
            raise Refused
        else:
            self.values[name] = value
        if name == "next" and "reuse" not in self.values:
            self.promises.append((number, value))

    def first_reuse(self):
        """The line of the first promise of a key that the plan has, or that an earlier line promises, if there is one."""
        known = {digest(key, code) for key in self.lists["key"] for code in "EI"}
        for number, promise in self.promises:
            if promise in known:
                return number
            known.add(promise)

    def is_whole(self):
        """Whether nothing is missing, and no delegator too many."""
        named = "prefix" in self.values or self.kind in ("icp", "dip")
        return named and ("di" in self.values) == (self.kind == "dip")

    def get(self, name):
        defaults = {"code": "E", "prefix": "said", "kt": '"1"', "nt": '"1"' if self.lists["next"] else '"0"', "bt": "0"}
        return self.values.get(name, defaults.get(name))


def read_plan(text):
    """The plan that the bytes spell."""
    *lines, rest = text.split(b"\n")
    first = lines[0] if lines else b""
    if first not in [b"kind " + kind.encode() for kind in KINDS]:
        raise BadLine(1)
    plan = Plan(first[5:].decode())
    for number, line in enumerate(lines[1:], 2):
        try:
            plan.take(number, line)
        except (Refused, UnicodeDecodeError):
            raise BadLine(number)
    if rest:
        raise BadLine(len(lines) + 1)
    if not plan.is_whole():
        raise BadLine(1)
    if number := plan.first_reuse():
        raise BadLine(number)
    return plan
