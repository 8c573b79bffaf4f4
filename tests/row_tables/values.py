"""JSON values and thresholds.

Of each text the row says what its longest front spells, by the grammar of RFC 8259 without white space, in strict
UTF-8, nested at most so deep. The grammar is written out below, since Python's own reader is laxer; where Python's
reader takes the front, its value and its end are compared with those of the grammar. The thresholds are worked by hand.
"""
import json
import re

from row_tables import argument

NUMBER = re.compile(rb"-?(?:0|[1-9][0-9]*)(?:\.[0-9]+)?(?:[eE][+-]?[0-9]+)?")
STRING = re.compile(rb'"((?:[^\x00-\x1f"\\]|\\["\\/bfnrt]|\\u[0-9A-Fa-f]{4})*)"')


def read(text, at, depth):
    """The kind, the size and the end of the value at `at`, or None."""
    for word, kind in ((b"null", "null"), (b"true", "true"), (b"false", "false")):
        if text.startswith(word, at):
            return kind, len(word), at + len(word)
    number = NUMBER.match(text, at)
    if number:
        return "number", len(number.group()), number.end()
    string = read_string(text, at)
    if string:
        return "string", string[0], string[1]
    for opening, closing, kind in ((b"[", b"]", "list"), (b"{", b"}", "object")):
        if text.startswith(opening, at):
            return read_items(text, at + 1, closing, kind, depth - 1) if depth > 0 else None
    return None


def read_string(text, at):
    string = STRING.match(text, at)
    if not string:
        return None
    try:
        string.group(1).decode("utf-8", "strict")
    except UnicodeDecodeError:
        return None
    return len(string.group(1)), string.end()


def read_items(text, at, closing, kind, depth):
    count = 0
    if text.startswith(closing, at):
        return kind, count, at + 1
    while True:
        if kind == "object":
            name = read_string(text, at)
            if not name or not text.startswith(b":", name[1]):
                return None
            at = name[1] + 1
        item = read(text, at, depth)
        if not item:
            return None
        count, at = count + 1, item[2]
        if text.startswith(closing, at):
            return kind, count, at + 1
        if not text.startswith(b",", at):
            return None
        at += 1


def same_in_python(text, found):
    """Python's reader agrees wherever the grammar reads a value."""
    kind, size, end = found
    value, python_end = json.JSONDecoder().raw_decode(text[:end].decode("utf-8"))
    assert python_end == len(text[:end].decode("utf-8")), text
    kinds = {dict: "object", list: "list", str: "string", int: "number", float: "number"}
    if value is None or value is True or value is False:
        assert json.dumps(value) == kind, text
    else:
        assert kinds[type(value)] == kind, text
    if kind == "list":
        assert len(value) == size, text


TEXTS = [
    # read whole
    (b"null", 0), (b"true", 0), (b"false", 0), (b"0", 0), (b"-0", 0), (b"-12.50e+3", 0), (b"1E400", 0),
    (b'""', 0), (b'"a\\"b\\\\\\/\\b\\f\\n\\r\\t"', 0), (b'"\\uD800\\u00fF"', 0),
    ('"\u00e9\u20ac\U0001f600"'.encode(), 0), (b"[]", 1), (b"{}", 1), (b"[[]]", 2), (b"[null,true,0]", 1),
    (b'{"a":1.50}', 8), (b'{"a":1,"a":[2,{"":3}]}', 3), (b"[" * 8 + b"]" * 8, 8),
    (b'[null,true,false,-0.0e1,"\\u00e9",[],{},{"b":[1,2],"b":3}]', 8),
    # read in part
    (b"01", 0), (b"1.", 0), (b"1e+", 0), (b"1.5e", 0), (b"-0.0.0", 0), (b"2]", 0), (b"nullnull", 0), (b'"a"b', 0),
    (b"[1]]", 1), (b"10e5x", 0), (b"1 ", 0), (b"truefalse", 0),
    # nothing is read
    (b"", 8), (b"-", 8), (b".5", 8), (b"+1", 8), (b"nul", 8), (b" 1", 8), (b"[1, 2]", 8), (b"[1,]", 8), (b"[,1]", 8),
    (b"[1", 8), (b'{"a" :1}', 8), (b'{a:1}', 8), (b'{"a":1,}', 8), (b'{"a"}', 8), (b'{"a\\x":1}', 8), (b"[]", 0),
    (b"[[]]", 1), (b"[" * 9 + b"]" * 9, 8), (b'"a', 8), (b'"\n"', 8), (b'"\\x"', 8), (b'"\\u12g4"', 8),
    (b'"\xc0\xaf"', 8), (b'"\xed\xa0\x80"', 8), (b'"\xf4\x90\x80\x80"', 8), (b'"\x80"', 8),
]


def trees():
    for text, depth in TEXTS:
        found = read(text, 0, depth)
        answer = "NotATree"
        if found:
            same_in_python(text, found)
            answer = "%s %d %d %s" % (*found, text[:found[2]].decode())
        yield "tree %d %s" % (depth, argument(text)), answer
    yield "tree 8 65535*[", "NotATree"


def texts():
    for text, is_string in [(b"", 1), (b"a\\u00Ef\\/\xc3\xa9", 1), (b'"', 0), (b"\\", 0), (b"\x1f", 0), (b"\xc3", 0)]:
        for kind in ("text", "string", "name"):
            yield "json %s %s" % (kind, argument(text)), "true" if is_string else "false"
    for text, is_number in [(b"1.50", 1), (b"1,2", 0), (b"01", 0)]:
        yield "json number %s" % argument(text), "true" if is_number else "false"


THIRDS = '["1/2","1/3","1/6"]'
FINE = '["4294967295/4294967295","4294967294/4294967294","4294967293/4294967293"]'
GROUPED = '[{"1/2":["1/2","1/2"]},"1/2"]'
NESTED = '[[{"1":["1/2","1/2"]}],["1"]]'
THRESHOLDS = [
    # the number of keys, the text, and the fault; none where it is read, and then written as it is
    (2, '"2"', None), (0, '"0"', None), (3, THIRDS, None), (2, '["2/4","2/4"]', None),
    (2, '["4294967295/4294967295","4294967294/4294967295"]', None), (4, '[["1"],["1/2","1/2","0"]]', None),
    (1, '"01"', "Form"), (10, '"A"', "Form"), (1, "1", "Form"), (2, '["1",["1"]]', "Form"),
    (2, '["1/2","01/2"]', "BadWeight(1)"), (3, '[["1"],["1","3/2"]]', "BadWeight(2)"), (1, '["1/4294967296"]', "BadWeight(0)"),
    (2, '"3"', "OutOfRange"), (1, '"0"', "OutOfRange"), (1, '"10000000000000001"', "OutOfRange"), (2, '["1/2"]', "OutOfRange"),
    (0, "[]", "OutOfRange"), (3, FINE, "TooFine"), (2, '["1/3","1/3"]', "Unreachable"), (0, "[[]]", "Unreachable"),
    # groups of weights
    (3, GROUPED, None), (3, NESTED, None), (1, '{"1":["1"]}', "Form"), (3, '[{"1/2":["1/2","01/2"]},"1/2"]', "BadWeight(2)"),
    (3, '[{"1":["1/2","1/2"]}]', "OutOfRange"), (3, '[{"1/2":["1/3","1/3"]},"1/2"]', "Unreachable"),
    (1, '[[["1"]]]', "Form"), (2, '[{"1/2":["1"],"1/3":["1"]}]', "Form"), (1, '[{"1":"1"}]', "Form"), (1, '[{"01":["1"]}]', "BadWeight(0)"),
    (4, '[["1",{"1":["1","2/1"]}],["1"]]', "BadWeight(3)"), (3, '[{"1":%s}]' % FINE, "TooFine"),
]
MET = [
    (3, '"2"', "0,2,2", True), (3, '"2"', "2,2,3", False), (3, THIRDS, "2,0,1", True), (3, THIRDS, "0,1", False),
    (3, THIRDS, "0,0,0", False), (2, '["2/4","2/4"]', "0,1", True), (3, '[["1"],["1/2","1/2"]]', "0,1,2", True),
    (3, '[["1"],["1/2","1/2"]]', "0,1", False), (2, '["4294967294/4294967295","1/4294967295"]', "0,1", True),
    (2, '["4294967294/4294967295","1/2"]', "0", False),
    (3, GROUPED, "0,1,2", True), (3, GROUPED, "0,1", False), (3, GROUPED, "0,2", False), (3, NESTED, "0,1,2", True),
    (3, NESTED, "0,1", False),
]


def thresholds():
    for keys, text, fault in THRESHOLDS:
        yield "threshold %d %s" % (keys, argument(text)), fault or text
    for keys, text, indices, met in MET:
        yield "met %d %s %s" % (keys, indices, argument(text)), "Some(%s)" % ("true" if met else "false")


def rows():
    yield "# JSON values"
    yield from trees()
    yield from texts()
    yield "# signing thresholds"
    yield from thresholds()
