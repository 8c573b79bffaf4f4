"""The functions of a program that stand on a stack, without frames or tables to go by.

A word on the stack is taken for a return address where it stands behind a call of the function that was found last.
That is a guess, and a good one: a function that is called by its address alone ends it.
"""
import bisect
import pathlib
import struct

SECTION = struct.Struct("<IIQQQQIIQQ")
SYMBOL = struct.Struct("<IBBHQQ")
SYMBOLS, FUNCTION, CALL = 2, 2, 0xE8


class Code:
    """The code of a program for x86-64, with the names of its functions."""

    def __init__(self, program):
        self.data = pathlib.Path(program).read_bytes()
        table, _, _, _, _, size, count, names = struct.unpack_from("<QIHHHHHH", self.data, 40)
        self.sections = [SECTION.unpack_from(self.data, table + number * size) for number in range(count)]
        named = {self.text(self.sections[names][4], section[0]): section for section in self.sections}
        _, _, _, self.begin, self.offset, self.length, *_ = named[".text"]
        self.functions = sorted(set(self.found()))

    def text(self, table, place):
        return self.data[table + place:self.data.index(0, table + place)].decode()

    def found(self):
        """Where each function begins, and its name."""
        for _, kind, _, _, offset, length, link, *_ in self.sections:
            if kind != SYMBOLS:
                continue
            for name, info, _, _, place, _ in SYMBOL.iter_unpack(self.data[offset:offset + length]):
                if info % 16 == FUNCTION and place:
                    yield place, self.text(self.sections[link][4], name)

    def function(self, place):
        """The function in which the place is."""
        return self.functions[bisect.bisect(self.functions, (place, chr(0x10FFFF))) - 1]

    def called(self, place):
        """Where the function begins that is called right before the place; None where nothing is."""
        at = place - self.begin + self.offset
        if not self.begin + 5 <= place < self.begin + self.length or self.data[at - 5] != CALL:
            return None
        return place + int.from_bytes(self.data[at - 4:at], "little", signed=True)

    def path(self, place, words):
        """The functions from that in which the place is, outwards, by the words of the stack above. Where it isn't in
        the program, the first is the one that the program was left from."""
        start, names = None, []
        for word in (place, *words):
            called = self.called(word)
            if called is not None and called == (start or called):
                start, name = self.function(word)
                names.append(name)
        return names
