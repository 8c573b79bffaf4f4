"""The rows, a module for each part of the library: rows() gives pairs of a row and its answer, or a heading."""


def argument(value):
    """The argument of a row that stands for the bytes."""
    raw = value.encode() if isinstance(value, str) else value
    return "".join(chr(byte) if 33 <= byte < 127 and chr(byte) not in "%&*" else "%%%02x" % byte for byte in raw)
