"""What keri-keys, keri-picture and keri-receipt share: how words are read and faults told, what is read and written,
and the report of `keri validate` with the bodies of the events that it names.

`keri` is the one beside the script that was started. In a clone this file is in packaging, and install.sh puts it into
lib/keri.
"""
import argparse
import contextlib
import fcntl
import itertools
import json
import os
import re
import signal
import subprocess
import sys

KERI = os.path.join(os.path.dirname(os.path.realpath(sys.argv[0])), "keri")
DONE, WORDS, REFUSED, CONFLICT, READ_FAULT, WRITE_FAULT, HELPER_FAULT, NO_MEMORY = 0, 2, 3, 4, 5, 6, 7, 10
NO_REPORT, NO_PROGRAM = 15, 70
MOST_FILES = 64
REPORTED = {DONE, REFUSED, CONFLICT}  # with these `keri validate` has reported
SIZES = {"event": 6, "state": 7, "waits": 5}  # of a line of the report: how many words it has
KINDS = {"icp", "rot", "ixn", "dip", "drt"}
VERSION = re.compile(rb'\{"v":"KERI10JSON([0-9a-f]{6})_"')
FRONT = re.compile(rb'.{24},"t":"\w{3}","d":"([A-Za-z0-9_-]{44})"')


class Fault(Exception):
    """What ends a script: the status, and what is said."""


def shown(text):
    """A text as it is told: nothing in it acts on a terminal."""
    return re.sub(r"[\x00-\x1f\x7f-\x9f]", "?", text)


def say(text):
    """Says a text on standard error, where that takes it."""
    try:
        os.write(2, (text + "\n").encode(errors="backslashreplace"))
    except OSError:
        pass


def write_whole(file, data):
    """Writes all of the bytes to an open file. A write may take a part alone."""
    rest = memoryview(data)
    while rest:
        rest = rest[os.write(file, rest):]


def put(data):
    """Writes all of the bytes to standard output."""
    try:
        write_whole(1, data)
    except OSError as fault:
        raise Fault(WRITE_FAULT, f"standard output: {fault.strerror}") from None


class Once(argparse.Action):
    """Keeps a value that stands once, and isn't empty."""

    def __call__(self, parser, namespace, value, option=None):
        if not value:
            parser.error(f"argument {option or self.metavar}: it is empty")
        if getattr(namespace, self.dest) is not None:
            parser.error(f"argument {option}: it stands twice")
        setattr(namespace, self.dest, value)


class Version(argparse.Action):
    """Writes the version of the `keri` that the script is of, and ends it."""

    def __init__(self, **more):
        super().__init__(nargs=0, help="writes the version, and ends", **more)

    def __call__(self, parser, *_):
        try:
            done = subprocess.run([KERI, "--version"], stdin=subprocess.DEVNULL, stdout=subprocess.PIPE)
        except OSError:
            raise Fault(NO_PROGRAM, "there is no keri beside this script: install again") from None
        if not done.returncode:
            put(f"{parser.prog}, of ".encode() + done.stdout)
        sys.exit(done.returncode)


class Words(argparse.ArgumentParser):
    """The words of a script; a helper and FILEs are among them."""

    def __init__(self, **more):
        super().__init__(allow_abbrev=False, formatter_class=argparse.RawDescriptionHelpFormatter, **more)
        self.register("action", None, Once)
        self.add_argument("-V", "--version", action=Version)
        self.add_argument("--helper", required=True, metavar="HELPER",
                          help="as for keri: a program, or `rehearsal`, which gives no security")

    def take_files(self):
        """Adds the FILEs, behind what other words stand alone."""
        self.add_argument("files", metavar="FILE", nargs="+", help="a path, or - for standard input; up to 64")

    def parse_args(self, args=None, namespace=None):
        """Names an option that there isn't before the words behind it are taken for others."""
        words = sys.argv[1:] if args is None else args
        for word in itertools.takewhile(lambda word: word != "--", words):
            name = word.split("=", 1)[0]
            if name.startswith("--") and name not in self._option_string_actions:
                self.error(f"{name}: there is no such option")
        return super().parse_args(args, namespace)

    def error(self, message):
        say(f"{self.format_usage()}{self.prog}: error: {shown(message)}")
        sys.exit(WORDS)

    def print_help(self, file=None):
        put(self.format_help().encode())


def primitive(codes, name):
    """What judges a word that is a primitive of 44 characters with one of these codes."""
    def judged(text):
        if not re.fullmatch(f"[{codes}][A-Za-z0-9_-]{{43}}", text):
            first = " or ".join(filter(None, [", ".join(codes[:-1]), codes[-1]]))
            raise argparse.ArgumentTypeError(f"{name} has 44 characters, the first of them {first}")
        return text
    return judged


def content(path):
    """What a file holds, or standard input where it is -."""
    try:
        with open(0 if path == "-" else path, "rb", closefd=path != "-") as file:
            return file.read()
    except OSError as fault:
        raise Fault(READ_FAULT, f"{path}: {fault.strerror}") from None


def in_memory(held, stream):
    """The number of a new file in memory that holds the stream, and is there for so long."""
    file = os.memfd_create("stream")
    held.callback(os.close, file)
    write_whole(file, stream)
    return file


def ask(*words, streams):
    """How `keri` ends with the words where the streams are its FILEs, and the lines that it writes, each as its words.
    One stream is its standard input; of several each is a file in memory."""
    with contextlib.ExitStack() as held:
        try:
            files = [in_memory(held, stream) for stream in streams] if len(streams) > 1 else []
        except OSError as fault:
            raise Fault(NO_MEMORY, f"files in memory: {fault.strerror}") from None
        paths, more = ["-"], {"input": streams[0]}
        if files:
            paths, more = [f"/dev/fd/{file}" for file in files], {"stdin": subprocess.DEVNULL, "pass_fds": files}
        try:
            done = subprocess.run([KERI, *words, *paths], stdout=subprocess.PIPE, **more)
        except FileNotFoundError:
            raise Fault(NO_PROGRAM, "there is no keri beside this script: install again") from None
        except OSError as fault:
            raise Fault(NO_PROGRAM, f"{KERI}: {fault.strerror}") from None
    status = done.returncode if done.returncode >= 0 else 128 - done.returncode  # as a shell tells of a signal
    return status, [line.split(" ") for line in done.stdout.decode(errors="replace").splitlines()]


def report(helper, streams):
    """The status and the lines of `keri validate`, where it has reported."""
    status, lines = ask("validate", f"--helper={helper}", streams=streams)
    faults = [": " + " ".join(line) for line in lines if line[0] in ("fault", "full")]
    if status not in REPORTED or faults:
        told = "".join([f"keri validate ended with {status}", *faults[:1]])
        raise Fault(NO_REPORT if status in REPORTED else status, told)
    if any(len(line) != SIZES.get(line[0], len(line)) for line in lines):
        raise Fault(NO_REPORT, "the report of keri validate isn't whole")
    return status, lines


def refused(lines):
    """The lines of a report that say what was refused."""
    return [" ".join(line) for line in lines if line[0] in ("refused", "malformed")]


def texts(stream):
    """The bodies of a stream, one after the other, up to where `keri` reads no body any more. Groups hold no brace, so
    the next one begins the next body."""
    place = stream.find(b"{")
    while head := VERSION.match(stream, place) if place >= 0 else None:
        end = place + int(head[1], 16)
        if not head.end() <= end <= len(stream):
            return
        yield stream[place:end]
        place = stream.find(b"{", end)


def bodies(streams, saids):
    """What the events with these digests say, by their digests. `keri check` says of each body that names one whether
    that is its own. A number is a float, whatever it has of digits."""
    fronts = ((FRONT.match(text), text) for stream in streams for text in texts(stream))
    named = [text for front, text in fronts if front and front[1].decode() in saids]
    status, lines = ask("check", streams=[b"".join(named)])
    if status not in (DONE, REFUSED):
        raise Fault(status, f"keri check ended with {status}")
    found = {line[3]: json.loads(text, parse_int=float) for line, text in zip(lines, named) if line[0] in KINDS}
    if not found.keys() >= saids:
        raise Fault(NO_REPORT, "the report of keri validate isn't that of the FILEs")
    return found


def fill_streams():
    """Puts something that can't be read or written where a standard stream is closed, lest a pipe come to stand
    there."""
    for stream in range(3):
        try:
            os.fstat(stream)
        except OSError:
            os.set_inheritable(os.open(os.devnull, os.O_RDONLY if stream else os.O_WRONLY), True)


def look_at_output():
    """Sees that standard output isn't closed, before something is done for its sake that can't be taken back."""
    if fcntl.fcntl(1, fcntl.F_GETFL) & os.O_ACCMODE == os.O_RDONLY:
        raise Fault(WRITE_FAULT, "standard output: it is closed")


def run(form, act):
    """Has the function act on the words, and ends the script with the status that it answers, or with that of a
    fault."""
    if signal.getsignal(signal.SIGINT) is signal.default_int_handler:
        signal.signal(signal.SIGINT, signal.SIG_DFL)  # Ctrl-C ends it without a word
    fill_streams()
    try:
        asked = form.parse_args(["--help"] if sys.argv[1:] == ["help"] else None)
        if len(asked.files) > MOST_FILES:
            form.error(f"there are over {MOST_FILES} FILEs")
        look_at_output()
        status = act(asked)
    except Fault as fault:
        status, told = fault.args
        say(f"{form.prog}: {shown(told)}")
    except MemoryError:
        status = NO_MEMORY
        say(f"{form.prog}: there is no memory")
    sys.exit(status)
