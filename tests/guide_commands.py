"""The commands of docs/GUIDE.md and README.md, with what each has to write, and how they are run.

Commands stand in the blocks that begin with ```console, behind which may stand the word for those that are run apart. A
line that begins with `$ ` is a command, and lines right behind it that begin with `> ` go on with it. The lines up to
the next command or the block's end are all that it writes. All commands with one word run in one shell.
"""
import os
import pathlib
import re
import signal
import subprocess
import sys

TOP = pathlib.Path(__file__).resolve().parent.parent
GUIDE, README = TOP / "docs" / "GUIDE.md", TOP / "README.md"
SECONDS = 300
# Behind each command a byte 0 is written, and the command's status is kept for the next one.
END = "{ status=$?; printf '\\000'; (exit $status); }\n"


class Command:
    """A command, what it has to write, and the line at which its block begins."""

    def __init__(self, text, block):
        self.text, self.block, self.wanted, self.is_open = text, block, "", True

    def take(self, line):
        """Takes a further line: it goes on with the command, or is written by it."""
        self.is_open &= line.startswith("> ")
        if self.is_open:
            self.text += "\n" + line[2:]
        else:
            self.wanted += line + "\n"


def commands(word="", page=GUIDE):
    """The commands of the page's blocks with this word."""
    found, guide = [], page.read_text()
    opened = ("```console " + word).rstrip()
    for match in re.finditer("^%s\n(.*?)^```$" % opened, guide, re.MULTILINE | re.DOTALL):
        block = guide.count("\n", 0, match.start()) + 1
        for number, line in enumerate(match[1].splitlines()):
            if line.startswith("$ "):
                found.append(Command(line[2:], block))
            elif number == 0:
                sys.exit("the guide: the block at line %d doesn't begin with a command" % block)
            else:
                found[-1].take(line)
    return found


class Names:
    """Which keys, digests and signatures stand for those of the guide: each for one of them, the same everywhere."""

    FORM = re.compile("[A-Za-z0-9_-]{44,}")

    def __init__(self):
        self.found, self.of = {}, {}

    def is_same(self, wanted, text):
        """Whether the text is the wanted one but for such names."""
        pairs = list(zip(self.FORM.findall(wanted), self.FORM.findall(text)))
        for old, new in pairs:
            if self.found.setdefault(old, new) != new or self.of.setdefault(new, old) != old:
                return False
        shape = lambda name: name[0][:1] + str(len(name[0]))
        return self.FORM.sub(shape, wanted) == self.FORM.sub(shape, text)


def first_other(found, folder, is_wanted=str.__eq__):
    """Runs the commands in the folder. Answers the first that writes something else, with what that is, or None. What
    is wanted, and what is written, is compared by the function."""
    script = "".join(command.text + "\n" + END for command in found)
    child = subprocess.Popen(["sh", "-c", script], cwd=folder, stdin=subprocess.DEVNULL, stdout=subprocess.PIPE, stderr=subprocess.STDOUT,
                             start_new_session=True)
    lacking = "nothing, since the shell has ended"
    try:
        written, _ = child.communicate(timeout=SECONDS)
    except BaseException as fault:
        os.killpg(child.pid, signal.SIGKILL)  # with what the shell has started
        if not isinstance(fault, subprocess.TimeoutExpired):
            raise
        written, _ = child.communicate()
        lacking = "no end within %d seconds" % SECONDS
    texts = written.decode(errors="replace").split("\0")
    for number, command in enumerate(found):
        text = texts[number] if number < len(texts) - 1 else lacking
        if not is_wanted(command.wanted, text):
            return "the guide: in the block at line %d, `%s` writes\n%s" % (command.block, command.text, text)
    return None
