"""Runs of the program with helpers. Of each helper the frame stands here; a test says what it does."""
import os
import pathlib
import subprocess
import sys

from checks import Checks

SAMPLES = pathlib.Path(__file__).resolve().parent.parent / "samples"
SECONDS = 60

LOG = SAMPLES / "validated.cesr"
LIFE = SAMPLES / "life"
ROTATE = ["--plan", LIFE / "rotate.plan", "--log", LIFE / "rotate.cesr"]

# A helper, but for what it does. It notes that it was started, with which words, and that it ends; it also ends where
# nobody reads its output any more.
HELPER = '''#!%s -IS
import base64, hashlib, os, select, sys, time


def note(text):
    with open(os.environ["NOTES"], "a") as notes:
        notes.write(text + "\\n")


def take(length):
    taken = b""
    while len(taken) < length and (piece := os.read(0, length - len(taken))):
        taken += piece
    return taken


def questions():
    while letter := take(1):
        key = take(44)
        signature = take(88) if letter == b"V" else b""
        yield letter, key, signature, take(int(take(8), 16))


def rehearsal(letter, key, signature, body):
    raw = hashlib.sha512(b"keri rehearsal" + key + body).digest()
    good = b"0B" + base64.urlsafe_b64encode(bytes(2) + raw)[2:]
    return good if letter == b"S" else b"Y" if signature == good else b"N"


def wait_for(stream, event):
    poll = select.poll()
    poll.register(stream, event)
    while not any(found & event for _, found in poll.poll()):
        pass


def main():
%s

note("started " + " ".join(sys.argv[1:]))
try:
    main()
except BrokenPipeError:
    pass
finally:
    note("ended")
'''

GOOD = '''
    for question in questions():
        os.write(1, rehearsal(*question))
'''

check = Checks("helpers")


class Runs:
    """Runs of the program, with helpers that lie in a folder."""

    def __init__(self, program, folder):
        self.program, self.folder = program, folder
        self.notes, self.out, self.error = folder / "notes", folder / "out", folder / "error"

    def helper(self, does, name="helper"):
        path = self.folder / name
        path.write_text(HELPER % (sys.executable, does))
        path.chmod(0o755)
        return path

    def run(self, *words, **more):
        """The status, what was written, and what was written to standard error. These are files: with pipes one would
        wait for helpers too, which have the same standard error."""
        self.notes.unlink(missing_ok=True)
        more.setdefault("stdin", subprocess.DEVNULL)
        more["env"] = os.environ | {"NOTES": str(self.notes)} | more.get("env", {})
        try:
            with open(self.out, "wb") as out, open(self.error, "wb") as error:
                done = subprocess.run([self.program, *map(str, words)], stdout=out, stderr=error, timeout=SECONDS, **more)
        except subprocess.TimeoutExpired:
            return "still running", "", ""
        check(f"{words}: helpers that have ended", self.noted().count("ended"), len(self.started()))
        return done.returncode, self.out.read_text(), self.error.read_text()

    def noted(self):
        return self.notes.read_text().splitlines() if self.notes.exists() else []

    def started(self):
        return [line for line in self.noted() if line.startswith("started")]

    def validate(self, does, file=LOG, **more):
        return self.run("validate", "--helper", self.helper(does), file, **more)

    def make(self, does, *words):
        return self.run("make", "--helper", self.helper(does), *(words or ROTATE))
