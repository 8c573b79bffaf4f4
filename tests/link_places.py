"""Folders in which the program runs over links, and what a witness writes and stores there."""
import subprocess

from checks import Checks
from kit import signed
from link_peers import SECONDS, Served
from row_tables.shelf import NEW, parsed
from row_tables.witness import OWN, OWN_IXN, OWN_IXN_2
from witness_cases import WORDS, served

VALIDATE, WATCH, WITNESS = ["validate", "--helper", "rehearsal"], ["watch", "--helper", "rehearsal"], WORDS
DONE, REFUSED, SEEN, READ_FAULT, WRITE_FAULT, HELPER_FAULT = 0, 3, 4, 5, 6, 7
MOST = 64
MESSAGES = [signed(text, 1) for text in (OWN, OWN_IXN, OWN_IXN_2)]

check = Checks("tests/links")


class Place:
    """A folder in which the program runs over links."""

    def __init__(self, program, folder):
        self.program, self.folder = program, folder

    def serve(self, command, links, **more):
        return Served([self.program, *command], links, cwd=self.folder, **more)

    def run(self, command, links, **more):
        """What is written and the status, where no peer comes."""
        return self.serve(command, links, **more).ended()

    def run_words(self, *words):
        done = subprocess.run([self.program, *words], cwd=self.folder, stdin=subprocess.DEVNULL, stdout=subprocess.PIPE, timeout=SECONDS)
        return done.stdout.decode(), done.returncode

    def shelf(self):
        """The payloads on the shelf."""
        return parsed(NEW, (self.folder / "shelf").read_bytes())[0]


def payloads(*messages):
    """What a witness stores of messages that it accepts."""
    return parsed(NEW, served(messages)[2])[0]


def receipts(*messages):
    """The receipts of each message that is taken behind those before it."""
    whole = [served(messages[:count])[0] for count in range(len(messages) + 1)]
    return [after[len(before):] for before, after in zip(whole, whole[1:])]
