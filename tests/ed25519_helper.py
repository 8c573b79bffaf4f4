"""The helpers for Ed25519 as the scripts use them: which can be had on this machine, and one that runs and is asked."""
import os
import pathlib
import shutil
import subprocess
import sys
import tempfile

from ed25519_random import signing_question, verdict_question

HELPERS = pathlib.Path(__file__).resolve().parent.parent / "helpers"
SMALLEST = b"#include <sodium.h>\nint main(void) { return sodium_init() < 0; }"


def missing():
    """What is wanting to build keri-ed25519 here, or None."""
    for tool in ("make", "cc"):
        if not shutil.which(tool):
            return f"there is no {tool}"
    with tempfile.TemporaryDirectory() as folder:
        probe = ["cc", "-x", "c", "-", "-lsodium", "-o", os.path.join(folder, "probe")]
        if subprocess.run(probe, input=SMALLEST, stderr=subprocess.DEVNULL).returncode:
            return "there is no libsodium to build with"
    return None


def build(folder, **variables):
    """Builds keri-ed25519 in the folder, with these variables of make, and answers its path."""
    given = [f"{name}={value}" for name, value in variables.items()]
    subprocess.run(["make", "-s", "-C", HELPERS / "ed25519", f"OUT={folder}", *given], check=True)
    return os.path.join(folder, "keri-ed25519")


def python_with_nacl():
    """A Python that ed25519.py can run with, or None."""
    for python in (sys.executable, "/usr/bin/python3"):
        words = [python, "-c", "import nacl.signing"]
        if shutil.which(python) and subprocess.run(words, stderr=subprocess.DEVNULL).returncode == 0:
            return python
    return None


def environment(keys=None):
    """The environment in which a helper signs with the keys of the folder, or with none."""
    without = {name: value for name, value in os.environ.items() if name != "KERI_KEYS"}
    return without | ({"KERI_KEYS": str(keys)} if keys else {})


class Helper:
    """A helper that runs until its `with` is over, and answers one question after the other."""

    def __init__(self, words, keys=None):
        self.child = subprocess.Popen([*words, "rehearse"], stdin=subprocess.PIPE, stdout=subprocess.PIPE, env=environment(keys))

    def __enter__(self):
        return self

    def __exit__(self, *_):
        self.child.stdin.close()
        self.child.stdout.close()
        self.child.wait()

    def answer(self, question, characters):
        self.child.stdin.write(question)
        self.child.stdin.flush()
        answer = self.child.stdout.read(characters)
        if len(answer) < characters:
            sys.exit(f"{self.child.args[0]} has ended, asked {question!r}")
        return answer.decode()

    def sign(self, key, text):
        """The 88 characters of the key's signature on the text."""
        return self.answer(signing_question(key.encode(), text.encode()), 88)

    def says(self, key, signature, text):
        """Whether the signature, in 88 characters, is the key's on the text."""
        return self.answer(verdict_question(key.encode(), signature.encode(), text.encode()), 1) == "Y"
