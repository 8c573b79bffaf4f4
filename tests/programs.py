"""The program that a script runs."""
import os
import pathlib
import resource
import shutil
import signal
import subprocess
import sys
import time

TOP = pathlib.Path(__file__).resolve().parent.parent
FINDER = TOP / "release" / "program"
SECONDS = 60


def program_of(word=None):
    """The program that is named, or the one that `./keri` runs; where that can't be had, the script ends."""
    if word:
        return os.path.abspath(word)
    found = subprocess.run([FINDER], stdout=subprocess.PIPE, text=True)
    if found.returncode:
        sys.exit(found.returncode)
    return found.stdout.rstrip("\n")


def wrapped(program, folder):
    """The path of the script `keri` round this program, as it would be installed in the folder, which is made."""
    shutil.copytree(TOP / "packaging", folder / "lib" / "keri")
    os.symlink(program, folder / "lib" / "keri" / "keri-x86_64-linux")
    summed = subprocess.run(["sha256sum", "keri-x86_64-linux"], cwd=folder / "lib" / "keri", stdout=subprocess.PIPE, check=True)
    (folder / "lib" / "keri" / "SHA256SUMS").write_bytes(summed.stdout)
    (folder / "bin").mkdir()
    return shutil.copy2(TOP / "keri", folder / "bin")


def interrupted(folder, script, *words):
    """How a script ends and what it writes where Ctrl-C comes while its helper, which is made in the folder, hangs.
    Where this test runs in the background SIGINT is ignored; the script is started as from a terminal all the same."""
    helper, begun = folder / "hangs", folder / "begun"
    helper.write_text(f"#!/bin/sh\ntouch '{begun}'\nexec sleep 300\n")
    helper.chmod(0o755)
    child = subprocess.Popen([script, "--helper", helper, *words], stdin=subprocess.DEVNULL, stdout=subprocess.PIPE,
                             stderr=subprocess.PIPE, start_new_session=True,
                             preexec_fn=lambda: signal.signal(signal.SIGINT, signal.SIG_DFL))
    until = time.monotonic() + SECONDS
    while not begun.exists() and child.poll() is None and time.monotonic() < until:
        time.sleep(0.01)
    if child.poll() is None:
        os.killpg(child.pid, signal.SIGINT)
    try:
        out, error = child.communicate(timeout=SECONDS)
    except subprocess.TimeoutExpired:
        os.killpg(child.pid, signal.SIGKILL)
        return "it ran on", *child.communicate()
    return child.returncode, out, error


def cut_short(folder, *words, most=100):
    """How a script ends where its output takes so many bytes alone, and how many are there then: with Python's buffer
    and without, and where it is closed."""
    found = []
    for unbuffered in "", "1":
        with open(folder / "cut", "wb") as file:
            done = subprocess.run(words, stdin=subprocess.DEVNULL, stdout=file, stderr=subprocess.DEVNULL,
                                  env=dict(os.environ, PYTHONUNBUFFERED=unbuffered), timeout=SECONDS,
                                  preexec_fn=lambda: resource.setrlimit(resource.RLIMIT_FSIZE, (most, most)))
        found.append((done.returncode, (folder / "cut").stat().st_size))
    return [*found, without(words, 1)[0]]


def without(words, *streams):
    """How a script ends where these standard streams are closed, and what it writes to the others."""
    def close():
        for stream in streams:
            os.close(stream)

    done = subprocess.run(words, stdin=subprocess.DEVNULL, stdout=subprocess.PIPE, stderr=subprocess.PIPE,
                          preexec_fn=close, timeout=SECONDS)
    return done.returncode, done.stdout.decode(), done.stderr.decode()
