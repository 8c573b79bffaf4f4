"""The steps that a program takes on its files, as shelf_steps.c sees them when it stands before the C library, and may
stop it or have them fail there.

A step is a write with its place and its bytes, a cut to a size, a sync of a file or of a folder, or bytes of what is
answered: ("W", place, bytes), ("C", size), ("S",), ("F",) and ("A", bytes).
"""
import pathlib
import subprocess

SOURCE = pathlib.Path(__file__).resolve().parent / "shelf_steps.c"


def built(folder):
    """The path of the library, which is built in the folder by the C compiler."""
    path = folder / "steps.so"
    subprocess.run(["cc", "-shared", "-fPIC", "-o", path, SOURCE, "-ldl"], check=True)
    return path


def environment(library, **wanted):
    """What the environment has to say so that a program runs behind the library, with what is wanted of it."""
    return {"LD_PRELOAD": str(library)} | {name: str(value) for name, value in wanted.items()}


def steps_in(trace):
    """The steps in a file that TRACE named. Answers that follow each other are one."""
    steps = []
    for line in trace.read_text().split("\n")[:-1]:
        step = step_of(*line.split(" "))
        if step[0] == "A" and steps and steps[-1][0] == "A":
            step = "A", steps.pop()[1] + step[1]
        steps.append(step)
    return steps


def step_of(letter, number=None, data=None):
    if letter == "W":
        return letter, int(number), bytes.fromhex(data)
    if letter == "C":
        return letter, int(number)
    return (letter, bytes.fromhex(number)) if letter == "A" else (letter,)


def joined(steps):
    """The steps, with a write that goes on where the one before ended made one with it."""
    made = []
    for step in steps:
        if step[0] == "W" and made and made[-1][0] == "W" and made[-1][1] + len(made[-1][2]) == step[1]:
            step = "W", made[-1][1], made.pop()[2] + step[2]
        made.append(step)
    return made
