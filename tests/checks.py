"""How the tests count their checks, and show one that fails."""
import threading

MOST = 1_000  # characters that are shown of a value


def shown(value):
    text = repr(value)
    return text if len(text) <= MOST else f"{text[:MOST // 2]} .. {text[-MOST // 2:]}"


class Checks:
    """The checks of a script, whose lines begin with its title. Threads may call it at once."""

    def __init__(self, title=""):
        self.title = title and title + ": "
        self.passed = self.failed = 0
        self.lock = threading.Lock()

    def __call__(self, name, found, wanted):
        """Checks that what was found is what is wanted, and else prints a line."""
        is_wanted = found == wanted
        with self.lock:
            self.passed += is_wanted
            self.failed += not is_wanted
            if not is_wanted:
                print(f"{self.title}{name}: {shown(found)}, not {shown(wanted)}")

    def status(self):
        """The status with which the script ends: 1 where a check failed, or none passed."""
        return 1 if self.failed or not self.passed else 0

    def ended(self):
        """Prints how many checks passed and failed, and answers the status."""
        print(f"{self.title}{self.passed} passed, {self.failed} failed")
        return self.status()
