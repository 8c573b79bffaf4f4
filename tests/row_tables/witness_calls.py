"""The calls of one witness, as rows with their answers by the reference of a witness, over disks in memory as
`shelf.py` models them."""
from kit import key
from row_tables.shelf import NEW, Disk, Fault, sized, spelled
from row_tables.shelf import Session as ShelfSession
from witness_reference import Helper, Witness, resumed

STANDARD = {"messages": 1048576, "body_bytes": 536870912, "signatures": 2097152, "records": 1048576, "shelf_bytes": 1073741824}
WITNESS = key(1, "B")


def words(numbers):
    return ",".join(map(str, numbers))


class Session:
    """The calls of one witness after another. Each adds its row."""

    def __init__(self, own=WITNESS, **limits):
        self.rows, self.key, self.limits, self.shelf = [], own, {**STANDARD, **limits}, ShelfSession()
        self.witness = None
        self.row(" ".join(["limits", *("%s %d" % limit for limit in limits.items())]), "Ok")
        self.row("key " + own, "Ok")
        self.verifier()
        self.signer()

    def row(self, call, answer):
        self.rows.append((call, answer))
        return self

    def lowered(self, **limits):
        """These limits from here on."""
        self.limits = {**STANDARD, **limits}
        return self.row(" ".join(["limits", *("%s %d" % limit for limit in limits.items())]), "Ok")

    def verifier(self, rule="rehearsal", failing=()):
        self.asks = Helper(rule, failing)
        return self.row("verifier %s %s" % (rule, words(failing)), "Ok")

    def signer(self, failing=()):
        self.signs = Helper(failing=failing)
        return self.row("signer " + words(failing), "Ok")

    # Disks and starts.

    def shelf_limits(self):
        return self.limits["records"], self.limits["shelf_bytes"]

    def opened(self, call, work):
        """A witness is at hand where the work gives a list of payloads."""
        self.witness = None
        try:
            payloads = work()
        except Fault as fault:
            return self.row(call, str(fault))
        core, place = resumed(payloads)
        if core is None:
            return self.row(call, "NotALog(%d)" % place)
        self.shelf.opened(payloads, self.shelf_limits())
        self.witness = Witness(self.key, core, self.shelf, self.limits)
        return self.row(call, "Ok")

    def create(self, failing=()):
        self.shelf.disk = Disk(b"", failing)

        def made():
            self.shelf.disk.call("write", 0, NEW + b"\0")
            self.shelf.disk.call("sync")
            return []
        return self.opened("create " + words(failing), made)

    def put_in(self, data, failing=()):
        self.shelf.disk, self.witness = Disk(data, failing), None
        return self.row("disk %s %s" % (words(failing), spelled(data)), "Ok")

    def start(self, answer=None):
        """With the answer, where that is said by hand."""
        self.opened("start", lambda: self.shelf.read(NEW, self.shelf_limits()))
        assert answer in (None, self.rows[-1][1]), self.rows[-1]
        return self

    # Calls of the witness.

    def take(self, text, answer=None):
        """The message, and how the answer begins where that is said by hand."""
        return self.row("take " + spelled(text.encode()), self.answer(text, answer))

    def answer(self, text, answer):
        """The fate of the message, and of each receipt the digest of its event, its size and its bytes."""
        fate, made = self.witness.take(text, self.asks, self.signs) if self.witness else ("no-witness", [])
        assert answer in (None, fate), (answer, fate)
        return fate + "".join(" %s %d %s" % (event, len(receipt), spelled(receipt.encode())) for event, receipt in made)

    def take_many(self, text, count, sig, answer):
        """The message with so many of a signature behind it."""
        return self.row("take %s&%d*%s" % (spelled(text.encode()), count, sig), self.answer(text + count * sig, answer))

    def takes(self, *texts):
        for text in texts:
            self.take(text)
        return self

    def stored(self):
        return self.row("stored", sized("stored", self.shelf.list))

    def journal(self):
        core = self.witness.core
        bodies = sized("bodies", [event.text.encode() for event in core.bodies])
        return self.row("journal", bodies + "".join(", " + entry for entry in self.witness.entries))

    def told(self):
        return self.stored().journal()

    # What is left of it.

    def file(self):
        """The witness is let go, and its file is told."""
        self.witness = None
        return self.row("file", sized("file", [self.shelf.disk.data]))

    def image_words(self, image):
        """What a witness stores that starts from the image."""
        if not image:
            return "empty"
        left = ShelfSession()
        left.disk = Disk(image)
        try:
            payloads = left.read(NEW, self.shelf_limits())
        except Fault as fault:
            return str(fault)
        core, place = resumed(payloads)
        return sized("stored", payloads) if core else "NotALog(%d)" % place

    def images(self):
        moments = range(len(self.shelf.disk.calls) + 1)
        images = [[self.image_words(self.shelf.disk.image(moment, shape)) for shape in ("whole", "lost", "ones")] for moment in moments]
        return self.row("images", "images" + "".join("".join(", " + image for image in three) + ";" for three in images))
