"""Witnesses that back an event, seals, and receipts that bind."""
from kit import PLAIN_ICP, key, said
from row_tables.states import PREFIX, ROT_2, ROT_3, WITNESSES, ixn, texts


def backers():
    one, two, three = WITNESSES[:3]
    yield "backers %s %s" % (",".join((one, two, one)), one), "none"
    yield "backers %s %s" % (key(1), one), "none"
    yield "backers %s %s" % (",".join((one, two)), ",".join((two, two, three, one))), "true false false true 2"
    yield "backers  %s" % one, "false 0"


def seals():
    seal = {"i": PREFIX, "s": "1f", "d": said(ROT_2)}
    others = [{"i": PREFIX, "s": "01f", "d": said(ROT_2)}, {"i": PREFIX, "s": 31, "d": said(ROT_2)}, {"s": "1f", "i": PREFIX, "d": said(ROT_2)},
              {**seal, "x": 0}, {"i": PREFIX, "s": "1" * 17, "d": said(ROT_2)}, [seal], "seal"]
    event = ixn(1, PLAIN_ICP, a=others + [seal, {**seal, "s": "1e"}])
    yield "seals %s" % texts(event), "31 %s true 30 %s true " % (said(ROT_2), said(ROT_2))
    for prefix, number, digest_, held in [(PREFIX, 31, said(ROT_2), "true"), (PREFIX, 30, said(ROT_2), "true"), (PREFIX, 29, said(ROT_2), "false"),
                                          (key(1), 31, said(ROT_2), "false"), (PREFIX, 31, said(ROT_3), "false")]:
        yield "anchors %s %d %s %s" % (prefix, number, digest_, texts(event)), held
    yield "anchors %s 31 %s %s" % (PREFIX, said(ROT_2), texts(PLAIN_ICP)), "false"


def binding():
    yield "binds 1,2,3,4 3 2,3,4,5 4 1", "5 true"
    yield "binds 1,2,3,4 3 2,3,4,5 3 1", "5 false"
    yield "binds 1,2,3,4 3 1,2,3,4 3 1", "4 true"
    yield "binds 1,2,3,4 3 1,2,3,4 3 2", "4 false"
    yield "binds 1,2,1 1 3 1 0", "3 false"
    yield "binds  0  0 0", "0 false"


def rows():
    yield "# witnesses and seals"
    yield from backers()
    yield from seals()
    yield "# how many witnesses there are, and whether so many receipts bind"
    yield from binding()
