"""What crates/run_report is given, and what it must write: the trustee's table report at its borders.

    python3 tools/reference/report.py          writes crates/run_report/stdin and stdout
    python3 tools/reference/report.py --list   prints each question's number, answer and name instead

Input, little-endian: u16 images; each: u32 length, its bytes, u16 questions; a question is u8 class and
u16 bytes lent. Output, for each question: a line with the image's number and the question's, and the
count of rows or the refusal; then every lent byte in hexadecimal, 24 to a line, what is left of them on
a line of its own, which may be empty. Before the call they hold a5.

The rows are worked out here from document 02, by cells: the line is cut at every end of the records that
are looked at, and a record covers a cell between two neighbouring cuts or it does not. Two records share
the cells that both cover; a gap is cells of a segment, side by side, that no privilege of the class
covers. Every case carries its answer by hand as well, and the generator stops where the two differ.
"""
import os
import struct
import sys

sys.dont_write_bytecode = True

import reference
from build import general, image, record
from practice import PRACTICE

HERE = os.path.dirname(os.path.abspath(__file__))

# "a byte 0 bands, 1 segments, 3 privileges or 255 gap"
BANDS, SEGMENTS, PRIVILEGES, GAP = 0, 1, 3, 255
ROW = 24
FILL = 0xA5
ROOM = 2048                                       # the program lends so many bytes at most


# ---------------------------------------------------------------------------------------------
# The report, from document 02

def cells(records):
    """The stretches between neighbouring ends of the records, from the lowest up."""
    ends = sorted({end for r in records for end in (reference.low(r), reference.high(r))})
    return list(zip(ends, ends[1:]))


def covers(r, cell):
    return reference.low(r) <= cell[0] and cell[1] <= reference.high(r)


def joined(stretches):
    """Stretches from the lowest up, those that touch taken together: "as long as it can be"."""
    out = []
    for low, high in stretches:
        if out and out[-1][1] == low:
            out[-1] = (out[-1][0], high)
        else:
            out.append((low, high))
    return out


def shared(one, other):
    """What two records share: stretches of positive length, none or one of them."""
    return joined([c for c in cells([one, other]) if covers(one, c) and covers(other, c)])


def gaps(segment, privileges):
    """"every stretch of a data segment that no privilege of a chosen class covers"."""
    return joined([c for c in cells([segment] + privileges) if covers(segment, c)
                   and not any(covers(p, c) for p in privileges)])


def rows_of(data, cls):
    """(kind, class, first index, second index, low, high) of every row, in their order.

    "list every pair of bands, of data segments, or of privileges of one class that shares a positive
    stretch [...] Rows come by table, then by first and second index, the first the smaller; gaps follow
    by segment, lowest first." Pairs of privileges are those of every class; "the class byte (0 where
    none)" of a gap is the chosen class (docs/DECISIONS.md)."""
    tables = reference.table_records(data)
    rows = []
    for kind in (BANDS, SEGMENTS, PRIVILEGES):
        records = tables[kind]
        for i, one in enumerate(records):
            for j in range(i + 1, len(records)):
                of = reference.class_byte(one) if kind == PRIVILEGES else 0
                if kind == PRIVILEGES and reference.class_byte(records[j]) != of:
                    continue
                rows += [(kind, of, i, j, low, high) for low, high in shared(one, records[j])]
    held = [p for p in tables[PRIVILEGES] if reference.class_byte(p) == cls]
    for i, segment in enumerate(tables[SEGMENTS]):
        rows += [(GAP, cls, i, i, low, high) for low, high in gaps(segment, held)]
    return rows


def bytes_of(row):
    """"A row is 24 bytes: low and high of the stretch (f64), a byte 0 bands, 1 segments, 3 privileges or
    255 gap, the class byte (0 where none), u16 first and second index (a gap gives its segment twice),
    two zero bytes." """
    kind, cls, first, second, low, high = row
    return struct.pack("<ddBBHHBB", low, high, kind, cls, first, second, 0, 0)


def answer(data, cls, lent):
    """The refusal and the rows: 20 ("A chosen class above 4"), 1 to 14, 25 ("when the rows lent are too
    few")."""
    if cls > 4:
        return 20, []
    refusal = reference.check_image(data)
    if refusal:
        return refusal, []
    rows = rows_of(data, cls)
    if lent // ROW < len(rows):
        return 25, []
    return 0, rows


# ---------------------------------------------------------------------------------------------
# Cases

IMAGES = []                                       # [bytes, [(name, class, lent, refusal, rows)]]


def on(data):
    """The questions that follow are asked of this image."""
    IMAGES.append((data, []))


def ask(name, cls, lent, refusal, rows):
    """`refusal` and `rows` are the answer by hand."""
    data, questions = IMAGES[-1]
    found = answer(data, cls, lent)
    rows = [tuple(row) for row in rows]
    if found != (refusal, rows):
        raise SystemExit("%s: by hand %s, reference %s" % (name, (refusal, rows), found))
    assert lent <= ROOM, name
    questions.append((name, cls, lent, refusal, rows))


def lists(name, cls, rows):
    """The report has these rows, and is given room for one more and a byte."""
    ask(name, cls, ROW * (len(rows) + 1) + 1, 0, rows)


def refuses(name, cls, refusal, lent=48):
    ask(name, cls, lent, refusal, [])


def table(bands=((0, 100),), segments=((20, 80),), privileges=((0, 100, 4),), **others):
    """An image of ranges: bands and segments (low, high, number; 1 if none is given), privileges (low,
    high, class)."""
    def ranged(low, high, band=1):
        return record(float(low), float(high), band=band)
    return image(bands=[ranged(*b) for b in bands], segments=[ranged(*s) for s in segments],
                 privileges=[record(float(low), float(high), cls=c) for low, high, c in privileges],
                 **others)


def up(x):
    """The next double above."""
    return struct.unpack("<d", struct.pack("<Q", struct.unpack("<Q", struct.pack("<d", x))[0] + 1))[0]


def practice_table():
    """General 14,025,000-14,150,000 and 5,330,000-5,407,000; segments 14,000,000-14,150,000 and
    5,351,500-5,366,500; nobody else has a privilege."""
    on(PRACTICE)
    lists("practice, General", 2, [(GAP, 2, 0, 0, 14000000.0, 14025000.0)])
    for cls in (0, 1, 3, 4):
        lists("practice, class %d" % cls, cls, [(GAP, cls, 0, 0, 14000000.0, 14150000.0),
                                                (GAP, cls, 1, 1, 5351500.0, 5366500.0)])
    for cls in (5, 6, 127, 128, 254, 255):
        refuses("practice, class %d" % cls, cls, 20)
    refuses("practice, class 5, none lent", 5, 20, lent=0)


def pairs_of(kind):
    """What ranges of one table share; beside them stand a band, a segment and a privilege, so that the
    image is accepted and leaves no gap."""
    name = {BANDS: "bands", SEGMENTS: "segments", PRIVILEGES: "privileges"}[kind]
    cls = 4 if kind == PRIVILEGES else 0

    def of(*ranges):
        if kind == BANDS:
            on(table(bands=ranges + ((1000, 1100),), segments=((1020, 1080),),
                     privileges=((1000, 1100, 4),)))
        elif kind == SEGMENTS:
            on(table(bands=((-1000, 1100),), segments=ranges, privileges=((-1000, 1100, 4),)))
        else:
            on(table(bands=((-1000, 1100),), segments=((1020, 1080),),
                     privileges=tuple(r + (4,) for r in ranges) + ((1000, 1100, 4),)))

    def listed(what, *rows):
        lists("%s: %s" % (name, what), 4, [(kind, cls, i, j, float(low), float(high))
                                           for i, j, low, high in rows])

    of((0, 50), (60, 100))
    listed("apart")
    of((0, 50), (50, 100))
    listed("touching, the lower first")
    of((50, 100), (0, 50))
    listed("touching, the upper first")
    of((0, up(50.0)), (50, 100))
    listed("one double more", (0, 1, 50, up(50.0)))
    of((50, 100), (0, up(50.0)))
    listed("one double more, the upper first", (0, 1, 50, up(50.0)))
    of((0, 60), (40, 100))
    listed("crossing", (0, 1, 40, 60))
    of((40, 100), (0, 60))
    listed("crossing, the upper first", (0, 1, 40, 60))
    of((0, 100), (0, 100))
    listed("alike", (0, 1, 0, 100))
    of((0, 100), (40, 60))
    listed("the second inside", (0, 1, 40, 60))
    of((40, 60), (0, 100))
    listed("the first inside", (0, 1, 40, 60))
    of((0, 60), (0, 100))
    listed("one low end", (0, 1, 0, 60))
    of((40, 100), (0, 100))
    listed("one high end", (0, 1, 40, 100))
    of((0, 50), (50, 100), (25, 75))
    listed("a third over the point where two touch", (0, 2, 25, 50), (1, 2, 50, 75))
    of((0, 100), (0, 100), (0, 100))
    listed("three alike", (0, 1, 0, 100), (0, 2, 0, 100), (1, 2, 0, 100))
    of((0, 30), (100, 130), (200, 230), (20, 110), (210, 220))
    listed("five", (0, 3, 20, 30), (1, 3, 100, 110), (2, 4, 210, 220))
    of((-100, 0), (-50, 50), (0, 100))
    listed("below and above 0", (0, 1, -50, 0), (1, 2, 0, 50))


def about_zero():
    on(table(bands=((-2 ** 40, 2 ** 40),), segments=((-100, 0), (-50, 50)),
             privileges=((-2 ** 40, 2 ** 40, 4), (-2 ** 40, -100, 3), (0, 2 ** 40, 3))))
    lists("ends at 0 and at 2^40", 4, [(SEGMENTS, 0, 0, 1, -50.0, 0.0)])
    lists("gaps that end at 0", 3, [(SEGMENTS, 0, 0, 1, -50.0, 0.0), (GAP, 3, 0, 0, -100.0, 0.0),
                                    (GAP, 3, 1, 1, -50.0, 0.0)])
    lists("whole segments about 0", 0, [(SEGMENTS, 0, 0, 1, -50.0, 0.0), (GAP, 0, 0, 0, -100.0, 0.0),
                                        (GAP, 0, 1, 1, -50.0, 50.0)])
    least = up(0.0)
    on(table(bands=((-1, 1),), segments=((0, 1),), privileges=((least, 1, 4), (0, 1, 3))))
    lists("a gap of the least double", 4, [(GAP, 4, 0, 0, 0.0, least)])
    lists("none of another class", 3, [])


def classes():
    """"of privileges of one class"; "Indices are those of the whole table, classes mixed"."""
    on(table(privileges=((0, 100, 4), (0, 100, 3))))
    for cls in (0, 1, 2):
        lists("two classes alike, asked for %d" % cls, cls, [(GAP, cls, 0, 0, 20.0, 80.0)])
    for cls in (3, 4):
        lists("two classes alike, asked for %d" % cls, cls, [])
    on(table(privileges=((0, 100, 4), (10, 90, 2), (5, 60, 4), (50, 95, 2))))
    alternate = [(PRIVILEGES, 4, 0, 2, 5.0, 60.0), (PRIVILEGES, 2, 1, 3, 50.0, 90.0)]
    lists("two classes in turn, for one", 4, alternate)
    lists("two classes in turn, for the other", 2, alternate)
    lists("two classes in turn, for neither", 0, alternate + [(GAP, 0, 0, 0, 20.0, 80.0)])
    on(table(privileges=((0, 100, 2), (0, 40, 4), (30, 100, 4), (60, 70, 2), (0, 100, 4))))
    lists("one pair around another", 4, [(PRIVILEGES, 2, 0, 3, 60.0, 70.0),
                                         (PRIVILEGES, 4, 1, 2, 30.0, 40.0),
                                         (PRIVILEGES, 4, 1, 4, 0.0, 40.0),
                                         (PRIVILEGES, 4, 2, 4, 30.0, 100.0)])
    on(table(privileges=tuple((10 * c, 50 + 10 * c, c) for c in range(5)) +
             tuple((40 + 10 * c, 100, c) for c in range(5))))
    five = [(PRIVILEGES, c, c, 5 + c, 40.0 + 10.0 * c, 50.0 + 10.0 * c) for c in range(5)]
    lists("a pair of every class, Novice", 0, five)
    lists("a pair of every class, Technician", 1, five)
    lists("a pair of every class, General", 2, five)
    lists("a pair of every class, Advanced", 3, five + [(GAP, 3, 0, 0, 20.0, 30.0)])
    lists("a pair of every class, Extra", 4, five + [(GAP, 4, 0, 0, 20.0, 40.0)])


def gap_places():
    """The segment is 20 to 80."""
    def leaves(name, privileges, *stretches, pairs=()):
        on(table(privileges=tuple(p + (2,) for p in privileges)))
        rows = [(PRIVILEGES, 2, i, j, float(low), float(high)) for i, j, low, high in pairs]
        gaps = [(GAP, 2, 0, 0, float(low), float(high)) for low, high in stretches]
        lists("gaps: " + name, 2, rows + gaps)

    leaves("no privilege", (), (20, 80))
    leaves("the whole band", ((0, 100),))
    leaves("the segment itself", ((20, 80),))
    leaves("at the lower end", ((40, 80),), (20, 40))
    leaves("at the upper end", ((20, 60),), (60, 80))
    leaves("at both ends", ((40, 60),), (20, 40), (60, 80))
    leaves("at both ends, by a double", ((up(20.0), 79.5),), (20, up(20.0)), (79.5, 80))
    leaves("in the middle", ((0, 40), (60, 100)), (40, 60))
    leaves("in the middle, the upper first", ((60, 100), (0, 40)), (40, 60))
    leaves("in the middle, by a double", ((0, 50), (up(50.0), 100)), (50, up(50.0)))
    leaves("three", ((30, 40), (60, 70)), (20, 30), (40, 60), (70, 80))
    leaves("three, the upper first", ((60, 70), (30, 40)), (20, 30), (40, 60), (70, 80))
    leaves("touching privileges", ((0, 50), (50, 100)))
    leaves("touching privileges, the upper first", ((50, 100), (0, 50)))
    leaves("three that touch, in no order", ((60, 100), (0, 40), (40, 60)))
    leaves("below the segment", ((0, 10),), (20, 80))
    leaves("up to the segment", ((0, 20),), (20, 80))
    leaves("from the segment on", ((80, 100),), (20, 80))
    leaves("on both sides of it", ((0, 20), (80, 100)), (20, 80))
    leaves("one inside the other, the inner first", ((45, 55), (30, 70)), (20, 30), (70, 80),
           pairs=((0, 1, 45, 55),))
    leaves("one inside the other, the outer first", ((30, 70), (45, 55)), (20, 30), (70, 80),
           pairs=((0, 1, 45, 55),))
    leaves("crossing, in bad order", ((50, 70), (30, 60)), (20, 30), (70, 80), pairs=((0, 1, 50, 60),))
    leaves("alike", ((30, 70), (30, 70)), (20, 30), (70, 80), pairs=((0, 1, 30, 70),))
    leaves("two over a third that alone would leave a gap", ((20, 40), (60, 80), (30, 70)),
           pairs=((0, 2, 30, 40), (1, 2, 60, 70)))
    leaves("one high end, in bad order", ((60, 80), (40, 80), (20, 30)), (30, 40),
           pairs=((0, 1, 60, 80),))
    leaves("one low end, in bad order", ((20, 30), (20, 50), (70, 80)), (50, 70),
           pairs=((0, 1, 20, 30),))

    on(table(privileges=((0, 40, 2), (30, 70, 4), (60, 100, 2))))
    lists("gaps: another class lies in it", 2, [(GAP, 2, 0, 0, 40.0, 60.0)])
    lists("gaps: of that other class", 4, [(GAP, 4, 0, 0, 20.0, 30.0), (GAP, 4, 0, 0, 70.0, 80.0)])
    # "A privilege covers whatever emissions it lists."
    listed = record(0.0, 100.0, cls=2, emissions=0, flags=1)
    on(image(bands=[record(0.0, 100.0, band=1)], segments=[record(20.0, 80.0, band=1)],
             privileges=[listed]))
    lists("gaps: a privilege that lists no emission covers", 2, [])


def several_segments():
    on(table(segments=((20, 60), (40, 80)), privileges=((0, 45, 2), (55, 100, 2))))
    lists("two segments share a gap", 2, [(SEGMENTS, 0, 0, 1, 40.0, 60.0), (GAP, 2, 0, 0, 45.0, 55.0),
                                          (GAP, 2, 1, 1, 45.0, 55.0)])
    on(table(segments=((20, 50), (50, 80)), privileges=((0, 40, 2), (60, 100, 2))))
    lists("a gap over the point where two segments touch", 2, [(GAP, 2, 0, 0, 40.0, 50.0),
                                                                (GAP, 2, 1, 1, 50.0, 60.0)])
    on(table(segments=((60, 80), (20, 40)), privileges=((25, 30, 2), (65, 70, 2))))
    lists("gaps by segment, not by frequency", 2, [(GAP, 2, 0, 0, 60.0, 65.0), (GAP, 2, 0, 0, 70.0, 80.0),
                                                   (GAP, 2, 1, 1, 20.0, 25.0), (GAP, 2, 1, 1, 30.0, 40.0)])
    on(table(segments=((20, 80), (20, 80), (30, 40)), privileges=((0, 100, 0),)))
    alike = [(SEGMENTS, 0, 0, 1, 20.0, 80.0), (SEGMENTS, 0, 0, 2, 30.0, 40.0),
             (SEGMENTS, 0, 1, 2, 30.0, 40.0)]
    lists("three segments, none with a gap", 0, alike)
    lists("three segments, each a gap", 1, alike + [(GAP, 1, 0, 0, 20.0, 80.0), (GAP, 1, 1, 1, 20.0, 80.0),
                                                    (GAP, 1, 2, 2, 30.0, 40.0)])
    # a segment of another band's number: the band test is not the report's
    on(table(bands=((0, 100, 1), (100, 200, 2)), segments=((20, 80, 2), (120, 180, 1)),
             privileges=((0, 200, 4),)))
    lists("segments in bands of another number", 4, [])


def all_at_once():
    others = dict(automatic=[record(0.0, 50.0), record(0.0, 50.0)],
                  power=[record(0.0, 50.0, figure=5.0), record(0.0, 50.0, figure=5.0)],
                  excluded=[record(band=1), record(band=1)])
    on(image(general(flags=16), bands=[record(0.0, 100.0, band=1), record(90.0, 120.0, band=2)],
             segments=[record(20.0, 80.0, band=1), record(70.0, 95.0, band=1)],
             privileges=[record(0.0, 75.0, cls=1), record(0.0, 30.0, cls=3), record(60.0, 80.0, cls=1),
                         record(25.0, 30.0, cls=3)],
             plan_data=[record(0.0, 50.0), record(0.0, 50.0)],
             plan_avoid=[record(0.0, 50.0), record(0.0, 50.0)], **others))
    pairs = [(BANDS, 0, 0, 1, 90.0, 100.0), (SEGMENTS, 0, 0, 1, 70.0, 80.0),
             (PRIVILEGES, 1, 0, 2, 60.0, 75.0), (PRIVILEGES, 3, 1, 3, 25.0, 30.0)]
    rows = pairs + [(GAP, 1, 1, 1, 80.0, 95.0)]
    lists("every kind, and tables that are not looked at", 1, rows)
    lists("every kind, for Advanced", 3, pairs + [(GAP, 3, 0, 0, 30.0, 80.0), (GAP, 3, 1, 1, 70.0, 95.0)])
    lists("every kind, for Novice", 0, pairs + [(GAP, 0, 0, 0, 20.0, 80.0), (GAP, 0, 1, 1, 70.0, 95.0)])
    # the bytes lent, about the five rows
    size = ROW * len(rows)
    for lent in (size, size + 1, size + 23, size + 24, size + 25, size + 120):
        ask("five rows, %d bytes lent" % lent, 1, lent, 0, rows)
    for lent in (0, 1, 23, 24, 25, size - 24, size - 23, size - 1):
        refuses("five rows, %d bytes lent" % lent, 1, 25, lent)
    refuses("five rows, too few lent, class 5", 5, 20, 0)


def no_rows():
    on(table())
    for lent in (0, 1, 23, 24, 25, 100):
        ask("no row, %d bytes lent" % lent, 4, lent, 0, [])
    refuses("one row, none lent", 3, 25, 0)
    refuses("one row, 23 bytes lent", 3, 25, 23)
    ask("one row, 24 bytes lent", 3, 24, 0, [(GAP, 3, 0, 0, 20.0, 80.0)])
    # only what must be there
    on(image(bands=[record(-1.0, 1.0)], segments=[record(-1.0, 1.0)]))
    lists("the smallest accepted image", 0, [(GAP, 0, 0, 0, -1.0, 1.0)])


def refusals():
    """Each refusal of the image, with a class that is one and beside one that is none; what the tables
    would give is never written."""
    band, segment = record(0.0, 100.0, band=1), record(20.0, 80.0, band=1)
    wrong = record(80.0, 20.0)
    right = image(bands=[band], segments=[segment])
    end = len(right) - 28

    def spoilt(at, *new):
        data = bytearray(right)
        data[at:at + len(new)] = bytes(new)
        return bytes(data)

    images = [
        (1, "no bytes", b""),
        (1, "91 bytes", right[:91]),
        (2, "letters", spoilt(end + 24, ord("F"))),
        (3, "edition", image(bands=[band], segments=[segment], edition=3)),
        (4, "distance", spoilt(end + 18, 127)),
        (5, "reading 3", spoilt(41, 3)),
        (6, "a NaN", image(bands=[band, record(0x7FF8000000000000, 1.0)], segments=[segment])),
        (7, "a band", image(bands=[band, wrong, wrong], segments=[segment])),
        (8, "a segment", image(bands=[band], segments=[segment, wrong])),
        (9, "an automatic segment", image(bands=[band], segments=[segment], automatic=[wrong])),
        (10, "a privilege", image(bands=[band], segments=[segment], privileges=[wrong])),
        (11, "no segments", image(bands=[band])),
        (12, "a segment in no band", image(bands=[band], segments=[segment, record(90.0, 101.0)])),
        (13, "own limit", image(bands=[band], segments=[record(20.0, 80.0, band=1, flags=1)])),
        (14, "general limit", image(general(data=0.0), bands=[band], segments=[segment])),
    ]
    for number, name, data in images:
        on(data)
        refuses("refusal %d, %s" % (number, name), 4, number)
        refuses("refusal %d, %s, none lent" % (number, name), 4, number, lent=0)
        refuses("refusal %d, %s, class 5" % (number, name), 5, 20)
    refuses("refusal 14, class 255, none lent", 255, 20, lent=0)


def some_tens():
    """11 alike bands are 55 pairs, and each of some segments without a privilege is a gap: 63 to 66 rows."""
    for n in range(8, 12):
        ranges = tuple((10 * i, 10 * i + 10) for i in range(n))
        on(table(bands=((0, 120),) * 11, segments=ranges, privileges=()))
        rows = [(BANDS, 0, i, j, 0.0, 120.0) for i in range(11) for j in range(i + 1, 11)]
        rows += [(GAP, 1, i, i, 10.0 * i, 10.0 * i + 10.0) for i in range(n)]
        ask("%d rows, just enough lent" % len(rows), 1, ROW * len(rows), 0, rows)
        ask("%d rows, some more lent" % len(rows), 1, ROW * len(rows) + 40, 0, rows)
        refuses("%d rows, a byte too few lent" % len(rows), 1, 25, lent=ROW * len(rows) - 1)


def many():
    """Tables of 256 records: the last pair of each, and more rows than 16 bits count."""
    def steps(last):
        return tuple((10 * i, 10 * i + 10) for i in range(255)) + (last,)
    on(table(bands=steps((2545, 2560)), segments=steps((2546, 2560)),
             privileges=tuple(r + (4,) for r in steps((2547, 2558)))))
    lists("the last pair of 256, and the last segment's gap", 4,
          [(BANDS, 0, 254, 255, 2545.0, 2550.0), (SEGMENTS, 0, 254, 255, 2546.0, 2550.0),
           (PRIVILEGES, 4, 254, 255, 2547.0, 2550.0), (GAP, 4, 255, 255, 2558.0, 2560.0)])
    refuses("256 segments without a privilege, 42 rows lent", 3, 25, lent=24 * 42)
    # 2 times 32,640 pairs, and 256 whole segments: 65,536 rows
    on(table(bands=((0, 100),) * 256, segments=((20, 80),) * 256, privileges=()))
    refuses("65,536 rows, none lent", 0, 25, lent=0)
    refuses("65,536 rows, none lent, class 5", 5, 20, lent=0)


# ---------------------------------------------------------------------------------------------

def told(place, lent, refusal, rows):
    out = b"".join(bytes_of(row) for row in rows)
    out += bytes([FILL]) * (lent - len(out))
    line = "%d.%d " % place + ("refusal %d" % refusal if refusal else "rows %d" % len(rows))
    whole = lent // ROW * ROW
    return [line] + [out[i:i + ROW].hex() for i in range(0, whole, ROW)] + [out[whole:].hex()]


def main():
    practice_table()
    for kind in (BANDS, SEGMENTS, PRIVILEGES):
        pairs_of(kind)
    for section in (about_zero, classes, gap_places, several_segments, all_at_once, no_rows, refusals, some_tens, many):
        section()
    given, lines = struct.pack("<H", len(IMAGES)), []
    for i, (data, questions) in enumerate(IMAGES):
        given += struct.pack("<I", len(data)) + data + struct.pack("<H", len(questions))
        for k, (name, cls, lent, refusal, rows) in enumerate(questions):
            given += struct.pack("<BH", cls, lent)
            lines += told((i, k), lent, refusal, rows)
            if "--list" in sys.argv[1:]:
                print("%s: %s" % (told((i, k), lent, refusal, rows)[0], name))
    if "--list" in sys.argv[1:]:
        return
    crate = os.path.join(HERE, "../../crates/run_report")
    with open(os.path.join(crate, "stdin"), "wb") as out:
        out.write(given)
    with open(os.path.join(crate, "stdout"), "w") as out:
        out.write("\n".join(lines) + "\n")


if __name__ == "__main__":
    main()
