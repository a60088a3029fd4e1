"""Border cases for the gate program run_amend, with its expected output.

    python3 tools/reference/amend.py          writes crates/run_amend/stdin and stdout
    python3 tools/reference/amend.py --list   prints each case's number, answer and name instead

Every expected output comes from reference.py; beside it each case has its answer by hand (0 or the
refusal), and the generator stops if the reference says otherwise, or if an effective image that is
given by hand is another. Only the drawn lists have no answer by hand.

stdin, little-endian: u16 cases; each: u32 day, u32 bytes lent, u32 where the image stands in the input,
u32 its size, u32 size of the list, the list; behind the cases the images. A lent byte holds a5 before the
call.
stdout: "<case> length <n>" or "<case> refusal <n>", then every lent byte in hexadecimal, or, of over 512,
their two sums (Adler's, modulo 65521).
"""

import os
import random
import struct
import sys

sys.dont_write_bytecode = True

import build
import reference
from borders import (ABOVE, AUTOMATIC, BAND, BANDS, CHANNELS, EVERYTHING, EXCLUDED, FULL, INFINITY, MINIMAL, NAMES,
                     NEG_ZERO, PLAIN, PLAN_AVOID, PLAN_DATA, POWER, PRIVILEGES, QUIET_NAN, SEGMENT, SEGMENTS, place)
from build import general, image, record
from editions import line
from practice import PRACTICE

HERE = os.path.dirname(os.path.abspath(__file__))
FOLDER = os.path.join(HERE, "..", "..", "crates", "run_amend")

LAST = 0xFFFFFFFF                                # the last day

CASES = []                                       # (name, day, room, image, list, line)


def amendment(table, index, day, one):
    return struct.pack("<HHI", table, index, day) + one


def amends(hand, name, data, listing, day, room=None, whole=None):
    """`whole` is the effective image by hand, where there is one."""
    if not isinstance(listing, bytes):
        listing = b"".join(amendment(*one) for one in listing)
    if room is None:
        room = len(data)
    refusal, effective = reference.amend_image(data, listing, day, room)
    if hand is not None and hand != refusal:
        raise SystemExit("%s: by hand %d, reference %d" % (name, hand, refusal))
    if whole is not None and whole != effective:
        raise SystemExit("%s: another image than by hand" % name)
    CASES.append((name, day, room, data, listing, line(refusal, effective, room)))


def encoded():
    """The input: cases, then each image once."""
    at = 2 + sum(20 + len(case[4]) for case in CASES)
    places, pool, cases = {}, b"", b""
    for _, day, room, data, listing, _ in CASES:
        if data not in places:
            places[data] = at + len(pool)
            pool += data
        cases += struct.pack("<5I", day, room, places[data], len(data), len(listing)) + listing
    return struct.pack("<H", len(CASES)) + cases + pool


def with_record(data, table, index, one):
    """The image with another record in a place, by hand: records begin at 64 in edition 1, at 80 in 2."""
    at = place(data, table, index) + (16 if struct.unpack("<H", data[-6:-4])[0] == 2 else 0)
    return data[:at] + one + data[at + 32:]


# Two right records of each table, and a third to put in their place.
TWO = image(general(flags=31), **dict(zip(NAMES, ([PLAIN[t]] * 2 for t in range(9)))))
OTHER = [record(-2048.0, 2048.0, band=3), record(-512.0, 512.0, band=4, rule=5), record(65.0),
         record(-255.0, 257.0, cls=3), record(-127.0, 129.0), record(band=2, rule=10),
         record(-63.0, 65.0, figure=129.0), record(-31.0, 33.0, rule=1), record(-15.0, 17.0, rule=2)]
BAD = record(QUIET_NAN, QUIET_NAN, QUIET_NAN, 255, 255, 255, 255, 65535, 65535)


def lists():
    # An empty list, and every table's every record, in both editions.
    for edition, data in ((1, TWO), (2, build.raised(TWO, 3.0, 4.0))):
        what = "edition %d, " % edition
        amends(0, what + "no amendment", data, b"", 0, whole=data)
        amends(0, what + "no amendment, the last day", data, b"", LAST, whole=data)
        for table in range(9):
            for index in (0, 1):
                amends(0, what + "table %d, record %d" % (table, index), data, [(table, index, 7, OTHER[table])], 7,
                       whole=with_record(data, table, index, OTHER[table]))
        everything = data
        for table in range(9):
            everything = with_record(everything, table, 1, OTHER[table])
        amends(0, what + "one of each table", data, [(t, 1, t, OTHER[t]) for t in range(9)], 8, whole=everything)
        amends(0, what + "one of each table, backwards", data, [(t, 1, t, OTHER[t]) for t in reversed(range(9))], 8,
               whole=everything)
    for name, data in (("the smallest", MINIMAL), ("everything", EVERYTHING), ("every usable byte", FULL),
                       ("the practice table", PRACTICE)):
        amends(0, name, data, b"", 1, whole=data)
        amends(0, name + ", bytes past it", data, b"", 1, len(data) + 9, data)
        amends(28, name + ", one byte short", data, b"", 1, len(data) - 1)
        amends(28, name + ", no byte lent", data, b"", 1, 0)


def days():
    one, two, three = OTHER[BANDS], record(-1025.0, 1024.0), record(-1024.0, 1025.0)

    def case(name, listing, day, winner):
        amends(0, name, TWO, listing, day, whole=with_record(TWO, BANDS, 0, winner))

    case("the day before", [(BANDS, 0, 5, one)], 4, BAND)
    case("the day", [(BANDS, 0, 5, one)], 5, one)
    case("the day after", [(BANDS, 0, 5, one)], 6, one)
    case("day 0 of day 0", [(BANDS, 0, 0, one)], 0, one)
    case("day 1 on day 0", [(BANDS, 0, 1, one)], 0, BAND)
    case("the last day on it", [(BANDS, 0, LAST, one)], LAST, one)
    case("the last day on the one before", [(BANDS, 0, LAST, one)], LAST - 1, BAND)
    for shift in (255, 256, 65535, 65536, 0x7FFFFFFF, 0x80000000):
        case("day %d on it" % shift, [(BANDS, 0, shift, one)], shift, one)
        case("day %d, the day before" % shift, [(BANDS, 0, shift, one)], shift - 1, BAND)
        case("days %d and %d" % (shift, shift - 1), [(BANDS, 0, shift, one), (BANDS, 0, shift - 1, two)], shift, one)
    # "days 2 then 1, asked on day 3: the first"
    case("days 2 then 1, on day 3", [(BANDS, 0, 2, one), (BANDS, 0, 1, two)], 3, one)
    case("days 2 then 1, on day 2", [(BANDS, 0, 2, one), (BANDS, 0, 1, two)], 2, one)
    case("days 2 then 1, on day 1", [(BANDS, 0, 2, one), (BANDS, 0, 1, two)], 1, two)
    case("days 2 then 1, on day 0", [(BANDS, 0, 2, one), (BANDS, 0, 1, two)], 0, BAND)
    case("days 1 then 2, on day 3", [(BANDS, 0, 1, one), (BANDS, 0, 2, two)], 3, two)
    case("equal days", [(BANDS, 0, 2, one), (BANDS, 0, 2, two)], 2, two)
    case("equal days, three", [(BANDS, 0, 2, three), (BANDS, 0, 2, one), (BANDS, 0, 2, two)], 9, two)
    case("equal days about an earlier one", [(BANDS, 0, 2, three), (BANDS, 0, 1, one), (BANDS, 0, 2, two)], 2, two)
    case("the latest first", [(BANDS, 0, 9, three), (BANDS, 0, 2, one), (BANDS, 0, 8, two)], 9, three)
    case("the latest in the middle", [(BANDS, 0, 2, one), (BANDS, 0, 9, three), (BANDS, 0, 8, two)], 9, three)
    case("the latest to come", [(BANDS, 0, 2, one), (BANDS, 0, 9, three), (BANDS, 0, 8, two)], 8, two)
    case("all to come", [(BANDS, 0, 2, one), (BANDS, 0, 9, three), (BANDS, 0, 8, two)], 1, BAND)
    case("the base's own record, later", [(BANDS, 0, 2, one), (BANDS, 0, 3, BAND)], 3, BAND)
    # What does not count is not looked at: to come, or superseded.
    case("a bad record to come", [(BANDS, 0, 5, BAD), (BANDS, 0, 3, one)], 4, one)
    case("a bad record superseded by a later day", [(BANDS, 0, 3, BAD), (BANDS, 0, 4, one)], 4, one)
    case("a bad record superseded on its day", [(BANDS, 0, 4, BAD), (BANDS, 0, 4, one)], 4, one)
    amends(5, "a bad record that counts", TWO, [(BANDS, 0, 4, one), (BANDS, 0, 4, BAD)], 4)
    # A record of one table is none of another, nor a neighbour.
    amends(0, "the same index in two tables", TWO, [(BANDS, 1, 2, one), (SEGMENTS, 1, 1, OTHER[SEGMENTS])], 2,
           whole=with_record(with_record(TWO, BANDS, 1, one), SEGMENTS, 1, OTHER[SEGMENTS]))
    amends(0, "neighbours across tables", TWO, [(PLAN_DATA, 1, 2, OTHER[PLAN_DATA]), (PLAN_AVOID, 0, 1, OTHER[PLAN_AVOID])], 2,
           whole=with_record(with_record(TWO, PLAN_DATA, 1, OTHER[PLAN_DATA]), PLAN_AVOID, 0, OTHER[PLAN_AVOID]))


def refusals():
    good = amendment(BANDS, 0, 5, OTHER[BANDS])
    # 27: not in forties.
    for size in (1, 8, 39, 41, 79, 81):
        amends(27, "a list of %d bytes" % size, TWO, (good * 3)[:size], 9)
    # 27: a table above 8, an index beyond its table, in force or not, first or last.
    for day, when in ((9, "in force"), (4, "to come")):
        for table in (9, 10, 255, 256, 265, 32768, 65535):
            amends(27, "table %d, %s" % (table, when), TWO, [(table, 0, 5, BAD)], day)
            amends(27, "table %d last, %s" % (table, when), TWO, good * 2 + amendment(table, 0, 5, BAD), day)
        for table in range(9):
            for index in (2, 3, 256, 257, 65535):
                amends(27, "table %d, index %d, %s" % (table, index, when), TWO, [(table, index, 5, OTHER[table])], day)
            amends(27, "table %d, index 2 first, %s" % (table, when), TWO, amendment(table, 2, 5, OTHER[table]) + good, day)
        amends(27, "an empty table, " + when, MINIMAL, [(CHANNELS, 0, 5, PLAIN[CHANNELS])], day)
        amends(27, "superseded and stray, " + when, TWO, [(BANDS, 2, 5, BAD), (BANDS, 2, 6, BAD)], day)
    # The order: the base's, 27, 28, the effective image's.
    short = len(TWO) - 1
    stray = amendment(9, 0, 0, BAD)
    bad = amendment(BANDS, 0, 0, BAD)
    end = len(MINIMAL) - 28
    bases = [(1, "no base", b""), (1, "a base of 91 bytes", bytes(91)), (1, "a base over the largest", bytes(65553)),
             (2, "letters", TWO[:-1] + b"F"), (3, "edition 3", TWO[:-6] + b"\x03\x00EDGE"),
             (4, "a count", MINIMAL[:end] + b"\x07" + MINIMAL[end + 1:]), (5, "an unused byte", TWO[:60] + b"\x01" + TWO[61:]),
             (6, "an infinity", TWO[:6] + b"\xf0\x7f" + TWO[8:]), (7, "a band of no width", with_record(TWO, BANDS, 1, record(1.0, 1.0))),
             (8, "a segment of no width", with_record(TWO, SEGMENTS, 1, record(1.0, 1.0))),
             (9, "an automatic segment of no width", with_record(TWO, AUTOMATIC, 1, record(1.0, 1.0))),
             (10, "a privilege of no width", with_record(TWO, PRIVILEGES, 1, record(1.0, 1.0))),
             (11, "no segments", image(bands=[BAND])), (12, "a segment in no band", with_record(TWO, SEGMENTS, 1, record(0.0, 4096.0))),
             (13, "an own limit of zero", with_record(TWO, SEGMENTS, 1, record(-1024.0, 1024.0, flags=1))),
             (14, "no general limit", bytes(8) + TWO[8:])]
    for number, what, data in bases:
        amends(number, "the base's own: " + what, data, b"", 9)
        amends(number, "the base's own before 27 and 28: " + what, data, stray, 9, 0)
        if number >= 5:
            mended = [(t, i, 0, r) for t, rs in enumerate(reference.table_records(TWO)) for i, r in enumerate(rs)
                      if i < struct.unpack("<9H", data[-28:-10])[t]]
            amends(number, "the base's own, though amended: " + what, data, mended, 9)
    amends(27, "27 before 28", TWO, stray, 9, short)
    amends(27, "27 before 28, not in forties", TWO, good[:-1], 9, 0)
    amends(27, "27 before the effective image's", TWO, bad + stray, 9)
    amends(28, "28 before the effective image's", TWO, bad, 9, short)
    amends(28, "28, no byte lent", TWO, good, 9, 0)
    amends(5, "the effective image's", TWO, bad, 9)
    amends(0, "bytes past it", TWO, good, 9, len(TWO) + 40, with_record(TWO, BANDS, 0, OTHER[BANDS]))
    amends(5, "the effective image's, bytes past it", TWO, bad, 9, len(TWO) + 40)


def effective():
    """The effective image's own: 5 to 10, 12 and 13, each alone and before what comes later."""
    empty, wide, unlimited = record(8.0, 8.0), record(0.0, 4096.0), record(-8.0, 8.0, flags=1)
    faults = [
        (5, "an unused byte", (BANDS, 0, record(-1024.0, 1024.0, rule=1))), (5, "flags", (SEGMENTS, 1, record(-8.0, 8.0, flags=4))),
        (5, "a channel with a high end", (CHANNELS, 1, record(64.0, 1.0))), (5, "class 5", (PRIVILEGES, 0, record(-8.0, 8.0, cls=5))),
        (5, "an automatic segment's figure", (AUTOMATIC, 0, record(-8.0, 8.0, figure=1.0))), (5, "an excluded range", (EXCLUDED, 1, record(1.0))),
        (5, "power class bits", (POWER, 0, record(-8.0, 8.0, cls=32, flags=1))), (5, "a plan area's band", (PLAN_DATA, 1, record(-8.0, 8.0, band=1))),
        (5, "a second rule", (PLAN_AVOID, 0, record(-8.0, 8.0, second=1))),
        (6, "a band without an end", (BANDS, 1, record(0.0, INFINITY))), (6, "a channel above 2^40", (CHANNELS, 0, record(ABOVE))),
        (6, "watts that are no number", (POWER, 1, record(-8.0, 8.0, figure=QUIET_NAN))), (6, "negative zero", (PLAN_AVOID, 1, record(NEG_ZERO, 8.0))),
        (7, "a band of no width", (BANDS, 1, empty)), (7, "a band turned round", (BANDS, 1, record(8.0, -8.0))),
        (8, "a segment of no width", (SEGMENTS, 0, empty)), (9, "an automatic segment of no width", (AUTOMATIC, 1, empty)),
        (10, "a privilege of no width", (PRIVILEGES, 1, empty)), (12, "a segment in no band", (SEGMENTS, 1, wide)),
        (13, "an own limit of zero", (SEGMENTS, 0, unlimited)),
        (13, "an own limit below zero", (SEGMENTS, 0, record(-8.0, 8.0, figure=-1.0, flags=1)))]
    for number, what, (table, index, one) in faults:
        for edition, data in ((1, TWO), (2, build.raised(TWO))):
            amends(number, "%d, %s, edition %d" % (number, what, edition), data, [(table, index, 3, one)], 3)
        amends(0, "%d, %s, to come" % (number, what), TWO, [(table, index, 3, one)], 2, whole=TWO)
        amends(0, "%d, %s, mended later" % (number, what), TWO, [(table, index, 3, one), (table, index, 4, PLAIN[table])], 4, whole=TWO)
    for i, (number, what, (table, index, one)) in enumerate(faults):
        for later, other, (t, k, two) in faults[i + 1:]:
            if later > number and (t, k) != (table, index):
                amends(number, "%d before %d" % (number, later), TWO, [(t, k, 1, two), (table, index, 2, one)], 3)
    # 12 by a band that moved, by a segment, and by both; and no 12 where both moved.
    far = record(8192.0, 16384.0)
    both = image(bands=[BAND, far], segments=[SEGMENT])
    amends(12, "the segment's only band moved", MINIMAL, [(BANDS, 0, 1, far)], 1)
    amends(12, "the segment moved", MINIMAL, [(SEGMENTS, 0, 1, far)], 1)
    amends(0, "band and segment moved", MINIMAL, [(BANDS, 0, 1, far), (SEGMENTS, 0, 1, far)], 1,
           whole=image(bands=[far], segments=[far]))
    amends(12, "band moved, the segment to come", MINIMAL, [(BANDS, 0, 1, far), (SEGMENTS, 0, 2, far)], 1)
    amends(12, "segment moved, the band to come", MINIMAL, [(BANDS, 0, 2, far), (SEGMENTS, 0, 1, far)], 1)
    amends(0, "the segment moved into the other band", both, [(SEGMENTS, 0, 1, record(8192.0, 9000.0))], 1)
    amends(0, "the bands exchanged", both, [(BANDS, 0, 1, far), (BANDS, 1, 1, BAND)], 1)
    amends(12, "both bands the far one", both, [(BANDS, 0, 1, far)], 1)
    amends(0, "the band grown by one hertz", MINIMAL, [(BANDS, 0, 1, record(-1025.0, 1025.0))], 1)
    amends(12, "the band cut by one hertz", MINIMAL, [(BANDS, 0, 1, record(-1024.0, 1023.0))], 1)
    amends(0, "the segment cut with it", MINIMAL, [(BANDS, 0, 1, record(-1024.0, 1023.0)), (SEGMENTS, 0, 1, record(-1024.0, 1023.0))], 1)


def large():
    even = [227] * 8 + [229]
    data = image(general(flags=31), **dict(zip(NAMES, ([PLAIN[t]] * even[t] for t in range(9)))))
    assert len(data) == 65532
    last = [(t, even[t] - 1, 5, OTHER[t]) for t in range(9)]
    whole = data
    for table, index, _, one in last:
        whole = with_record(whole, table, index, one)
    amends(0, "2,045 records, the last of each table", data, last, 5, whole=whole)
    amends(27, "2,045 records, an index more", data, last + [(PLAN_AVOID, 229, 6, OTHER[PLAN_AVOID])], 5)
    amends(12, "2,045 records, a segment in no band", data, last + [(SEGMENTS, 100, 5, record(0.0, 4096.0))], 5)
    second = build.raised(data)
    amends(0, "2,045 records, edition 2", second, last, 5, len(second) + 5)


def drawn():
    """Lists drawn at random on one image, of few days, so that they often meet."""
    draw = random.Random(8)
    for k in range(60):
        listing = b""
        for _ in range(draw.randrange(1, 40)):
            table = draw.randrange(9)
            one = draw.choice([PLAIN[table], OTHER[table], OTHER[table], TWO[64:96] if table < 2 else PLAIN[table]])
            listing += amendment(table, draw.randrange(2), draw.randrange(6), one)
        amends(None, "drawn %d" % k, TWO, listing, draw.randrange(6))


def main():
    lists()
    days()
    refusals()
    effective()
    large()
    drawn()
    lines = ["%d %s" % (n, case[-1]) for n, case in enumerate(CASES)]
    if "--list" in sys.argv[1:]:
        for text, case in zip(lines, CASES):
            print(" ".join(text.split(" ")[:3]) + ": " + case[0])
        return
    stdin = encoded()
    os.makedirs(FOLDER, exist_ok=True)
    with open(os.path.join(FOLDER, "stdin"), "wb") as out:
        out.write(stdin)
    with open(os.path.join(FOLDER, "stdout"), "w", encoding="ascii") as out:
        out.write("\n".join(lines) + "\n")
    print("%d cases, stdin %d bytes" % (len(CASES), len(stdin)))


if __name__ == "__main__":
    main()
