"""Border cases for the two gate programs run_image and run_station, with their expected outputs.

    python3 borders.py          writes crates/run_image/{stdin,stdout}, crates/run_station/{...}
    python3 borders.py --list   prints number, expectation and name of every case instead

Every expected output comes from reference.py. Beside that each case carries an expectation
written here by hand ("refused", "tidy", "untidy"; for a refusal by 5 to 10, 12 or 13 also its
place; for stations a number or parts of the line),
and the generator stops if the reference says otherwise. Only the random cases ("free", and the
random stations) have none. Nothing is random but by the fixed seeds below.

run_image's stdin, little-endian: u16 cases; each: u32 image length, u16 patches, and each patch:
u32 offset, u16 length n (1 to 64), u16 times, u32 stride, n bytes. The image starts as zero bytes;
a patch is written `times` times, at offset, offset + stride, ..., later patches over earlier.
Its stdout: "<case> check <C> tidy <T> fault <F>", C 0 or the refusal, T 0 untidy, 1 tidy,
100 + refusal, F 0 nowhere, 1 the general block, "2 <table> <record>".

run_station's stdin: u16 cases; each 43 bytes: u8 policy, control, license, sideband, region, plan
mark, dial presence, power presence, direction, kind; u64 bits of lower margin, upper margin, dial,
power; u8 image flag (0: an image of length 0, 1: an accepted image). Its stdout: see `station_line`.
"""

import os
import struct
import sys

sys.dont_write_bytecode = True

import build
import reference
from build import f64, general, image, record
from practice import PRACTICE

HERE = os.path.dirname(os.path.abspath(__file__))
CRATES = os.path.join(HERE, "..", "..", "crates")

BANDS, SEGMENTS, CHANNELS, PRIVILEGES, AUTOMATIC, EXCLUDED, POWER, PLAN_DATA, PLAN_AVOID = range(9)
NAMES = ["bands", "segments", "channels", "privileges", "automatic", "excluded", "power",
         "plan_data", "plan_avoid"]

# Places.
NOWHERE, GENERAL = reference.NOWHERE, reference.GENERAL

# General flags (byte 42).
ELSEWHERE, RESPONSE, CHANNEL_PART, EMISSIONS_PART, PLAN = 1, 2, 4, 8, 16

# 64 bits of particular figures.
NEG_ZERO = 0x8000000000000000
TWO40 = 0x4270000000000000                       # 2^40
ABOVE = 0x4270000000000001                       # the next double above it
MINUS_TWO40 = 0xC270000000000000
MINUS_ABOVE = 0xC270000000000001
BELOW_TWO40 = 0x426FFFFFFFFFFFFF                 # the double before 2^40
INFINITY = 0x7FF0000000000000
MINUS_INFINITY = 0xFFF0000000000000
QUIET_NAN = 0x7FF8000000000000
MINUS_NAN = 0xFFF8000000000000
SIGNAL_NAN = 0x7FF0000000000001
FULL_NAN = 0xFFFFFFFFFFFFFFFF
LARGEST = 0x7FEFFFFFFFFFFFFF                     # the largest finite double
TWO41 = 0x4280000000000000
SMALLEST = 0x0000000000000001                    # the smallest subnormal
MINUS_SMALLEST = 0x8000000000000001
LAST_SUBNORMAL = 0x000FFFFFFFFFFFFF

assert struct.unpack("<d", f64(TWO40))[0] == 2.0 ** 40
assert struct.unpack("<d", f64(MINUS_TWO40))[0] == -(2.0 ** 40)

# Figures that meet 6 wherever a figure is used, and 5 wherever it isn't.
BAD_FIGURES = [("above 2^40", ABOVE), ("below -2^40", MINUS_ABOVE), ("negative zero", NEG_ZERO),
               ("infinity", INFINITY), ("-infinity", MINUS_INFINITY), ("NaN", QUIET_NAN),
               ("NaN, sign set", MINUS_NAN), ("signalling NaN", SIGNAL_NAN),
               ("NaN of ones", FULL_NAN), ("largest", LARGEST), ("2^41", TWO41)]


def ulp(value, steps=1):
    """The double `steps` places from `value`, above or below."""
    bits = struct.unpack("<q", struct.pack("<d", value))[0]
    assert bits > 0, "for positive figures only"
    return struct.unpack("<d", struct.pack("<q", bits + steps))[0]


# ---------------------------------------------------------------------------------------------
# Patches

def runs(data, at):
    """The nonzero bytes of `data` as patches; short stretches of zeros are taken along."""
    patches = []
    begin = last = None
    for i, byte in enumerate(data):
        if byte == 0:
            continue
        if begin is not None and (i - last > 12 or i - begin >= 64):
            patches.append((at + begin, data[begin:last + 1], 1, last + 1 - begin))
            begin = None
        if begin is None:
            begin = i
        last = i
    if begin is not None:
        patches.append((at + begin, data[begin:last + 1], 1, last + 1 - begin))
    return patches


def patches_of(data):
    """An image as patches: alike records that follow one another become one patch."""
    if len(data) < 92:
        return runs(data, 0)
    patches = runs(data[:64], 0)
    at = 64
    rest = len(data) - 28
    loose = at
    while at + 32 <= rest:
        one = data[at:at + 32]
        times = 1
        while at + 32 * (times + 1) <= rest and data[at + 32 * times:at + 32 * times + 32] == one:
            times += 1
        if times > 1:
            patches += runs(data[loose:at], loose)
            body = one.strip(b"\0")
            if body:
                shift = len(one) - len(one.lstrip(b"\0"))
                patches.append((at + shift, body, times, 32))
            loose = at + 32 * times
        at += 32 * times
    return patches + runs(data[loose:], loose)


def patched(length, patches):
    """What the program makes of a case."""
    data = bytearray(length)
    for offset, body, times, stride in patches:
        assert 1 <= len(body) <= 64 and 1 <= times <= 65535 and 1 <= stride
        for k in range(times):
            at = offset + k * stride
            assert at + len(body) <= length, "a patch past the end"
            data[at:at + len(body)] = body
    return bytes(data)


def encoded(length, patches):
    out = struct.pack("<IH", length, len(patches))
    for offset, body, times, stride in patches:
        out += struct.pack("<IHHI", offset, len(body), times, stride) + body
    return out


# ---------------------------------------------------------------------------------------------
# Image cases

IMAGE_CASES = []                                 # (name, encoded, C, T, F)


def fault_words(at):
    return {NOWHERE: "0", GENERAL: "1"}.get(at) or "2 %d %d" % at


def add(name, base, edits, check, tidy, at):
    """`base` is an image, or a length and patches; `edits` are (offset, bytes). `check`, `tidy`
    and `at` are the expectation by hand, None for none."""
    if isinstance(base, tuple):
        length, patches = base
        ways = [patches]
    else:
        length = len(base)
        ways = [patches_of(base)]
    steps = [(offset, bytes(body), 1, len(body)) for offset, body in edits]
    ways = [way + steps for way in ways]
    data = patched(length, ways[0])
    ways.append(patches_of(data))
    assert all(patched(length, way) == data for way in ways), name
    if not isinstance(base, tuple) and not edits:
        assert data == base, name
    code = min((encoded(length, way) for way in ways), key=len)

    found = reference.check_image(data)
    refusal, answer = reference.tidy_question(data)
    found_tidy = 100 + refusal if refusal else int(answer)
    if check is not None and found != check:
        raise SystemExit("%s: by hand %d, reference %d" % (name, check, found))
    if tidy is not None and found_tidy != tidy:
        raise SystemExit("%s: by hand tidy %d, reference %d" % (name, tidy, found_tidy))
    found_at = reference.place_of(data)
    if at is not None and found_at != at:
        raise SystemExit("%s: by hand at %s, reference %s" % (name, at, found_at))
    IMAGE_CASES.append((name, code, found, found_tidy, fault_words(found_at)))


def refused(number, name, base, *edits, at=NOWHERE):
    assert (at == NOWHERE) == (number in (1, 2, 3, 4, 11, 14)), name
    add(name, base, edits, number, 100 + number, at)


def tidy(name, base, *edits):
    add(name, base, edits, 0, 1, NOWHERE)


def untidy(name, base, *edits):
    add(name, base, edits, 0, 0, NOWHERE)


def free(name, base, *edits):
    add(name, base, edits, None, None, None)


# ---------------------------------------------------------------------------------------------
# Base images

# Band and segment alike and of number 0: one short patch writes both, which keeps the file small.
BAND = record(-1024.0, 1024.0)
SEGMENT = BAND

# A right record of each table, with every flag clear.
PLAIN = [BAND, SEGMENT, record(64.0), record(-256.0, 256.0, cls=2), record(-128.0, 128.0),
         record(band=1, rule=9), record(-64.0, 64.0, figure=128.0), record(-32.0, 32.0),
         record(-16.0, 16.0)]

FLAGS_FOR = {CHANNELS: CHANNEL_PART, PLAN_DATA: PLAN, PLAN_AVOID: PLAN}


def with_table(table, records):
    """One band, one segment, and `records` as the table (in place of the band or the segment)."""
    tables = {"bands": [BAND], "segments": [SEGMENT]}
    tables[NAMES[table]] = records
    block = general(flags=FLAGS_FOR.get(table, 0))
    return image(block, **tables)


def thrice(table):
    return with_table(table, [PLAIN[table]] * 3)


def place(data, table, index):
    """Where a record of a (right) image stands."""
    counts = struct.unpack("<9H", data[-28:-10])
    return 64 + 32 * (sum(counts[:table]) + index)


MINIMAL = image(bands=[BAND], segments=[SEGMENT])
EVERYTHING = image(
    general(data=2.0, elsewhere=4.0, width=8.0, offset=16.0, tolerance=32.0, region=2, reading=1,
            flags=31, channel_band=1, sideband=1, emissions=15, data_rule=7, elsewhere_rule=8,
            automatic_rule=9, channels_rule=10, emissions_rule=11, privileges_rule=12),
    bands=[record(-1024.0, 1024.0, band=1)],
    segments=[record(-512.0, 512.0, figure=4.0, band=1, flags=3, rule=5, second=6)],
    channels=[PLAIN[CHANNELS]],
    privileges=[record(-256.0, 256.0, cls=4, emissions=15, flags=3, rule=6)],
    automatic=[PLAIN[AUTOMATIC]], excluded=[PLAIN[EXCLUDED]],
    power=[record(-64.0, 64.0, figure=128.0, cls=31, flags=1, rule=8)],
    plan_data=[record(-32.0, 32.0, rule=3)], plan_avoid=[record(-16.0, 16.0, rule=4)])

# Every byte that can be used, used: figures whose eight bytes are all nonzero.
ONE, TWO, FIGURE = 0x4111223344556677, 0x4212233445566778, 0x4155AA55AA55AA55
FULL = image(
    general(data=FIGURE, elsewhere=ONE, width=TWO, offset=FIGURE, tolerance=ONE, region=255,
            reading=2, flags=31, channel_band=254, sideband=1, emissions=15, data_rule=0x0102,
            elsewhere_rule=0x0304, automatic_rule=0x0506, channels_rule=0x0708,
            emissions_rule=0x090A, privileges_rule=0x0B0C),
    bands=[record(ONE, TWO, band=253)],
    segments=[record(ONE, TWO, figure=FIGURE, band=253, flags=3, rule=0x0D0E, second=0x0F10)],
    channels=[record(ONE)],
    privileges=[record(ONE, TWO, cls=4, emissions=15, flags=3, rule=0x1112)],
    automatic=[record(ONE, TWO)], excluded=[record(band=252, rule=0x1314)],
    power=[record(ONE, TWO, figure=FIGURE, cls=31, flags=1, rule=0x1516)],
    plan_data=[record(ONE, TWO, rule=0x1718)], plan_avoid=[record(ONE, TWO, rule=0x191A)])


# ---------------------------------------------------------------------------------------------
# 1, 2, 3, 4

def lengths():
    tail = build.trailer([0] * 9)
    refused(1, "no byte at all", b"")
    refused(1, "one byte", b"\x01")
    refused(1, "27 bytes of zero", bytes(27))
    refused(1, "27 bytes, the end of a trailer", tail[1:])
    refused(1, "28 bytes of zero", bytes(28))
    refused(1, "28 bytes, a trailer alone, distance 0", build.trailer([0] * 9, distance=0))
    refused(1, "29 bytes with a trailer", bytes(1) + build.trailer([0] * 9, distance=1))
    refused(1, "64 bytes of zero", bytes(64))
    refused(1, "91 bytes of zero", bytes(91))
    refused(1, "91 bytes with a trailer, distance 64", bytes(63) + tail)
    refused(1, "91 bytes with a trailer, distance 63", bytes(63) + build.trailer([0] * 9, distance=63))
    refused(2, "92 bytes of zero", bytes(92))
    refused(11, "92 bytes with a right trailer", bytes(64) + tail)
    refused(11, "92 bytes with a right trailer and a data limit", image())
    refused(2, "93 bytes of zero", bytes(93))
    refused(4, "93 bytes, distance 64", bytes(65) + tail)
    refused(4, "93 bytes, distance 65", bytes(65) + build.trailer([0] * 9, distance=65))
    refused(2, "65,535 bytes of zero", bytes(65535))
    refused(2, "65,536 bytes of zero", bytes(65536))
    refused(2, "65,537 bytes of zero", bytes(65537))
    refused(1, "65,600 bytes of zero", bytes(65600))
    tail = build.trailer([256] * 7 + [253, 0])
    refused(4, "65,536 bytes, letters and edition right", bytes(65508) + tail)
    refused(4, "65,537 bytes, letters and edition right", bytes(65509) + tail)
    long = build.trailer([256] * 7 + [254, 0])
    refused(1, "65,564 bytes, 2,046 records, agreeing", bytes(65536) + long)
    tidy("the smallest accepted image", MINIMAL)
    tidy("an image with everything", EVERYTHING)
    tidy("an image with every usable byte set", FULL)


def letters():
    for i in range(4):
        at = len(MINIMAL) - 4 + i
        letter = MINIMAL[at]
        refused(2, "letter %d one up" % i, MINIMAL, (at, [letter + 1]))
        refused(2, "letter %d small" % i, MINIMAL, (at, [letter | 32]))
        refused(2, "letter %d, high bit" % i, MINIMAL, (at, [letter | 128]))
    for word in (b"EGDE", b"EDEG", b"DEGE", b"\0\0\0\0"):
        refused(2, "letters %r" % word, image(bands=[BAND], segments=[SEGMENT], letters=word))
    refused(2, "letters one byte early", MINIMAL + b"\0")
    refused(2, "last letter missing", MINIMAL[:-1])
    refused(2, "trailer before the block", MINIMAL[-28:] + MINIMAL[:-28])


def editions():
    for edition in (0, 2, 3, 256, 257, 255, 32769, 65535):
        refused(4 if edition == 2 else 3, "edition %d, of edition 1's length" % edition,
                image(bands=[BAND], segments=[SEGMENT], edition=edition))


def counts():
    front = len(MINIMAL) - 28
    for distance in (0, front - 64, front - 32, front - 1, front + 1, front + 28, front + 32,
                     front + 65536, front + 2 ** 24, front + 2 ** 31, 2 ** 32 - 1, 2 ** 32 - front):
        refused(4, "distance %d for %d" % (distance, front), MINIMAL,
                (front + 18, struct.pack("<I", distance)))
    for t in range(9):
        refused(4, "one %s more than there are" % NAMES[t], MINIMAL,
                (front + 2 * t, [MINIMAL[front + 2 * t] + 1]))
    refused(4, "one band less than there are", MINIMAL, (front, [0]))
    refused(4, "one segment less than there are", MINIMAL, (front + 2, [0]))
    refused(4, "one band less, distance with it", MINIMAL, (front, [0]), (front + 18, [96]))
    refused(4, "one band more, distance with it", MINIMAL, (front, [2]), (front + 18, [160]))
    tidy("a power record", with_table(POWER, [PLAIN[POWER]]))
    refused(4, "count 256 for 1, bytes turned", MINIMAL, (front, [0, 1]))
    for size in (1, 28, 31, 32, 64):
        refused(4, "%d slack bytes before the trailer, distance to the records' end" % size,
                image(bands=[BAND], segments=[SEGMENT], slack=bytes(size)))
        refused(4, "%d slack bytes before the trailer, distance with them" % size,
                image(bands=[BAND], segments=[SEGMENT], slack=bytes(size), distance=front + size))
    refused(4, "a byte before the block", b"\0" + MINIMAL)
    refused(4, "the block's first byte missing", MINIMAL[1:])

    # Tidy with 256 alike records is asked of six tables only: bands, segments and privileges of
    # one class that are alike aren't tidy.
    for t in range(9):
        full = with_table(t, [PLAIN[t]] * 256)
        (untidy if t in (BANDS, SEGMENTS, PRIVILEGES) else tidy)("256 " + NAMES[t], full)
        refused(4, "257 " + NAMES[t], with_table(t, [PLAIN[t]] * 257))
        end = len(full) - 28
        refused(4, "256 %s, count 257, distance with it" % NAMES[t], full,
                (end + 2 * t, [1, 1]), (end + 18, struct.pack("<I", end + 32)))
        refused(5, "256 %s, an unused byte of the last" % NAMES[t], full,
                (place(full, t, 255) + (31 if t != SEGMENTS else 25), [1]), at=(t, 255))
        if t != EXCLUDED:
            refused(6, "256 %s, low of the last" % NAMES[t], full,
                    (place(full, t, 255), f64(MINUS_ABOVE)), at=(t, 255))
    refused(4, "count 512", with_table(AUTOMATIC, [PLAIN[AUTOMATIC]] * 512))
    refused(4, "count 2,043", with_table(AUTOMATIC, [PLAIN[AUTOMATIC]] * 2043))

    # 32 times the sum of the counts past 16 bits: what is left over agrees.
    eight = [256] * 8
    block = general(flags=CHANNEL_PART | PLAN)
    refused(4, "2,048 records counted, none there",
            block + build.trailer(eight + [0], distance=64))
    refused(4, "2,048 records counted, none there, distance whole",
            block + build.trailer(eight + [0], distance=64 + 65536))
    two = block + BAND + SEGMENT
    refused(4, "2,050 records counted, two there", two + build.trailer(eight + [2], distance=128))
    refused(4, "2,050 records counted, two there, distance whole",
            two + build.trailer(eight + [2], distance=65664))
    refused(4, "2,304 records counted, 256 there",
            block + BAND * 256 + build.trailer([256] * 9, distance=64 + 8192))
    refused(4, "all counts 256 in 65,532 bytes",
            (65532, patches_of(bytes(65504) + build.trailer([256] * 9, distance=65504))))
    # The sum of the counts itself past 16 bits: 65,535 + 3 leaves 2.
    refused(4, "counts 65,535 and 3", two + build.trailer([65535, 3] + [0] * 7, distance=128))
    refused(4, "counts 1, 1 and 32,768 twice",
            two + build.trailer([1, 1, 32768, 32768] + [0] * 5, distance=128))
    refused(4, "counts 1, 1 and 2,048", two + build.trailer([1, 1, 0, 0, 2048] + [0] * 4, distance=128))
    refused(4, "all counts 65,535", two + build.trailer([65535] * 9, distance=128))


# ---------------------------------------------------------------------------------------------
# 5

def general_codes():
    tidy("flags with all parts present, tables empty",
         image(general(flags=31), bands=[BAND], segments=[SEGMENT]))
    for byte in range(58, 64):
        refused(5, "general byte %d is not zero" % byte, MINIMAL, (byte, [1 if byte % 2 else 128]),
                at=GENERAL)

    # Each byte of each field of each part: 5 while the part is absent.
    parts = [("elsewhere", ELSEWHERE, list(range(8, 16)) + [48, 49]),
             ("channels", CHANNEL_PART, list(range(16, 40)) + [43, 44, 52, 53]),
             ("emissions", EMISSIONS_PART, [45, 54, 55])]
    for name, bit, fields in parts:
        others = image(general(flags=31 & ~bit & ~(RESPONSE if bit == ELSEWHERE else 0)),
                       bands=[BAND], segments=[SEGMENT])
        tidy("only %s absent" % name, others)
        alone = image(general(flags=bit), bands=[BAND], segments=[SEGMENT])
        tidy("only %s present, all zero" % name, alone)
        for byte in fields:
            refused(5, "%s absent, byte %d" % (name, byte), MINIMAL, (byte, [1]), at=GENERAL)
        for byte in (b for b in fields if b < 40 and b % 8 == 7 or b >= 40):
            refused(5, "%s absent, the others present, byte %d" % (name, byte), others, (byte, [1]),
                    at=GENERAL)
            tidy("%s present, byte %d" % (name, byte), alone, (byte, [1]))
        for byte in (b for b in fields if b < 40 and b % 8 == 0):
            for what, bits in (("negative zero", NEG_ZERO), ("NaN", QUIET_NAN)):
                refused(5, "%s absent, figure at %d %s" % (name, byte, what), MINIMAL,
                        (byte, f64(bits)), at=GENERAL)
    refused(5, "response required, elsewhere absent", MINIMAL, (42, [RESPONSE]), at=GENERAL)
    refused(5, "response required, elsewhere alone absent", MINIMAL, (42, [31 - ELSEWHERE]),
            at=GENERAL)
    tidy("elsewhere without response", MINIMAL, (42, [ELSEWHERE]))
    tidy("elsewhere with response", MINIMAL, (42, [ELSEWHERE | RESPONSE]))

    # Tables of absent parts, filled and with records of zero bytes.
    for t, keep in ((CHANNELS, 31 - CHANNEL_PART), (PLAN_DATA, 31 - PLAN), (PLAN_AVOID, 31 - PLAN)):
        for what, one in (("a record", PLAIN[t]), ("a record of zeros", bytes(32))):
            here = with_table(t, [one])
            tidy("%s: %s, part present" % (NAMES[t], what), here)
            refused(5, "%s: %s, part absent" % (NAMES[t], what), here, (42, [0]), at=(t, 0))
            refused(5, "%s: %s, part alone absent" % (NAMES[t], what), here, (42, [keep]),
                    at=(t, 0))
    both = image(general(), bands=[BAND], segments=[SEGMENT], plan_data=[PLAIN[PLAN_DATA]],
                 plan_avoid=[PLAIN[PLAN_AVOID]])
    refused(5, "both plan tables, plan absent", both, at=(PLAN_DATA, 0))
    tidy("both plan tables, plan present", both, (42, [PLAN]))

    for value in (0, 1, 2):
        tidy("reading %d" % value, MINIMAL, (41, [value]))
    for value in (3, 4, 255):
        refused(5, "reading %d" % value, MINIMAL, (41, [value]), at=GENERAL)
    for value in (32, 64, 128, 63):
        refused(5, "general flags %d" % value, MINIMAL, (42, [value]), at=GENERAL)
    channels = image(general(flags=CHANNEL_PART), bands=[BAND], segments=[SEGMENT])
    for value in (0, 1):
        tidy("channel sideband %d" % value, channels, (44, [value]))
    for value in (2, 3, 255):
        refused(5, "channel sideband %d" % value, channels, (44, [value]), at=GENERAL)
    for value in (0, 255):
        tidy("channel band %d" % value, channels, (43, [value]))
        tidy("region %d" % value, MINIMAL, (40, [value]))
    emissions = image(general(flags=EMISSIONS_PART), bands=[BAND], segments=[SEGMENT])
    for value in (1, 8, 15):
        tidy("emission bits %d" % value, emissions, (45, [value]))
    for value in (16, 32, 64, 128):
        refused(5, "emission bits %d" % value, emissions, (45, [value]), at=GENERAL)
    tidy("all rules 65,535", image(general(flags=31), bands=[BAND], segments=[SEGMENT]),
         (46, [255] * 12))
    tidy("rules without parts 65,535", MINIMAL, (46, [255, 255]), (50, [255, 255]), (56, [255, 255]))


# By hand from document 01's list of tables: the bytes of a record that hold nothing, flags clear.
UNUSED = {
    BANDS: list(range(16, 24)) + [25, 26, 27, 28, 29, 30, 31],
    SEGMENTS: list(range(16, 24)) + [25, 26, 30, 31],
    CHANNELS: list(range(8, 32)),
    PRIVILEGES: list(range(16, 24)) + [24, 26, 28, 29, 30, 31],
    AUTOMATIC: list(range(16, 32)),
    EXCLUDED: list(range(0, 24)) + [25, 26, 27, 30, 31],
    POWER: [24, 25, 26, 30, 31],
    PLAN_DATA: list(range(16, 28)) + [30, 31],
    PLAN_AVOID: list(range(16, 28)) + [30, 31],
}


def record_codes():
    for t in range(9):
        three = thrice(t)
        (untidy if t in (BANDS, SEGMENTS, PRIVILEGES) else tidy)("three " + NAMES[t], three)
        for byte in UNUSED[t]:
            # The only one, the middle of three or the last of three.
            base, which = ((three, 2), (with_table(t, [PLAIN[t]]), 0), (three, 1),
                           (with_table(t, [PLAIN[t]]), 0))[byte % 4]
            value = (1, 128, 255)[(byte // 3) % 3] if byte not in (25, 26, 27) else 1
            refused(5, "%s %d, unused byte %d" % (NAMES[t], which, byte), base,
                    (place(base, t, which) + byte, [value]), at=(t, which))
    # The same where every flag is set: the bytes that stay unused.
    for t, one, fields in (
            (SEGMENTS, record(-512.0, 512.0, figure=4.0, flags=3, second=1), [25, 26]),
            (PRIVILEGES, record(-256.0, 256.0, emissions=1, flags=3, rule=1),
             list(range(16, 24)) + [24, 30, 31]),
            (POWER, record(-64.0, 64.0, figure=128.0, cls=1, flags=1), [24, 26, 30, 31])):
        base = with_table(t, [one])
        tidy("%s, flags set" % NAMES[t], base)
        for byte in fields:
            refused(5, "%s, flags set, unused byte %d" % (NAMES[t], byte), base,
                    (place(base, t, 0) + byte, [1]), at=(t, 0))
    # Unused figures that would meet 6 if they were looked at as figures.
    for t, field in ((BANDS, 16), (SEGMENTS, 16), (CHANNELS, 8), (CHANNELS, 16), (PRIVILEGES, 16),
                     (AUTOMATIC, 16), (EXCLUDED, 0), (EXCLUDED, 8), (EXCLUDED, 16),
                     (PLAN_DATA, 16), (PLAN_AVOID, 16)):
        base = with_table(t, [PLAIN[t]])
        for what, bits in (("negative zero", NEG_ZERO), ("NaN", SIGNAL_NAN)):
            refused(5, "%s, unused figure at %d %s" % (NAMES[t], field, what), base,
                    (place(base, t, 0) + field, f64(bits)), at=(t, 0))

    # Bands: the number is any byte.
    numbered = image(bands=[record(-1024.0, 1024.0, band=0)],
                     segments=[record(-512.0, 512.0, band=0)])
    tidy("band number 0", numbered)
    tidy("band number 255", numbered, (64 + 24, [255]), (96 + 24, [255]))
    tidy("excluded: band 255, rule 65,535", with_table(EXCLUDED, [record(band=255, rule=65535)]))
    tidy("excluded: zero bytes", with_table(EXCLUDED, [bytes(32)]))

    # Segments.
    def segment(**fields):
        return with_table(SEGMENTS, [record(-1024.0, 1024.0, **fields)])
    tidy("segment, rule 65,535", segment(rule=65535))
    tidy("segment, own limit", segment(flags=1, figure=4.0))
    tidy("segment, second rule without own limit", segment(flags=2, second=65535))
    tidy("segment, second rule 0 without own limit", segment(flags=2))
    tidy("segment, own limit and second rule", segment(flags=3, figure=4.0, second=256))
    tidy("segment, own limit and second rule 0", segment(flags=3, figure=4.0))
    refused(5, "segment, second rule's low byte, flag clear", segment(flags=1, figure=4.0, second=1),
            at=(SEGMENTS, 0))
    refused(5, "segment, second rule's high byte, flag clear", segment(flags=1, figure=4.0, second=256),
            at=(SEGMENTS, 0))
    refused(5, "segment, own limit under a clear flag", segment(flags=0, figure=4.0),
            at=(SEGMENTS, 0))
    refused(5, "segment, own limit under the other flag", segment(flags=2, figure=4.0),
            at=(SEGMENTS, 0))
    refused(5, "segment, own limit negative zero, flag clear", segment(flags=2, figure=NEG_ZERO),
            at=(SEGMENTS, 0))
    refused(6, "segment, own limit negative zero, flag set", segment(flags=1, figure=NEG_ZERO),
            at=(SEGMENTS, 0))
    refused(13, "segment, own limit zero, flag set", segment(flags=1, figure=0.0), at=(SEGMENTS, 0))
    tidy("segment, own limit zero, flag clear", segment(flags=0, figure=0.0))
    for bit in range(2, 8):
        refused(5, "segment, flag bit %d" % bit, segment(flags=1 << bit), at=(SEGMENTS, 0))
    refused(5, "segment, flag bits 0, 1, 2", segment(flags=7, figure=4.0, second=1),
            at=(SEGMENTS, 0))

    # Privileges.
    def privilege(**fields):
        return with_table(PRIVILEGES, [record(-256.0, 256.0, **fields)])
    for cls in range(5):
        tidy("privilege, class %d" % cls, privilege(cls=cls))
    for cls in (5, 6, 8, 16, 128, 255):
        refused(5, "privilege, class %d" % cls, privilege(cls=cls), at=(PRIVILEGES, 0))
    for bit in range(8):
        if bit < 4:
            tidy("privilege, emission bit %d" % bit, privilege(flags=1, emissions=1 << bit))
        else:
            refused(5, "privilege, emission bit %d" % bit, privilege(flags=1, emissions=1 << bit),
                    at=(PRIVILEGES, 0))
        if bit > 1:
            refused(5, "privilege, flag bit %d" % bit, privilege(flags=1 << bit),
                    at=(PRIVILEGES, 0))
    refused(5, "privilege, emission bit 0, flags clear", privilege(emissions=1), at=(PRIVILEGES, 0))
    refused(5, "privilege, emission bit 3, the other flag set", privilege(flags=2, emissions=8),
            at=(PRIVILEGES, 0))
    tidy("privilege, empty emission list", privilege(flags=1))
    tidy("privilege, all emissions listed", privilege(flags=1, emissions=15))
    refused(5, "privilege, emission bits 31", privilege(flags=1, emissions=31), at=(PRIVILEGES, 0))
    tidy("privilege, rule", privilege(flags=2, rule=65535))
    tidy("privilege, rule 0", privilege(flags=2))
    refused(5, "privilege, rule's low byte, flag clear", privilege(flags=1, rule=1),
            at=(PRIVILEGES, 0))
    refused(5, "privilege, rule's high byte, flag clear", privilege(flags=1, rule=256),
            at=(PRIVILEGES, 0))
    refused(5, "privilege, second rule", privilege(flags=3, rule=1, second=1), at=(PRIVILEGES, 0))

    # Power.
    def power(**fields):
        return with_table(POWER, [record(-64.0, 64.0, figure=128.0, **fields)])
    for bit in range(8):
        if bit < 5:
            tidy("power, class bit %d" % bit, power(flags=1, cls=1 << bit))
        else:
            refused(5, "power, class bit %d" % bit, power(flags=1, cls=1 << bit), at=(POWER, 0))
        if bit > 0:
            refused(5, "power, flag bit %d" % bit, power(flags=1 << bit), at=(POWER, 0))
    refused(5, "power, class bit 4, flag clear", power(cls=16), at=(POWER, 0))
    tidy("power, no class", power(flags=1))
    tidy("power, all classes", power(flags=1, cls=31))
    refused(5, "power, class bits 63", power(flags=1, cls=63), at=(POWER, 0))
    tidy("power, rule 65,535", power(rule=65535))
    refused(5, "power, second rule", power(second=1), at=(POWER, 0))

    # Plan.
    for t in (PLAN_DATA, PLAN_AVOID):
        tidy("%s, label 65,535" % NAMES[t], with_table(t, [record(0.0, 1.0, rule=65535)]))
        refused(5, "%s, flag bit 1" % NAMES[t], with_table(t, [record(flags=2)]), at=(t, 0))


# ---------------------------------------------------------------------------------------------
# 6

def general_figures():
    base = image(general(flags=ELSEWHERE | CHANNEL_PART), bands=[BAND], segments=[SEGMENT])
    # By hand: the data limit must be positive (14), the rest may be any figure.
    good = [("2^40", TWO40, 0), ("-2^40", MINUS_TWO40, 14), ("before 2^40", BELOW_TWO40, 0),
            ("zero", 0, 14), ("smallest", SMALLEST, 0), ("-smallest", MINUS_SMALLEST, 14),
            ("last subnormal", LAST_SUBNORMAL, 0)]
    for field, name in ((0, "data limit"), (8, "elsewhere limit"), (16, "width"), (24, "offset"),
                        (32, "tolerance")):
        for what, bits in BAD_FIGURES if field == 0 else BAD_FIGURES[:6]:
            refused(6, "%s %s" % (name, what), base, (field, f64(bits)), at=GENERAL)
        for what, bits, number in good:
            if field == 0 and number:
                refused(number, "%s %s" % (name, what), base, (0, f64(bits)))
            elif field == 0 or bits in (TWO40, MINUS_TWO40, MINUS_SMALLEST):
                tidy("%s %s" % (name, what), base, (field, f64(bits)))


def record_figures():
    # By hand: what 2^40, -2^40, the smallest subnormal and its negative come to in each figure of
    # the records of `thrice` (a segment's figure under flag 1).
    expected = {
        (BANDS, 0): (7, 0, 0, 0), (BANDS, 8): (0, 7, 0, 0),
        (SEGMENTS, 0): (8, 12, 0, 0), (SEGMENTS, 8): (12, 8, 0, 0), (SEGMENTS, 16): (0, 13, 0, 13),
        (CHANNELS, 0): (0, 0, 0, 0),
        (PRIVILEGES, 0): (10, 0, 0, 0), (PRIVILEGES, 8): (0, 10, 0, 0),
        (AUTOMATIC, 0): (9, 0, 0, 0), (AUTOMATIC, 8): (0, 9, 0, 0),
        (POWER, 0): (0, 0, 0, 0), (POWER, 8): (0, 0, 0, 0), (POWER, 16): (0, 0, 0, 0),
        (PLAN_DATA, 0): (0, 0, 0, 0), (PLAN_DATA, 8): (0, 0, 0, 0),
        (PLAN_AVOID, 0): (0, 0, 0, 0), (PLAN_AVOID, 8): (0, 0, 0, 0),
    }
    turn = 0
    for (t, field), numbers in expected.items():
        base = thrice(t)
        if (t, field) == (SEGMENTS, 16):
            base = with_table(t, [record(-1024.0, 1024.0, figure=4.0, flags=1)] * 3)
        accepted = untidy if t in (BANDS, SEGMENTS, PRIVILEGES) else tidy
        # Just above 2^40 in the first, the middle and the last record.
        for which in range(3):
            bits = ABOVE if (which + field // 8) % 2 == 0 else MINUS_ABOVE
            refused(6, "%s %d, figure at %d just too great" % (NAMES[t], which, field), base,
                    (place(base, t, which) + field, f64(bits)), at=(t, which))
        # Negative zero, an infinity and a NaN, the record going round.
        for what, bits in (BAD_FIGURES[2], BAD_FIGURES[3 + turn % 2], BAD_FIGURES[5 + turn % 4]):
            turn += 1
            refused(6, "%s %d, figure at %d %s" % (NAMES[t], turn % 3, field, what), base,
                    (place(base, t, turn % 3) + field, f64(bits)), at=(t, turn % 3))
        for (what, bits), number in zip((("2^40", TWO40), ("-2^40", MINUS_TWO40),
                                         ("smallest", SMALLEST), ("-smallest", MINUS_SMALLEST)),
                                        numbers):
            if bits == SMALLEST and (t, field) != (SEGMENTS, 16):
                continue                         # the negative one is enough there
            turn += 1
            name = "%s %d, figure at %d %s" % (NAMES[t], turn % 3, field, what)
            edit = (place(base, t, turn % 3) + field, f64(bits))
            if number:
                refused(number, name, base, edit, at=(t, turn % 3))
            else:
                accepted(name, base, edit)


# ---------------------------------------------------------------------------------------------
# 7 to 10, and the ranges that nothing checks

def ranges():
    numbers = {BANDS: 7, SEGMENTS: 8, AUTOMATIC: 9, PRIVILEGES: 10}
    for t, number in numbers.items():
        base = thrice(t)
        accepted = tidy if t == AUTOMATIC else untidy
        for which in range(3):
            at = place(base, t, which)
            refused(number, "%s %d, low = high" % (NAMES[t], which), base,
                    (at, f64(100.0) + f64(100.0)), at=(t, which))
        at = place(base, t, 1)
        refused(number, "%s, low > high" % NAMES[t], base, (at, f64(100.0) + f64(99.875)),
                at=(t, 1))
        refused(number, "%s, low = high = 0" % NAMES[t], base, (at, bytes(16)), at=(t, 1))
        refused(number, "%s, low one ulp above high" % NAMES[t], base,
                (at, f64(ulp(100.0)) + f64(100.0)), at=(t, 1))
        refused(number, "%s, -100 to -200" % NAMES[t], base, (at, f64(-100.0) + f64(-200.0)),
                at=(t, 1))
        refused(number, "%s, 0 to -smallest" % NAMES[t], base, (at, f64(0) + f64(MINUS_SMALLEST)),
                at=(t, 1))
        accepted("%s, high one ulp above low" % NAMES[t], base,
                 (at, f64(100.0) + f64(ulp(100.0))))
        accepted("%s, -200 to -100" % NAMES[t], base, (at, f64(-200.0) + f64(-100.0)))
        accepted("%s, 0 to smallest" % NAMES[t], base, (at, f64(0) + f64(SMALLEST)))
        accepted("%s, -smallest to 0" % NAMES[t], base, (at, f64(MINUS_SMALLEST) + f64(0)))
        refused(number, "%s alone, of zero bytes" % NAMES[t],
                with_table(t, [bytes(24) + PLAIN[t][24:]]), at=(t, 0))
    for t in (POWER, PLAN_DATA, PLAN_AVOID):
        base = thrice(t)
        for which in (0, 2):
            at = place(base, t, which)
            tidy("%s %d, low = high" % (NAMES[t], which), base, (at, f64(100.0) + f64(100.0)))
            tidy("%s %d, low > high" % (NAMES[t], which), base, (at, f64(100.0) + f64(-100.0)))
        tidy("%s of zero bytes" % NAMES[t], with_table(t, [bytes(32)]))
        tidy("%s far from every band" % NAMES[t], base, (at, f64(1.0e9) + f64(2.0e9)))
    tidy("a channel at 0, low = high", with_table(CHANNELS, [bytes(32)]))
    tidy("a channel at 64, low > high", with_table(CHANNELS, [record(64.0)]))
    tidy("a channel below 0", with_table(CHANNELS, [record(-64.0)]))
    tidy("a channel in no band", with_table(CHANNELS, [record(1.0e9)]))
    tidy("power of no watts", with_table(POWER, [record(0.0, 1.0)]))
    tidy("power of negative watts", with_table(POWER, [record(0.0, 1.0, figure=-1.0)]))
    tidy("widest band", image(bands=[record(MINUS_TWO40, TWO40)], segments=[record(MINUS_TWO40, TWO40)]))
    tidy("thinnest band at 2^40", image(bands=[record(BELOW_TWO40, TWO40)],
                                        segments=[record(BELOW_TWO40, TWO40)]))
    tidy("thinnest band at 0", image(bands=[record(0, SMALLEST)], segments=[record(0, SMALLEST)]))


# ---------------------------------------------------------------------------------------------
# 11, 12, 13, 14

def bands_and_segments():
    refused(11, "no bands, one segment", image(segments=[SEGMENT]))
    refused(11, "one band, no segments", image(bands=[BAND]))
    refused(11, "three bands, no segments", image(bands=[BAND] * 3))
    refused(11, "no bands, three segments", image(segments=[SEGMENT] * 3))
    refused(11, "neither, a privilege and an automatic segment",
            image(privileges=[PLAIN[PRIVILEGES]], automatic=[PLAIN[AUTOMATIC]]))

    def segment(lo, hi, *bands):
        bands = bands or ((100.0, 200.0, 1),)
        return image(bands=[record(l, h, band=n) for l, h, n in bands],
                     segments=[record(lo, hi, band=1)])
    tidy("segment inside", segment(120.0, 180.0))
    tidy("segment is the band", segment(100.0, 200.0))
    tidy("segment touches the lower end", segment(100.0, 150.0))
    tidy("segment touches the upper end", segment(150.0, 200.0))
    tidy("segment one ulp inside below", segment(ulp(100.0), 200.0))
    tidy("segment one ulp inside above", segment(100.0, ulp(200.0, -1)))
    refused(12, "segment one ulp out below", segment(ulp(100.0, -1), 200.0), at=(SEGMENTS, 0))
    refused(12, "segment one ulp out above", segment(100.0, ulp(200.0)), at=(SEGMENTS, 0))
    refused(12, "segment an eighth out below", segment(99.875, 150.0), at=(SEGMENTS, 0))
    refused(12, "segment an eighth out above", segment(150.0, 200.125), at=(SEGMENTS, 0))
    refused(12, "segment around the band", segment(50.0, 300.0), at=(SEGMENTS, 0))
    refused(12, "segment below the band", segment(0.0, 50.0), at=(SEGMENTS, 0))
    refused(12, "segment touches the band from below", segment(50.0, 100.0), at=(SEGMENTS, 0))
    refused(12, "segment touches the band from above", segment(200.0, 300.0), at=(SEGMENTS, 0))
    refused(12, "segment above the band", segment(300.0, 400.0), at=(SEGMENTS, 0))
    refused(12, "segment below zero", segment(-150.0, -120.0), at=(SEGMENTS, 0))
    refused(12, "segment over two touching bands",
            segment(150.0, 250.0, (100.0, 200.0, 1), (200.0, 300.0, 1)), at=(SEGMENTS, 0))
    refused(12, "segment over two overlapping bands",
            segment(110.0, 240.0, (100.0, 200.0, 1), (150.0, 250.0, 1)), at=(SEGMENTS, 0))
    tidy("segment in the second of two bands",
         segment(250.0, 300.0, (100.0, 200.0, 2), (200.0, 300.0, 1)))
    tidy("segment in the third of three bands",
         segment(350.0, 360.0, (100.0, 200.0, 2), (200.0, 300.0, 1), (300.0, 400.0, 1)))
    untidy("segment in a band of another number",
           segment(150.0, 160.0, (100.0, 200.0, 2), (200.0, 300.0, 1)))
    three = image(bands=[record(100.0, 200.0, band=1)],
                  segments=[record(100.0 + 10 * i, 110.0 + 10 * i, band=1) for i in range(3)])
    tidy("three segments, touching", three)
    for which in range(3):
        refused(12, "segment %d of three out" % which, three,
                (place(three, SEGMENTS, which), f64(300.0) + f64(310.0)), at=(SEGMENTS, which))
        refused(12, "segment %d of three across the end" % which, three,
                (place(three, SEGMENTS, which), f64(180.0) + f64(210.0)), at=(SEGMENTS, which))


def limits():
    three = image(bands=[record(100.0, 200.0, band=1)],
                  segments=[record(100.0 + 10 * i, 110.0 + 10 * i, figure=4.0, band=1, flags=1)
                            for i in range(3)])
    tidy("three segments with own limits", three)
    for which in (0, 2):
        at = place(three, SEGMENTS, which) + 16
        refused(13, "own limit 0 in segment %d" % which, three, (at, f64(0)), at=(SEGMENTS, which))
        refused(13, "own limit -smallest in segment %d" % which, three, (at, f64(MINUS_SMALLEST)),
                at=(SEGMENTS, which))
        tidy("own limit smallest in segment %d" % which, three, (at, f64(SMALLEST)))
        tidy("own limit 0, flag clear, in segment %d" % which, three, (at, f64(0)), (at + 11, [0]))
        tidy("own limit 0, second rule's flag alone, in segment %d" % which, three, (at, f64(0)),
             (at + 11, [2]))
    refused(14, "general limit 0", MINIMAL, (0, f64(0)))
    refused(14, "general limit -1", MINIMAL, (0, f64(-1.0)))
    refused(14, "general limit -smallest", MINIMAL, (0, f64(MINUS_SMALLEST)))
    tidy("general limit smallest", MINIMAL, (0, f64(SMALLEST)))
    tidy("general limit 2^40", MINIMAL, (0, f64(TWO40)))
    refused(14, "general limit 0, every segment with its own", three, (0, f64(0)))
    tidy("elsewhere limit -1, width -1, offset -1, tolerance -1",
         image(general(elsewhere=-1.0, width=-1.0, offset=-1.0, tolerance=-1.0, flags=5),
               bands=[BAND], segments=[SEGMENT]))


# ---------------------------------------------------------------------------------------------
# Several faults at once

def faulty(*faults):
    """An image with these faults, each in the place that least favours its number: low numbers
    far back, high ones at the front. 11 is "no segments" unless another fault needs them."""
    bands = [BAND]
    segments = [SEGMENT]
    privileges = []
    automatic = []
    power = []
    data = 2.0
    if 14 in faults:
        data = -2.0
    if 13 in faults:
        segments = [record(-1024.0, 1024.0, flags=1)]
    if 12 in faults:
        segments.append(record(4096.0, 8192.0))
    if 10 in faults:
        privileges.append(record(64.0, 64.0, cls=2))
    if 9 in faults:
        automatic.append(record(64.0, 32.0))
    if 8 in faults:
        segments.append(record(64.0, 64.0))
    if 7 in faults:
        bands.append(record(64.0, 64.0))
    if 11 in faults:
        if {8, 12, 13} & set(faults):
            bands = []
        else:
            segments = []
    if 6 in faults:
        power.append(record(0.0, 1.0, figure=QUIET_NAN))
    if 5 in faults:
        power.append(record(0.0, 1.0, second=1))
    right = image(general(data=data), bands=bands, segments=segments, privileges=privileges,
                  automatic=automatic, power=power)
    slack = bytes(65600 - len(right)) if 1 in faults else b""
    whole = right[:-28] + slack + right[-28:]
    at = len(whole) - 28
    if 4 in faults:
        whole = whole[:at + 18] + bytes([whole[at + 18] ^ 1]) + whole[at + 19:]
    if 3 in faults:
        whole = whole[:at + 22] + b"\x03" + whole[at + 23:]
    if 2 in faults:
        whole = whole[:-1] + b"Y"
    return whole


def faulty_place(*faults):
    """Where the first of them stands in that image."""
    return {5: (POWER, 1 if 6 in faults else 0), 6: (POWER, 0), 7: (BANDS, 1),
            8: (SEGMENTS, 2 if 12 in faults else 1), 9: (AUTOMATIC, 0), 10: (PRIVILEGES, 0),
            12: (SEGMENTS, 1), 13: (SEGMENTS, 0)}.get(faults[0], NOWHERE)


def faults_together():
    tidy("the faulty image without a fault", faulty())
    for n in range(1, 15):
        refused(n, "fault %d alone" % n, faulty(n), at=faulty_place(n))
    for a in range(1, 15):
        for b in [b for b in range(a + 1, 15) if b <= a + 3 or b in (7, 14)]:
            refused(a, "faults %d and %d" % (a, b), faulty(a, b), at=faulty_place(a, b))
    for a in (2, 3, 4, 5, 6, 8, 9, 10, 11, 12):
        refused(a, "faults %d to 14" % a, faulty(*range(a, 15)), at=faulty_place(*range(a, 15)))

    # Some by hand, at both ends of the image.
    base = thrice(PLAN_AVOID)
    last = place(base, PLAN_AVOID, 2)
    refused(6, "6 in the last record, 7 in the first", base, (64, f64(1.0) + f64(1.0)),
            (last + 8, f64(QUIET_NAN)), at=(PLAN_AVOID, 2))
    refused(5, "5 in the last byte of the last record, 6 in the data limit", base,
            (last + 31, [1]), (0, f64(QUIET_NAN)), at=(PLAN_AVOID, 2))
    refused(5, "5 in the last record, 6 in the first", base, (last + 16, f64(NEG_ZERO)),
            (64, f64(INFINITY)), at=(PLAN_AVOID, 2))
    refused(4, "4 in the distance, 5 in byte 63", base, (len(base) - 10, [0]), (63, [1]))
    refused(3, "3 and a count of 257", base, (len(base) - 28, [1, 1]), (len(base) - 6, [0]))
    refused(2, "2 and 3", base, (len(base) - 1, [0]), (len(base) - 6, [0]))
    refused(6, "6 in the last record, 14", base, (last, f64(MINUS_ABOVE)), (0, f64(0)),
            at=(PLAN_AVOID, 2))
    refused(6, "6 by negative zero as a band's low, 7", base, (64, f64(NEG_ZERO) + f64(0)),
            at=(BANDS, 0))
    refused(6, "6 by a NaN high, which no comparison orders", base, (72, f64(QUIET_NAN)),
            at=(BANDS, 0))
    refused(6, "6 by negative zero as own limit, 13",
            with_table(SEGMENTS, [record(-512.0, 512.0, figure=NEG_ZERO, flags=1)]),
            at=(SEGMENTS, 0))
    refused(6, "6 by negative zero as data limit, 14", MINIMAL, (0, f64(NEG_ZERO)), at=GENERAL)
    refused(9, "9 in the last automatic segment, 10 in the first privilege",
            image(bands=[BAND], segments=[SEGMENT], privileges=[record(1.0, 1.0)],
                  automatic=[PLAIN[AUTOMATIC], record(1.0, 1.0)]), at=(AUTOMATIC, 1))
    refused(11, "11 by no bands: no band holds the segment either (12)", image(segments=[SEGMENT]))
    refused(12, "12 in the last segment, 13 in the first",
            with_table(SEGMENTS, [record(-512.0, 512.0, flags=1), SEGMENT, record(1.0, 2048.0)]),
            at=(SEGMENTS, 2))
    refused(8, "8 in a segment in no band", with_table(SEGMENTS, [SEGMENT, record(4096.0, 4096.0)]),
            at=(SEGMENTS, 1))
    refused(7, "7 in the only band, which leaves the segment in none (12)",
            image(bands=[bytes(32)], segments=[SEGMENT]), at=(BANDS, 0))
    refused(1, "1 by an empty image, every other part missing", b"")


# ---------------------------------------------------------------------------------------------
# The first place of several

def first_places():
    def threes(*ts, flags=CHANNEL_PART | PLAN):
        """Three records in each of these tables, one band and one segment otherwise."""
        tables = {"bands": [BAND], "segments": [SEGMENT]}
        tables.update((NAMES[t], [PLAIN[t]] * 3) for t in ts)
        return image(general(flags=flags), **tables)

    def unused(base, t, i):
        return place(base, t, i) + (25 if t == SEGMENTS else 31), [1]

    def huge(base, t, i):
        return place(base, t, i), f64(ABOVE)

    def short(base, t, i):
        return place(base, t, i), f64(64.0) + f64(64.0)

    # The lower table comes first, whatever the index; in a table the lower index.
    for t in range(8):
        two = threes(t, t + 1)
        refused(5, "5 in %s 2 and in %s 0" % (NAMES[t], NAMES[t + 1]), two, unused(two, t, 2),
                unused(two, t + 1, 0), at=(t, 2))
        if EXCLUDED not in (t, t + 1):
            refused(6, "6 in %s 2 and in %s 0" % (NAMES[t], NAMES[t + 1]), two, huge(two, t, 2),
                    huge(two, t + 1, 0), at=(t, 2))
    for t in range(9):
        one = threes(t)
        refused(5, "5 in %s 1 and 2" % NAMES[t], one, unused(one, t, 1), unused(one, t, 2), at=(t, 1))
        if t != EXCLUDED:
            refused(6, "6 in %s 1 and 2" % NAMES[t], one, huge(one, t, 1), huge(one, t, 2), at=(t, 1))
            refused(5, "5 in %s 2, 6 in 0" % NAMES[t], one, unused(one, t, 2), huge(one, t, 0),
                    at=(t, 2))

    # The general block comes before every record.
    base = threes(PLAN_AVOID)
    for where, i in ((BANDS, 0), (PLAN_AVOID, 2)):
        refused(5, "5 in byte 63 and in %s %d" % (NAMES[where], i), base, (63, [1]),
                unused(base, where, i), at=GENERAL)
        refused(6, "6 in the data limit and in %s %d" % (NAMES[where], i), base, (0, f64(ABOVE)),
                huge(base, where, i), at=GENERAL)
    refused(6, "6 in the tolerance and in the first band", base, (32, f64(NEG_ZERO)),
            huge(base, BANDS, 0), at=GENERAL)
    refused(5, "5 in the last record, 6 in the tolerance", base, unused(base, PLAN_AVOID, 2),
            (32, f64(NEG_ZERO)), at=(PLAN_AVOID, 2))

    # Tables of absent parts stand in the order of the tables, each with its first record.
    both = threes(CHANNELS, PLAN_DATA, flags=0)
    refused(5, "both parts absent", both, at=(CHANNELS, 0))
    refused(5, "both parts absent, a field of the channels", both, (16, [1]), at=GENERAL)
    refused(5, "both parts absent, flag bit 7", both, (42, [128]), at=GENERAL)
    refused(5, "both parts absent, response without elsewhere", both, (42, [RESPONSE]), at=GENERAL)
    refused(5, "both parts absent, 6 in the first channel", both, huge(both, CHANNELS, 0),
            at=(CHANNELS, 0))
    refused(5, "both parts absent, 6 in the data limit", both, (0, f64(ABOVE)), at=(CHANNELS, 0))
    refused(5, "channels alone absent", both, (42, [PLAN]), at=(CHANNELS, 0))
    refused(5, "plan alone absent", both, (42, [CHANNEL_PART]), at=(PLAN_DATA, 0))
    refused(5, "plan alone absent, 5 in the last channel", both, (42, [CHANNEL_PART]),
            unused(both, CHANNELS, 2), at=(CHANNELS, 2))
    channels = threes(SEGMENTS, CHANNELS, PRIVILEGES, flags=PLAN)
    refused(5, "channels absent, 5 in channel 2", channels, unused(channels, CHANNELS, 2),
            at=(CHANNELS, 0))
    refused(5, "channels absent, 5 in the last segment", channels, unused(channels, SEGMENTS, 2),
            at=(SEGMENTS, 2))
    refused(5, "channels absent, 5 in the first privilege", channels,
            unused(channels, PRIVILEGES, 0), at=(CHANNELS, 0))
    plan = threes(POWER, PLAN_DATA, PLAN_AVOID, flags=0)
    refused(5, "plan absent, 5 in the last power record", plan, unused(plan, POWER, 2),
            at=(POWER, 2))
    refused(5, "plan absent, 5 in plan_data 1", plan, unused(plan, PLAN_DATA, 1), at=(PLAN_DATA, 0))
    refused(5, "plan absent, 5 in plan_avoid 1", plan, unused(plan, PLAN_AVOID, 1), at=(PLAN_DATA, 0))
    avoid = threes(PLAN_AVOID, flags=0)
    refused(5, "plan absent, plan_avoid alone", avoid, at=(PLAN_AVOID, 0))
    refused(5, "plan absent, plan_avoid alone, 5 in the segment", avoid, unused(avoid, SEGMENTS, 0),
            at=(SEGMENTS, 0))

    # 7 to 10, 12 and 13: the first of the number's own table.
    for t, number in ((BANDS, 7), (SEGMENTS, 8), (AUTOMATIC, 9), (PRIVILEGES, 10)):
        one = threes(t)
        for i in (0, 1):
            refused(number, "%d in %s %d and 2" % (number, NAMES[t], i), one, short(one, t, i),
                    short(one, t, 2), at=(t, i))
    two = threes(PRIVILEGES, AUTOMATIC)
    refused(9, "9 in the last of three automatic segments, 10 in the first of three privileges", two,
            short(two, AUTOMATIC, 2), short(two, PRIVILEGES, 0), at=(AUTOMATIC, 2))

    inside = record(-8.0, 8.0, figure=4.0, flags=1)
    out = record(2048.0, 4096.0)
    bare = record(-8.0, 8.0, flags=1)
    out_and_bare = record(2048.0, 4096.0, flags=1)

    def segments(number, name, records, i):
        refused(number, name, with_table(SEGMENTS, records), at=(SEGMENTS, i))
    segments(12, "12 in segments 0 and 2", [out, SEGMENT, out], 0)
    segments(12, "12 in segments 1 and 2", [SEGMENT, out, out], 1)
    segments(12, "12 in segment 2, 13 in 0", [bare, SEGMENT, out], 2)
    segments(12, "12 and 13 in segment 1, 13 in 0", [bare, out_and_bare, out], 1)
    segments(13, "13 in segments 0 and 2", [bare, SEGMENT, bare], 0)
    segments(13, "13 in segments 1 and 2", [SEGMENT, bare, bare], 1)
    segments(13, "13 in segment 2, an own limit in 0", [inside, SEGMENT, bare], 2)


# ---------------------------------------------------------------------------------------------
# Tidy

def two_of(table, pair, classes=(2, 2)):
    """An image in whose table the two ranges stand (with whatever it takes to be accepted)."""
    (l0, h0), (l1, h1) = pair
    if table == BANDS:
        return image(bands=[record(l0, h0, band=1), record(l1, h1, band=2)],
                     segments=[record(l0, h0, band=1)])
    if table == SEGMENTS:
        return image(bands=[record(-1024.0, 1024.0, band=1)],
                     segments=[record(l0, h0, band=1), record(l1, h1, band=1)])
    return image(bands=[BAND], segments=[SEGMENT],
                 privileges=[record(l0, h0, cls=classes[0]), record(l1, h1, cls=classes[1])])


def tidy_ranges():
    one = (100.0, 200.0)
    relations = [
        ("apart", (300.0, 400.0), 1),
        ("touching above", (200.0, 300.0), 1), ("touching below", (50.0, 100.0), 1),
        ("one ulp apart", (ulp(200.0), 300.0), 1),
        ("an eighth shared above", (199.875, 300.0), 0),
        ("an eighth shared below", (50.0, 100.125), 0),
        ("one ulp shared above", (ulp(200.0, -1), 300.0), 0),
        ("one ulp shared below", (50.0, ulp(100.0)), 0),
        ("alike", (100.0, 200.0), 0), ("inside", (120.0, 130.0), 0), ("around", (50.0, 300.0), 0),
        ("inside, same low", (100.0, 150.0), 0), ("around, same high", (50.0, 200.0), 0),
        ("thin, inside", (150.0, ulp(150.0)), 0), ("thin, above the end", (200.0, ulp(200.0)), 1),
        ("thin, below the end", (ulp(200.0, -1), 200.0), 0),
    ]
    for t in (BANDS, SEGMENTS, PRIVILEGES):
        for what, other, answer in relations:
            (tidy if answer else untidy)("two %s, second %s" % (NAMES[t], what),
                                         two_of(t, (one, other)))
        tidy("two %s, touching at 0" % NAMES[t], two_of(t, ((-1.0, 0.0), (0.0, 1.0))))
        untidy("two %s, sharing the smallest stretch" % NAMES[t],
               two_of(t, ((-1.0, SMALLEST), (0.0, 1.0))))
        untidy("two %s, sharing the smallest stretch below 0" % NAMES[t],
               two_of(t, ((-1.0, 0.0), (MINUS_SMALLEST, 1.0))))
        tidy("two %s below 0, touching" % NAMES[t], two_of(t, ((-100.0, -50.0), (-50.0, 100.0))))

    # Bands of one number, too.
    for what, other, answer in [r for r in relations if r[0] in ("touching above", "alike",
                                                                 "an eighth shared above")]:
        (tidy if answer else untidy)(
            "two bands of one number, second %s" % what,
            image(bands=[record(100.0, 200.0, band=1), record(*other, band=1)],
                  segments=[record(120.0, 150.0, band=1)]))

    # The sharing pair at several places of two, three and five.
    pairs = {2: [(0, 1)], 3: [(0, 1), (0, 2), (1, 2)], 5: [(0, 1), (0, 4), (1, 3), (3, 4)]}
    for t in (BANDS, SEGMENTS, PRIVILEGES):
        for n in (2, 3, 5):
            spans = [(128.0 * k, 128.0 * k + 64.0) for k in range(n)]

            def build_spans(spans):
                if t == BANDS:
                    return image(bands=[record(l, h, band=1) for l, h in spans],
                                 segments=[record(8.0, 16.0, band=1)])
                if t == SEGMENTS:
                    return image(bands=[record(-1024.0, 1024.0, band=1)],
                                 segments=[record(l, h, band=1) for l, h in spans])
                return image(bands=[BAND], segments=[SEGMENT],
                             privileges=[record(l, h, cls=3) for l, h in spans])
            if n > 2:
                tidy("%d %s apart" % (n, NAMES[t]), build_spans(spans))
            if n == 5:
                tidy("5 %s apart, downwards" % NAMES[t], build_spans(list(reversed(spans))))
            for i, j in pairs[n]:
                changed = list(spans)
                edge = spans[i][1]
                changed[j] = (edge - 0.125, edge + 32.0)
                untidy("%s %d and %d of %d share an eighth" % (NAMES[t], i, j, n),
                       build_spans(changed))
                if n == 3:
                    changed[j] = (edge, edge + 32.0)
                    tidy("%s %d and %d of %d touch" % (NAMES[t], i, j, n), build_spans(changed))


def tidy_classes():
    alike = ((100.0, 200.0), (100.0, 200.0))
    for a in range(5):
        for b in range(a + 1):
            (untidy if a == b else tidy)("alike privileges of classes %d and %d" % (a, b),
                                         two_of(PRIVILEGES, alike, (a, b)))

    def classes(*numbers, spans=None):
        spans = spans or [(100.0, 200.0)] * len(numbers)
        return image(bands=[BAND], segments=[SEGMENT],
                     privileges=[record(l, h, cls=c) for c, (l, h) in zip(numbers, spans)])
    tidy("five classes, one range", classes(0, 1, 2, 3, 4))
    untidy("classes 2, 3, 2, one range", classes(2, 3, 2))
    untidy("classes 0, 1, 2, 3, 4, 0, one range", classes(0, 1, 2, 3, 4, 0))
    untidy("classes 4, 0, 1, 2, 4, one range", classes(4, 0, 1, 2, 4))
    untidy("classes 1, 4, 4, one range", classes(1, 4, 4))
    tidy("classes 2, 3, 2, the equal ones touching",
         classes(2, 3, 2, spans=[(100.0, 200.0), (150.0, 250.0), (200.0, 300.0)]))
    untidy("classes 2, 3, 2, the equal ones sharing an eighth",
           classes(2, 3, 2, spans=[(100.0, 200.0), (150.0, 250.0), (199.875, 300.0)]))
    untidy("emission lists and rules don't part privileges",
           image(bands=[BAND], segments=[SEGMENT],
                 privileges=[record(1.0, 2.0, cls=2, flags=1, emissions=1),
                             record(1.0, 2.0, cls=2, flags=3, emissions=2, rule=6)]))


def tidy_homes():
    def home(bands, segments):
        return image(bands=[record(l, h, band=n) for l, h, n in bands],
                     segments=[record(l, h, band=n) for l, h, n in segments])
    tidy("two bands, a segment in each",
         home([(0.0, 100.0, 1), (100.0, 200.0, 2)], [(0.0, 100.0, 1), (100.0, 200.0, 2)]))
    untidy("two bands, numbers of the segments exchanged",
           home([(0.0, 100.0, 1), (100.0, 200.0, 2)], [(0.0, 100.0, 2), (100.0, 200.0, 1)]))
    untidy("first of two segments away", home([(0.0, 100.0, 1), (100.0, 200.0, 2)],
                                              [(0.0, 50.0, 2), (150.0, 200.0, 2)]))
    untidy("last of two segments away", home([(0.0, 100.0, 1), (100.0, 200.0, 2)],
                                             [(0.0, 50.0, 1), (150.0, 200.0, 1)]))
    untidy("middle of three segments away", home([(0.0, 100.0, 1), (100.0, 200.0, 2)],
                                                 [(0.0, 50.0, 1), (50.0, 60.0, 2), (150.0, 200.0, 2)]))
    untidy("no band of the segment's number", home([(0.0, 100.0, 1)], [(0.0, 50.0, 3)]))
    untidy("numbers 1 and 129", home([(0.0, 100.0, 1)], [(0.0, 50.0, 129)]))
    untidy("numbers 0 and 255", home([(0.0, 100.0, 0)], [(0.0, 50.0, 255)]))
    untidy("numbers 1 and 2", home([(0.0, 100.0, 1)], [(0.0, 50.0, 2)]))
    tidy("two bands of one number, segment in the first",
         home([(0.0, 100.0, 7), (100.0, 200.0, 7)], [(0.0, 50.0, 7)]))
    tidy("two bands of one number, segment in the second",
         home([(0.0, 100.0, 7), (100.0, 200.0, 7)], [(150.0, 200.0, 7)]))
    untidy("own band too short, another holds it",
           home([(0.0, 100.0, 1), (0.0, 200.0, 2)], [(50.0, 150.0, 1)]))
    untidy("own band and another hold it", home([(0.0, 200.0, 2), (0.0, 100.0, 1)], [(50.0, 60.0, 1)]))
    tidy("segment is its band", home([(0.0, 100.0, 1)], [(0.0, 100.0, 1)]))
    refused(12, "own band short by an ulp, no other holds it",
            home([(0.0, 100.0, 1), (200.0, 300.0, 2)], [(0.0, ulp(100.0), 1)]), at=(SEGMENTS, 0))
    tidy("own limits don't matter", image(bands=[record(0.0, 100.0, band=1)],
                                          segments=[record(0.0, 50.0, figure=1.0, band=1, flags=1),
                                                    record(50.0, 100.0, figure=2.0, band=1, flags=1)]))
    untidy("own limits don't part segments",
           image(bands=[record(0.0, 100.0, band=1)],
                 segments=[record(0.0, 50.0, figure=1.0, band=1, flags=1),
                           record(0.0, 50.0, figure=2.0, band=1, flags=1)]))


def tidy_leaves_alone():
    """What tidy doesn't ask."""
    tidy("automatic segments alike", with_table(AUTOMATIC, [record(1.0, 2.0)] * 2))
    tidy("automatic segments overlapping", with_table(AUTOMATIC, [record(1.0, 3.0), record(2.0, 4.0)]))
    tidy("automatic segment outside every band", with_table(AUTOMATIC, [record(1.0e6, 2.0e6)]))
    tidy("automatic segment over the band's end", with_table(AUTOMATIC, [record(0.0, 2048.0)]))
    tidy("privilege outside every band", with_table(PRIVILEGES, [record(1.0e6, 2.0e6)]))
    tidy("privilege around the band", with_table(PRIVILEGES, [record(-4096.0, 4096.0)]))
    tidy("power ranges alike", with_table(POWER, [record(1.0, 2.0, figure=1.0)] * 2))
    tidy("plan areas alike", image(general(flags=PLAN), bands=[BAND], segments=[SEGMENT],
                                   plan_data=[record(1.0, 2.0)] * 2, plan_avoid=[record(1.0, 2.0)] * 2))
    tidy("channels alike", with_table(CHANNELS, [record(1.0)] * 2))
    tidy("excluded bands alike", with_table(EXCLUDED, [record(band=1)] * 2))
    tidy("excluded band that is none", with_table(EXCLUDED, [record(band=77)]))
    tidy("channel band that is none", image(general(flags=CHANNEL_PART, channel_band=77),
                                            bands=[BAND], segments=[SEGMENT]))


# ---------------------------------------------------------------------------------------------
# The practice table

def practice_table():
    tidy("the practice table", PRACTICE)
    refused(4, "the practice table, first byte missing", PRACTICE[1:])
    refused(2, "the practice table, last byte missing", PRACTICE[:-1])
    refused(2, "the practice table's first 92 bytes", PRACTICE[:92])
    refused(5, "the practice table without elsewhere's bit", PRACTICE, (42, [14]), at=GENERAL)
    tidy("the practice table with an empty plan", PRACTICE, (42, [31]))
    untidy("the practice table, second segment's number 20", PRACTICE, (160 + 24, [20]))
    refused(12, "the practice table, 60 m segment an eighth past the band", PRACTICE,
            (160 + 8, f64(5407000.125)), at=(SEGMENTS, 1))
    refused(9, "the practice table, second automatic segment turned round", PRACTICE,
            (320, f64(14112000.0) + f64(14100500.0)), at=(AUTOMATIC, 1))


# ---------------------------------------------------------------------------------------------
# Large images

def spread(starts, bodies):
    """Tables of 256 records, one after another from `starts[0]`: record 16a + b of each runs from
    F(a, b) to F(a, b + 1), F's 64 bits being 0x4110aabb00000000. Within one a they touch.
    `bodies` give each table's bytes from 24 on, by a."""
    patches = []
    for at, body in zip(starts, bodies):
        for a in range(16):
            edge = 0x4110000000000000 + (a << 40)
            whole = record(edge, edge)[:24] + body(a)
            patches.append((at + 512 * a + 5, whole[5:].rstrip(b"\0"), 16, 32))
    groups = 16 * len(starts)
    for b in range(16):
        if b:
            patches.append((starts[0] + 32 * b + 4, bytes([b]), groups, 512))
        patches.append((starts[0] + 32 * b + 12, bytes([b + 1]), groups, 512))
    return patches


def large():
    # The largest image, its bands, segments and privileges each 256 of their own place.
    counts = [256, 256, 0, 256, 256, 256, 256, 256, 253]
    length = 92 + 32 * sum(counts)
    assert length == 65532
    start = [64 + 32 * sum(counts[:t]) for t in range(9)]
    patches = patches_of(general(flags=PLAN))
    patches += spread([start[BANDS], start[SEGMENTS], start[PRIVILEGES]],
                      [lambda a: bytes([a + 1]), lambda a: bytes([a + 1]),
                       lambda a: bytes([0, a % 5])])
    for t in (AUTOMATIC, EXCLUDED, POWER, PLAN_DATA, PLAN_AVOID):
        body = PLAIN[t].lstrip(b"\0")
        patches.append((start[t] + 32 - len(body), body.rstrip(b"\0"), counts[t], 32))
    patches.append((length - 28, build.trailer(counts), 1, 28))
    whole = (length, patches)

    def at(t, i):
        return start[t] + 32 * i
    first = f64(0x4110000000000000) + f64(0x4110000100000000)    # the range of record 0
    edge = 0x41100F0F00000000                                    # where 254 and 255 touch
    tidy("the largest image, 2,045 records, tidy", whole)
    untidy("the largest image, last two bands share an ulp", whole, (at(BANDS, 254) + 8, f64(edge + 1)))
    untidy("the largest image, first and last segment alike", whole, (at(SEGMENTS, 255), first),
           (at(SEGMENTS, 255) + 24, [1]))
    untidy("the largest image, first and last privilege alike, of one class", whole,
           (at(PRIVILEGES, 255), first))

    # 2,045 records over all nine tables, alike within each.
    even = [227] * 8 + [229]
    tables = dict((NAMES[t], [PLAIN[t]] * even[t]) for t in range(9))
    alike = image(general(flags=CHANNEL_PART | PLAN), **tables)
    end = len(alike) - 28
    assert len(alike) == 65532
    untidy("2,045 records in nine tables", alike)
    refused(6, "2,045 records, NaN in the last", alike, (end - 32 + 8, f64(QUIET_NAN)),
            at=(PLAN_AVOID, 228))
    refused(5, "2,045 records, the last byte of the last", alike, (end - 1, [1]),
            at=(PLAN_AVOID, 228))
    refused(4, "2,045 records, the last not counted", alike, (end + 16, [228]))
    refused(4, "2,045 records, distance 65,536", alike, (end + 18, struct.pack("<I", 65536)))
    refused(7, "2,045 records, the last band of no width", alike,
            (place(alike, BANDS, 226) + 8, f64(-1024.0)), at=(BANDS, 226))
    refused(12, "2,045 records, the last segment one ulp past the bands", alike,
            (place(alike, SEGMENTS, 226) + 8, f64(ulp(1024.0))), at=(SEGMENTS, 226))
    refused(10, "2,045 records, the last privilege of no width", alike,
            (place(alike, PRIVILEGES, 226), f64(256.0)), at=(PRIVILEGES, 226))
    refused(9, "2,045 records, the last automatic segment of no width", alike,
            (place(alike, AUTOMATIC, 226), f64(128.0)), at=(AUTOMATIC, 226))


# ---------------------------------------------------------------------------------------------
# Edition 2 (document 02, 6)

def second_edition():
    second = build.raised(MINIMAL)
    front = len(second) - 28
    tidy("edition 2, the smallest", second)
    tidy("edition 2 with everything", build.raised(EVERYTHING))
    tidy("edition 2 with every usable byte set", build.raised(FULL, ONE, TWO))
    tidy("edition 2 of the practice table", build.raised(PRACTICE))
    untidy("edition 2, two alike bands", build.raised(with_table(BANDS, [BAND] * 2)))

    # "Its length is 108 to 65,552 bytes", "a length wrong for the edition meets 4"
    for length in (92, 93, 106, 107):
        refused(4, "edition 2 in %d bytes" % length,
                bytes(length - 28) + build.trailer([0] * 9, distance=length - 28, edition=2))
    refused(11, "edition 2 in 108 bytes, no records",
            bytes(80) + build.trailer([0] * 9, distance=80, edition=2))
    refused(4, "edition 2 in 108 bytes, distance 64",
            bytes(80) + build.trailer([0] * 9, distance=64, edition=2))
    refused(4, "edition 2, distance 16 short", second, (front + 18, struct.pack("<I", front - 16)))
    refused(4, "edition 2, distance 16 long", second, (front + 18, struct.pack("<I", front + 16)))
    refused(4, "edition 1 in edition 2's length", second, (front + 22, [1]))
    refused(3, "edition 3 in edition 2's length", second, (front + 22, [3]))
    refused(2, "edition 2, a letter", second, (front + 27, [64]))
    refused(4, "edition 2, one band more than there are", second, (front, [2]))
    refused(4, "edition 2, 257 automatic", build.raised(with_table(AUTOMATIC, [PLAIN[AUTOMATIC]] * 257)))
    untidy("edition 2, 256 bands", build.raised(with_table(BANDS, [BAND] * 256)))
    refused(2, "65,552 bytes of zero", bytes(65552))
    refused(1, "65,553 bytes of zero", bytes(65553))
    for edition in (1, 2):
        tail = build.trailer([256] * 7 + [253, 0], edition=edition)
        for length in (65533, 65536, 65537, 65549, 65552):
            refused(4, "edition %d in %d bytes, 2,045 records counted" % (edition, length),
                    bytes(length - 28) + tail)
        refused(1, "edition %d in 65,553 bytes, 2,045 records counted" % edition, bytes(65525) + tail)
    even = [227] * 8 + [229]
    alike = build.raised(image(general(flags=CHANNEL_PART | PLAN),
                               **dict((NAMES[t], [PLAIN[t]] * even[t]) for t in range(9))))
    assert len(alike) == 65548
    untidy("edition 2, 2,045 records in nine tables", alike)
    refused(6, "edition 2, 2,045 records, NaN in the last", alike, (len(alike) - 60 + 8, f64(QUIET_NAN)),
            at=(PLAN_AVOID, 228))
    refused(1, "edition 2, 2,046 records, agreeing",
            bytes(80 + 32 * 2046) + build.trailer([256] * 7 + [254, 0], distance=80 + 32 * 2046, edition=2))

    # The watts meet 6 alone, "with channels or without".
    for base in (second, build.raised(EVERYTHING)):
        for at, name in ((64, "channel watts"), (72, "segment watts")):
            for what, bits in BAD_FIGURES:
                refused(6, "edition 2, %s %s" % (name, what), base, (at, f64(bits)), at=GENERAL)
            for what, bits in (("zero", 0), ("2^40", TWO40), ("-2^40", MINUS_TWO40), ("-1", f64(-1.0)),
                               ("the smallest", SMALLEST), ("-the smallest", MINUS_SMALLEST)):
                tidy("edition 2, %s %s" % (name, what), base,
                     (at, bits if isinstance(bits, bytes) else f64(bits)))
    refused(5, "edition 2, watts a NaN and an unused byte of the last record", second,
            (64, f64(QUIET_NAN)), (front - 1, [1]), at=(SEGMENTS, 0))
    refused(6, "edition 2, watts a NaN and a band of no width", second,
            (72, f64(INFINITY)), (80 + 8, f64(-1024.0)), at=GENERAL)
    refused(6, "edition 2, a record's figure", second, (80, f64(QUIET_NAN)), at=(BANDS, 0))
    refused(7, "edition 2, a band of no width", second, (80 + 8, f64(-1024.0)), at=(BANDS, 0))
    refused(14, "edition 2, no general limit", second, (0, f64(0.0)))
    for byte in range(58, 64):
        refused(5, "edition 2, general byte %d is not zero" % byte, second, (byte, [1]), at=GENERAL)

    # Every bit of a small image of either edition, turned over.
    for name, data in (("edition 1", MINIMAL), ("edition 2", second)):
        for bit in range(8 * len(data)):
            free("%s, bit %d turned" % (name, bit), data, (bit // 8, [data[bit // 8] ^ 1 << bit % 8]))


# ---------------------------------------------------------------------------------------------
# Random images (fixed seed); no expectation by hand

class Dice:
    """A small generator of our own, so that no library decides the cases."""

    def __init__(self, seed):
        self.state = seed

    def below(self, n):
        self.state = (self.state * 6364136223846793005 + 1442695040888963407) % 2 ** 64
        return (self.state >> 33) % n


def random_tables():
    dice = Dice(1)
    for k in range(16):
        def span():
            lo = dice.below(12)
            return lo / 1.0, (lo + dice.below(5) + (0 if dice.below(16) == 0 else 1)) / 1.0

        def some(n):
            return range(dice.below(n))
        bands = [record(4.0 * i, 4.0 * i + 4.0 + (dice.below(8) == 0), band=i // 2) for i in range(3)]
        bands = bands[dice.below(8) == 0:]
        segments = []
        for _ in range(1 + dice.below(3)):
            i = dice.below(3)
            lo = 4.0 * i + dice.below(3)
            segments.append(record(lo, lo + 1.0 + (dice.below(4) == 0),
                                   band=i // 2 + (dice.below(12) == 0)))
        privileges = [record(*span(), cls=dice.below(5)) for _ in some(5)]
        automatic = [record(*span()) for _ in some(3)]
        free("random table %d" % k, image(bands=bands, segments=segments, privileges=privileges,
                                          automatic=automatic))


def random_damage():
    dice = Dice(2)
    for k in range(5):
        base = PRACTICE if k % 2 else EVERYTHING
        edits = []
        for _ in range(1 + dice.below(2)):
            where = dice.below(len(base) - (28 if dice.below(4) else 0))
            edits.append((where, [dice.below(256)]))
        free("random damage %d" % k, base, *edits)


# ---------------------------------------------------------------------------------------------
# Station cases

STATION_CASES = []                               # (name, 43 bytes, line)
FIGURES = ["lower", "upper", "dial", "power"]
CODES = ["policy", "control", "license", "sideband", "region", "plan", "dial_here", "power_here",
         "direction", "kind"]
ORDINARY = dict(policy=2, control=0, license=2, sideband=0, region=2, plan=0, dial_here=1,
                power_here=1, direction=0, kind=0, lower=50.0, upper=50.0, dial=14100000.0,
                power=100.0, image=1)


def to_bits(value):
    return value if isinstance(value, int) else struct.unpack("<Q", struct.pack("<d", value))[0]


def hex_or_absent(bits):
    return "absent" if bits is None else "%016x" % bits


def station_line(case):
    """The program's line, without the number."""
    record_part = dict((k, case[k]) for k in ("policy", "control", "license", "sideband", "region",
                                              "plan", "dial_here", "power_here"))
    for k in FIGURES:
        record_part[k] = to_bits(case[k])
    refusal, read = reference.read_station(record_part, case["direction"], case["kind"],
                                           len(PRACTICE) if case["image"] else 0)
    if refusal:
        return "refused %d" % refusal
    return ("policy %d control %d license %d sideband %d region %d plan %d dial %s power %s "
            "lower %s upper %s direction %d kind %d"
            % (read["policy"], read["control"], read["license"], read["sideband"], read["region"],
               read["plan"], hex_or_absent(read["dial"]), hex_or_absent(read["power"]),
               hex_or_absent(read["lower"]), hex_or_absent(read["upper"]), read["direction"],
               read["kind"]))


def station(name, hand, **changes):
    """`hand` is the expectation: a refusal's number, the pieces of the line that must be there
    (read; [] for none in particular), or None. A `margin` is both."""
    case = dict(ORDINARY)
    if "margin" in changes:
        changes["lower"] = changes["upper"] = changes.pop("margin")
    case.update(changes)
    line = station_line(case)
    if isinstance(hand, int):
        if line != "refused %d" % hand:
            raise SystemExit("station, %s: by hand %d, reference %s" % (name, hand, line))
    elif hand is not None:
        if line.startswith("refused") or not all(piece in line + " " for piece in hand):
            raise SystemExit("station, %s: by hand %s, reference %s" % (name, hand, line))
    code = bytes(case[k] for k in CODES)
    code += struct.pack("<QQQQ", *(to_bits(case[k]) for k in FIGURES))
    code += bytes([case["image"]])
    assert len(code) == 43
    STATION_CASES.append((name, code, line))


def read_as(figure, bits):
    """The piece of a line that has the figure; "margin" is both."""
    if figure == "margin":
        return "lower %016x upper %016x " % (bits, bits)
    return "%s %016x " % (figure, bits)


def station_cases():
    station("an ordinary station",
            ["policy 2 control 0 license 2 sideband 0 region 2 plan 0 dial 416ae4c400000000 "
             "power 4059000000000000 lower 4049000000000000 upper 4049000000000000 "
             "direction 0 kind 0 "])
    station("the fresh record",
            ["policy 0 control 255 license 255 sideband 255 region 2 plan 0 dial absent "
             "power absent lower 4049000000000000 upper 4049000000000000 direction 0 kind 0 "],
            policy=0, control=255, license=255, sideband=255, region=2, plan=0, dial_here=0,
            power_here=0, margin=0x4049000000000000, dial=0, power=0, image=0)
    station("a record of zero bytes isn't fresh",
            ["policy 0 control 0 license 0 sideband 0 region 0 plan 0 dial absent power absent "],
            policy=0, control=0, license=0, sideband=0, region=0, plan=0, dial_here=0,
            power_here=0, margin=0, dial=0, power=0, image=0)
    station("all bytes 255", 20, **dict((k, 255) for k in CODES), margin=FULL_NAN, dial=FULL_NAN,
            power=FULL_NAN)

    # By hand: the values of each code.
    values = {"policy": (0, 1, 2, 3), "control": (0, 1, 2, 255), "license": (0, 1, 2, 3, 4, 255),
              "sideband": (0, 1, 255), "region": tuple(range(256)), "plan": (0, 1),
              "dial_here": (0, 1), "power_here": (0, 1), "direction": (0, 1, 2, 3),
              "kind": (0, 1, 2, 3)}
    probes = (0, 1, 2, 3, 4, 5, 6, 7, 8, 15, 16, 127, 128, 253, 254, 255)
    words = {"dial_here": "dial", "power_here": "power"}
    for code in CODES:
        for value in probes:
            if value in values[code]:
                if code in words:
                    piece = "dial absent " if (code, value) == ("dial_here", 0) else \
                        "power absent " if (code, value) == ("power_here", 0) else words[code] + " 4"
                else:
                    piece = "%s %d " % (code, value)
                station("%s %d" % (code, value), [piece], **{code: value})
            else:
                station("%s %d" % (code, value), 20, **{code: value})

    # A wrong code is a wrong code under every policy; a figure likewise.
    for policy in range(4):
        for code, value in (("control", 3), ("license", 5), ("sideband", 2), ("plan", 2),
                            ("dial_here", 2), ("power_here", 2), ("direction", 4), ("kind", 4)):
            station("policy %d, %s %d" % (policy, code, value), 20, policy=policy, image=0,
                    **{code: value})
        for figure in ("margin", "dial", "power"):
            station("policy %d, %s just too great" % (policy, figure), 21, policy=policy, image=0,
                    **{figure: ABOVE})
        for picture in (0, 1):
            name = "policy %d, image flag %d" % (policy, picture)
            if policy == 2 and picture == 0:
                station(name, 22, policy=policy, image=picture)
            else:
                station(name, ["policy %d " % policy], policy=policy, image=picture)

    # Figures.
    bad = [p for p in BAD_FIGURES if p[1] != NEG_ZERO] + [("-largest", LARGEST | NEG_ZERO),
                                                         ("-2^41", TWO41 | NEG_ZERO)]
    good = [("2^40", TWO40), ("-2^40", MINUS_TWO40), ("before 2^40", BELOW_TWO40),
            ("before -2^40", BELOW_TWO40 | NEG_ZERO), ("zero", 0), ("smallest", SMALLEST),
            ("-smallest", MINUS_SMALLEST), ("last subnormal", LAST_SUBNORMAL),
            ("smallest normal", LAST_SUBNORMAL + 1), ("-1", to_bits(-1.0)),
            ("a third", to_bits(1.0 / 3.0))]
    for figure in ("margin", "dial", "power"):
        for what, bits in bad:
            station("%s %s" % (figure, what), 21, **{figure: bits})
        for what, bits in good:
            station("%s %s" % (figure, what), [read_as(figure, bits)], **{figure: bits})
        station("%s negative zero" % figure, [read_as(figure, 0)], **{figure: NEG_ZERO})
    for figure in ("dial", "power"):
        for what, bits in bad + good[:2] + [("negative zero", NEG_ZERO)]:
            station("%s absent, its figure %s" % (figure, what), ["%s absent " % figure],
                    **{figure: bits, figure + "_here": 0})
        for here in (2, 128, 255):
            station("%s presence %d, its figure a NaN" % (figure, here), 20,
                    **{figure: QUIET_NAN, figure + "_here": here})
    station("dial and power absent, both NaN", ["dial absent power absent "], dial=QUIET_NAN,
            power=SIGNAL_NAN, dial_here=0, power_here=0)
    station("dial absent and a NaN, power a NaN", 21, dial=QUIET_NAN, power=QUIET_NAN, dial_here=0)
    station("power absent and a NaN, dial a NaN", 21, dial=QUIET_NAN, power=QUIET_NAN, power_here=0)
    station("dial and power absent, margin a NaN", 21, margin=QUIET_NAN, dial_here=0, power_here=0)
    station("all figures negative zero",
            ["dial 0000000000000000 power 0000000000000000 " + read_as("margin", 0)],
            margin=NEG_ZERO, dial=NEG_ZERO, power=NEG_ZERO)
    station("all figures 2^40", ["dial 4270000000000000 power 4270000000000000 "
                                 + read_as("margin", TWO40)], margin=TWO40, dial=TWO40, power=TWO40)
    station("all figures just too great", 21, margin=ABOVE, dial=ABOVE, power=ABOVE)

    # Two refusals at once.
    for code, value in (("policy", 4), ("control", 3), ("license", 254), ("sideband", 2),
                        ("plan", 2), ("dial_here", 255), ("power_here", 255), ("direction", 255),
                        ("kind", 255)):
        for figure in ("margin", "dial", "power"):
            station("20 (%s) and 21 (%s)" % (code, figure), 20, **{code: value, figure: INFINITY})
        station("20 (%s) and 22" % code, 20, image=0, **{code: value})
    for figure in ("margin", "dial", "power"):
        station("21 (%s) and 22" % figure, 21, image=0, **{figure: SIGNAL_NAN})
        station("20, 21 (%s) and 22" % figure, 20, image=0, kind=4, **{figure: MINUS_INFINITY})
    station("22, dial absent and a NaN", 22, image=0, dial=QUIET_NAN, dial_here=0)
    station("22, power absent and infinite", 22, image=0, power=INFINITY, power_here=0)
    station("22, control, licence, sideband, dial absent", 22, image=0, control=255, license=255,
            sideband=255, dial_here=0)
    station("no 22 under Broken", ["policy 3 "], policy=3, image=0)

    # Every place with a value of its own, so that no two can be exchanged.
    station("all values different",
            ["policy 3 control 2 license 4 sideband 1 region 77 plan 1 dial 4037000000000000 "
             "power 4049000000000000 lower c018000000000000 upper c018000000000000 "
             "direction 1 kind 3 "],
            policy=3, control=2, license=4, sideband=1, region=77, plan=1, dial=23.0, power=50.0,
            margin=-6.0, direction=1, kind=3)
    station("all values different again",
            ["policy 2 control 1 license 3 sideband 255 region 254 plan 0 dial absent "
             "power 3fc0000000000000 lower 3fb999999999999a upper 3fb999999999999a "
             "direction 2 kind 1 "],
            policy=2, control=1, license=3, sideband=255, region=254, plan=0, dial_here=0,
            dial=9.0, power=0.125, margin=0.1, direction=2, kind=1)

    # Random ones: mostly right codes, figures from a short list. Direction 3 has its own below.
    dice = Dice(3)
    drawn = dict(values, direction=(0, 1, 2))
    figures = [0, NEG_ZERO, TWO40, ABOVE, MINUS_TWO40, QUIET_NAN, SMALLEST, to_bits(1.5),
               to_bits(-20.0), to_bits(14100000.0)]
    for k in range(80):
        changes = {}
        for code in CODES:
            pick = drawn[code][dice.below(len(drawn[code]))]
            changes[code] = dice.below(256) if dice.below(40) == 0 else pick
        for figure in ("margin", "dial", "power"):
            changes[figure] = figures[dice.below(len(figures))]
        changes["image"] = int(dice.below(4) > 0)
        station("random station %d" % k, None, **changes)
    station("the fresh record with region 0 and margin 0 passed",
            ["policy 0 control 255 license 255 sideband 255 region 0 plan 0 dial absent "
             "power absent lower 0000000000000000 upper 0000000000000000 direction 0 kind 0 "],
            policy=0, control=255, license=255, sideband=255, region=0, plan=0, dial_here=0,
            power_here=0, margin=0, dial=0, power=0, image=0)

    # "The direction gains the value 3": a right code under every policy and beside every control.
    for policy in range(4):
        station("policy %d, direction 3, no image" % policy,
                22 if policy == 2 else ["policy %d " % policy, "direction 3 kind 0 "],
                policy=policy, direction=3, image=0)
    for control in (0, 1, 2, 255):
        station("control %d, direction 3" % control, ["control %d " % control, "direction 3 kind 0 "],
                control=control, direction=3)
    station("direction 3 and 21", 21, direction=3, margin=QUIET_NAN)
    station("direction 4 and 21", 20, direction=4, margin=QUIET_NAN)
    station("direction 4 and 22", 20, direction=4, image=0)
    drawn["direction"] = (3,)
    for k in range(12):
        changes = dict((code, drawn[code][dice.below(len(drawn[code]))]) for code in CODES)
        for figure in ("margin", "dial", "power"):
            changes[figure] = figures[dice.below(len(figures))]
        station("random station %d with direction 3" % k, None, **changes)

    # "The station record has a lower and an upper margin instead of one": "21 covers each", each reads
    # by itself, and each may be negative.
    for side, other in (("lower", "upper"), ("upper", "lower")):
        for what, bits in bad:
            station("%s margin %s" % (side, what), 21, **{side: bits})
        for what, bits in good:
            station("%s margin %s" % (side, what), [read_as(side, bits), read_as(other, to_bits(50.0))],
                    **{side: bits})
        station("%s margin negative zero" % side, [read_as(side, 0), read_as(other, to_bits(50.0))],
                **{side: NEG_ZERO})
        station("%s margin 2^40, %s just too great" % (side, other), 21, **{side: TWO40, other: ABOVE})
        station("%s margin a NaN, dial and power absent" % side, 21, dial_here=0, power_here=0,
                **{side: QUIET_NAN})
        station("20 and 21 (%s margin)" % side, 20, kind=4, **{side: INFINITY})
        station("21 (%s margin) and 22" % side, 21, image=0, **{side: SIGNAL_NAN})
        for policy in range(4):
            station("policy %d, %s margin just too great" % (policy, side), 21, policy=policy, image=0,
                    **{side: ABOVE})
    station("all values different, margins too",
            ["policy 3 control 2 license 4 sideband 1 region 77 plan 1 dial 4037000000000000 "
             "power 4049000000000000 lower c018000000000000 upper 401c000000000000 "
             "direction 1 kind 3 "],
            policy=3, control=2, license=4, sideband=1, region=77, plan=1, dial=23.0, power=50.0,
            lower=-6.0, upper=7.0, direction=1, kind=3)
    drawn["direction"] = (0, 1, 2, 3)
    for k in range(24):
        changes = dict((code, drawn[code][dice.below(len(drawn[code]))]) for code in CODES)
        for figure in FIGURES:
            changes[figure] = figures[dice.below(len(figures))]
        station("random station %d with two margins" % k, None, **changes)


# ---------------------------------------------------------------------------------------------

def write(crate, stdin, stdout):
    folder = os.path.join(CRATES, crate)
    os.makedirs(folder, exist_ok=True)
    with open(os.path.join(folder, "stdin"), "wb") as out:
        out.write(stdin)
    with open(os.path.join(folder, "stdout"), "wb") as out:
        out.write(stdout.encode("ascii"))
    print("%s: stdin %d bytes, stdout %d bytes" % (crate, len(stdin), len(stdout)))


def main():
    for section in (lengths, letters, editions, counts, general_codes, record_codes,
                    general_figures, record_figures, ranges, bands_and_segments, limits,
                    faults_together, first_places, tidy_ranges, tidy_classes, tidy_homes, tidy_leaves_alone,
                    practice_table, large, random_tables, random_damage, second_edition):
        section()
    station_cases()
    image_lines = ["%d check %d tidy %d fault %s" % (n, check, answer, at)
                   for n, (_, _, check, answer, at) in enumerate(IMAGE_CASES)]
    station_lines = ["%d %s" % (n, line) for n, (_, _, line) in enumerate(STATION_CASES)]
    if "--list" in sys.argv[1:]:
        for line, case in zip(image_lines, IMAGE_CASES):
            print("image %s: %s" % (line, case[0]))
        for line, case in zip(station_lines, STATION_CASES):
            print("station %s: %s" % (line, case[0]))
        return
    print("%d image cases, %d station cases" % (len(IMAGE_CASES), len(STATION_CASES)))
    write("run_image", struct.pack("<H", len(IMAGE_CASES)) + b"".join(c[1] for c in IMAGE_CASES),
          "\n".join(image_lines) + "\n")
    write("run_station",
          struct.pack("<H", len(STATION_CASES)) + b"".join(c[1] for c in STATION_CASES),
          "\n".join(station_lines) + "\n")


if __name__ == "__main__":
    main()
