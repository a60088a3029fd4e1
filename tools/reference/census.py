"""What crates/run_census is given, and what it must write: censuses at their borders.

    python3 tools/reference/census.py    writes crates/run_census/stdin and stdout (some seconds)

Input: u16 number of cases; a case is eight station bytes (policy, control, licence, sideband,
region, plan mark, dial and power presence), u8 kind, u8 direction, then by their 64 bits the two
margins, dial and power, the edges (power low and high, spectral low and high), the first and the last dial
(in two's complement), u32 where its image begins and u32 how long it is; behind the cases the
images. Output, a line a case: its number, the refusal, and the 25 counts.

`code_at` is document 01's verdict as far as its code goes, written from the papers alone; every
dial of a stretch is asked for by itself, and its code counted.
"""
import math
import os
import struct
import sys

sys.dont_write_bytecode = True

import build
import reference
from practice import PRACTICE

HERE = os.path.dirname(os.path.abspath(__file__))
LEAST, GREATEST = -2 ** 63, 2 ** 63 - 1
FAR = 2 ** 40
MOST = 1000000
DATA, CW, TEST, NOTHING = range(4)
RESPOND, OPERATOR = 1, 2
AUTOMATIC = 2


# ---------------------------------------------------------------------------------------------
# The code of a dial

def floats(image):
    """The general block's figures and bytes, and each record's."""
    general = reference.general_block(image)
    tables = [[(struct.unpack("<3d", r[:24]), r) for r in t] for t in reference.table_records(image)]
    return struct.unpack("<5d", general[:40]), general, tables


def held(low, high, a, b):
    """"`holds` and `overlaps` include both ends." """
    return low <= a and b <= high


def overlaps(low, high, a, b):
    return low <= b and a <= high


def audio_of(reading, edges):
    """"`Edges` has a power pair and a spectral pair. `Reading` Wider takes the lower low and the
    higher high." "reading (0 power, 1 spectral, 2 wider)"."""
    if reading == 0:
        return edges[0], edges[1]
    if reading == 1:
        return edges[2], edges[3]
    return min(edges[0], edges[2]), max(edges[1], edges[3])


def allowed(privilege, kind):
    """"`allows`: an absent list allows everything, an empty list nothing." "emission bits under
    flag bit 0"."""
    return not privilege[27] & 1 or privilege[26] >> kind & 1 == 1


class Judge:
    """The codes of dials by one station record, kind, direction, edges and image."""

    def __init__(self, station, kind, direction, edges, image):
        self.station, self.kind, self.direction, self.edges = station, kind, direction, edges
        if station["policy"] == 2:
            self.figures, self.general, self.tables = floats(image)
            self.audio = audio_of(self.general[41], edges)

    def code_at(self, dial):
        # "Codes 1 to 25: no_profile, profile_broken, no_rules, ..."
        s = self.station
        if s["policy"] != 2:
            return {0: 1, 3: 2, 1: 3}[s["policy"]]
        # "Prerequisites in order: region, control, licence, sideband, dial."
        if s["region"] != self.general[40]:
            return 5
        for name, code in (("control", 6), ("license", 7), ("sideband", 8)):
            if s[name] == reference.ABSENT:
                return code
        low, high = self.audio
        # "Upper sideband: dial + low to dial + high. Lower: dial - high to dial - low. The guarded
        # range is that range less the margin below and plus it above." Since document 02 (9) each
        # side has its own.
        air = (dial + low, dial + high) if s["sideband"] == 0 else (dial - high, dial - low)
        guarded = air[0] - s["lower"], air[1] + s["upper"]
        # "Then the first band holding the guarded range, automatic exclusion, 60 m, and the kind.
        # Automatic is off when the direction is Operator."
        band = next((r[24] for f, r in self.tables[reference.BANDS] if held(f[0], f[1], *guarded)), None)
        if band is None:
            return 10
        automatic = s["control"] == AUTOMATIC and self.direction != OPERATOR
        if automatic and any(r[24] == band for _, r in self.tables[reference.EXCLUDED]):
            return 11
        if self.general[42] & 4 and self.general[43] == band:
            return self.sixty(air, guarded, high - low)
        if self.kind == DATA:
            return self.data(guarded, high - low, automatic)
        if self.kind == NOTHING:
            return 16 if self.some_privilege(dial, dial) else 15
        return 16 if self.privileged(guarded) else 15

    def some_privilege(self, a, b):
        return any(r[25] == self.station["license"] and held(f[0], f[1], a, b)
                   for f, r in self.tables[reference.PRIVILEGES])

    def privileged(self, guarded):
        """"then the first holding privilege"; shut out: "letting a second privilege rescue a first
        that forbids data"."""
        for f, r in self.tables[reference.PRIVILEGES]:
            if r[25] == self.station["license"] and held(f[0], f[1], *guarded):
                return allowed(r, self.kind)
        return False

    def data(self, guarded, width, automatic):
        """"Data is judged by the first data segment, in table order, that holds the guarded range.
        Width comes before 'no segment'; then the first holding privilege, then 97.221." """
        segments = self.tables[reference.SEGMENTS]
        first = next(((f, r) for f, r in segments if held(f[0], f[1], *guarded)), None)
        # "`data_limit`: a segment's own limit, else the general one."
        limit = first[0][2] if first and first[1][27] & 1 else self.figures[0]
        if width > limit:
            return 12
        if first is None:
            return 13 if any(overlaps(f[0], f[1], *guarded) for f, _ in segments) else 14
        if not self.privileged(guarded):
            return 15
        if not automatic:
            return 16
        # "Automatic segments win over the elsewhere rule, which needs its width and, where
        # required, Respond." Since document 02 (3) a response to a robot is none.
        if any(held(f[0], f[1], *guarded) for f, _ in self.tables[reference.AUTOMATIC]):
            return 17
        if not self.general[42] & 1:
            return 18
        if width > self.figures[1]:
            return 19
        if self.general[42] & 2 and self.direction != RESPOND:
            return 20
        return 21

    def sixty(self, air, guarded, width):
        """"60 m: some privilege must hold the unguarded range; emission lists of privileges aren't
        read. Nothing is then permitted." """
        if not self.some_privilege(*air):
            return 15
        if self.kind == NOTHING:
            return 16
        if self.general[42] & 8 and not self.general[45] >> self.kind & 1:
            return 22
        band, wide = self.general[43], self.figures[2]
        # document 02, 4: "a data segment of that band which holds the guarded range goes first,
        # unless the first overlapping channel holds that range as well"
        channel = next(((f[0] - wide / 2.0, f[0] + wide / 2.0)
                        for f, _ in self.tables[reference.CHANNELS]
                        if overlaps(f[0] - wide / 2.0, f[0] + wide / 2.0, *guarded)), None)
        inside = any(r[24] == band and held(f[0], f[1], *guarded)
                     for f, r in self.tables[reference.SEGMENTS])
        if channel and (held(*channel, *guarded) or not inside):
            return 24
        if not inside:
            return 23
        # "The segment tests the general width only."
        return 12 if self.kind == DATA and width > self.figures[0] else 25


# ---------------------------------------------------------------------------------------------
# The census

def refusal_of(station, kind, direction, edges, image, first, last):
    """"It refuses (33, after 15) a first above the last or more dials than that, and (34, next) a
    first or last above 2^40 in size." "the figure of its own isn't looked at": its presence byte
    is a code all the same."""
    if station["dial_here"] not in (0, 1):
        return 20
    refusal, _ = reference.read_station({**station, "dial_here": 0}, direction, kind, len(image))
    if refusal:
        return refusal
    if station["policy"] == 2 and reference.check_image(image):
        return reference.check_image(image)
    if not all(reference.in_size(bits(e)) for e in edges):
        return 15
    if first > last or last - first + 1 > MOST:
        return 33
    if abs(first) > FAR or abs(last) > FAR:
        return 34
    return 0


def census(station, kind, direction, edges, image, first, last):
    counts = [0] * 25
    refusal = refusal_of(station, kind, direction, edges, image, first, last)
    if refusal == 0:
        read = {**station, **{side: reference.figure_of(reference.as_read(station[side]))
                              for side in ("lower", "upper")}}
        judge = Judge(read, kind, direction, [e + 0.0 for e in edges], image)
        for dial in range(first, last + 1):
            counts[judge.code_at(float(dial)) - 1] += 1
        assert sum(counts) == last - first + 1
    return refusal, counts


# ---------------------------------------------------------------------------------------------
# The cases

def bits(x):
    return struct.unpack("<Q", struct.pack("<d", x))[0]


def small(low=0.0, **more):
    """Band 1 from `low` on, 100 wide; its segment 20 to 80 of it, an Extra's privilege all of it."""
    given = dict(data=10.0, region=2, reading=2)
    given.update(more.pop("block", {}))
    tables = dict(bands=[build.record(low, low + 100.0, band=1)],
                  segments=[build.record(low + 20.0, low + 80.0, band=1)],
                  privileges=[build.record(low, low + 100.0, cls=4)])
    tables.update(more)
    return build.image(build.general(**given), **tables)


SMALL = small()
ROBOT = small(block=dict(elsewhere=5.0, flags=3), automatic=[build.record(30.0, 45.0)])
NO_ELSEWHERE = small(automatic=[build.record(30.0, 45.0)])
EXCLUDED = small(excluded=[build.record(band=1)])
SIXTY = small(block=dict(flags=4 + 8, channel_band=1, width=10.0, offset=2.0, tolerance=1.0,
                         emissions=3), channels=[build.record(90.0)])
FIRST_FORBIDS = small(privileges=[build.record(30.0, 60.0, cls=4, emissions=2, flags=1),
                                  build.record(0.0, 100.0, cls=4)])
OWN_LIMIT = small(segments=[build.record(20.0, 50.0, 4.0, band=1, flags=1),
                            build.record(50.0, 80.0, band=1)])
ABOUT_NOUGHT = small(-50.0)
LOWEST, HIGHEST = small(float(-FAR)), small(float(FAR - 100))
LETTERS = SMALL[:-1] + b"F"
SECOND = build.raised(ROBOT)
IMAGES = [PRACTICE, b"", LETTERS, SMALL, ROBOT, NO_ELSEWHERE, EXCLUDED, SIXTY, FIRST_FORBIDS,
          OWN_LIMIT, ABOUT_NOUGHT, LOWEST, HIGHEST, SECOND]

STATION = {"policy": 2, "control": 0, "license": 4, "sideband": 0, "region": 2, "plan": 0,
           "dial_here": 0, "power_here": 0, "lower": 0, "upper": 0, "dial": 0, "power": 0}
EDGES = (0.0, 5.0, 0.0, 5.0)
NAN, INFINITE = bits(math.nan), bits(math.inf)


def cases():
    """(station, kind, direction, edges, image, first, last)"""
    def case(image=SMALL, first=0, last=100, kind=DATA, direction=0, edges=EDGES, **station):
        margin = station.pop("margin", None)
        both = {} if margin is None else {"lower": margin, "upper": margin}
        return {**STATION, **both, **station}, kind, direction, edges, image, first, last

    # every table and kind, under local and automatic control
    for image in IMAGES[3:10] + [SECOND]:
        for kind in range(4):
            yield case(image, -10, 110, kind)
        for direction in range(4):
            yield case(image, -10, 110, control=AUTOMATIC, direction=direction)
        yield case(image, -10, 110, margin=bits(1.0))
        yield case(image, -10, 110, margin=bits(-1.0), sideband=1)
        yield case(image, -10, 110, lower=bits(4.0), upper=bits(-1.0))
        yield case(image, -10, 110, edges=(0.0, 11.0, 0.0, 5.0))
        yield case(image, -10, 110, control=AUTOMATIC, edges=(0.0, 6.0, 1.0, 5.0))
    # the practice table
    general = dict(license=2, margin=bits(50.0))
    edges = (1250.0, 1750.0, 1250.0, 1750.0)
    for control in (0, 2):
        yield case(PRACTICE, 14090000, 14115000, edges=edges, control=control, **general)
        yield case(PRACTICE, 5329000, 5368000, edges=edges, control=control, **general)
    # a million dials, and one more
    yield case(PRACTICE, 13500001, 14500000, edges=edges, **general)
    yield case(PRACTICE, 13500001, 14500001, edges=edges, **general)
    yield case(first=-500000, last=499999, policy=1)
    # one dial; the dials about nought; the farthest
    for dial in (-1, 0, 1, 20, 75, 76):
        yield case(first=dial, last=dial)
        yield case(ABOUT_NOUGHT, dial, dial)
    yield case(ABOUT_NOUGHT, -60, 60)
    yield case(ABOUT_NOUGHT, -60, 60, sideband=1)
    yield case(ABOUT_NOUGHT, -60, 60, kind=NOTHING)
    yield case(LOWEST, -FAR, -FAR + 110)
    yield case(LOWEST, -FAR, -FAR)
    yield case(HIGHEST, FAR - 110, FAR)
    yield case(HIGHEST, FAR, FAR)
    # 33 and 34
    ends = [(0, -1), (1, 0), (LEAST, GREATEST), (GREATEST, LEAST), (LEAST, LEAST), (GREATEST, GREATEST),
            (LEAST, LEAST + MOST - 1), (LEAST, LEAST + MOST), (GREATEST - MOST + 1, GREATEST),
            (GREATEST - MOST, GREATEST), (-1, GREATEST), (0, GREATEST), (LEAST, -1), (LEAST, 0),
            (-FAR - 1, -FAR), (-FAR - 1, -FAR - 1), (-FAR, FAR), (FAR, FAR + 1), (FAR + 1, FAR + 1),
            (FAR + 1, FAR), (-FAR, -FAR - 1), (0, MOST), (-1, MOST - 1), (-MOST, 0)]
    for first, last in ends:
        yield case(first=first, last=last)
        yield case(first=first, last=last, policy=0)
    for first, last in ((0, MOST - 1), (-1, MOST - 2), (1 - MOST, 0)):
        yield case(first=first, last=last, policy=3)
    # the record's own dial is not looked at, its presence byte is
    for dial in (NAN, INFINITE, bits(2.0 ** 41), bits(-0.0), bits(30.0)):
        for here in (0, 1, 2, 255):
            yield case(dial=dial, dial_here=here)
    yield case(dial_here=2, policy=0)
    # the others in their order, each before 33
    wrong = dict(first=1, last=0)
    for station in (dict(policy=4), dict(control=3), dict(license=5), dict(sideband=2), dict(plan=2),
                    dict(power_here=2), dict(margin=NAN), dict(lower=NAN), dict(upper=INFINITE), dict(power=INFINITE, power_here=1),
                    dict(power=INFINITE), dict(margin=bits(2.0 ** 40)), dict(margin=bits(-0.0))):
        yield case(**station)
        yield case(**wrong, **station)
    for kind, direction in ((4, 0), (0, 4), (255, 255)):
        yield case(kind=kind, direction=direction)
        yield case(kind=kind, direction=direction, **wrong)
    for policy in range(4):
        for image in (b"", LETTERS, SMALL[:91]):
            yield case(image, policy=policy)
            yield case(image, policy=policy, **wrong)
        for i in range(4):
            for x in (math.nan, -math.inf, 2.0 ** 40 + 1.0):
                edge = tuple(x if j == i else e for j, e in enumerate(EDGES))
                yield case(edges=edge, policy=policy, **wrong)
    yield case(LETTERS, edges=(math.nan, 5.0, 0.0, 5.0), margin=NAN)
    yield case(LETTERS, edges=(math.nan, 5.0, 0.0, 5.0))
    # each prerequisite, with and without a table
    for station in (dict(region=3), dict(control=255), dict(license=255), dict(sideband=255)):
        for policy in range(4):
            yield case(policy=policy, **station)
    # every class, and every reading
    for license in range(5):
        yield case(FIRST_FORBIDS, license=license)
    for reading in range(3):
        yield case(small(block=dict(reading=reading)), edges=(0.0, 3.0, -2.0, 7.0))
        yield case(small(block=dict(reading=reading)), edges=(-0.0, 3.0, 7.0, -2.0), sideband=1)


def main():
    records, told, images, at = b"", [], b"", {}
    all_cases = list(cases())
    size = 8 + 2 + 4 * 8 + 4 * 8 + 2 * 8 + 2 * 4
    for number, (station, kind, direction, edges, image, first, last) in enumerate(all_cases):
        if image not in at:
            at[image] = 2 + size * len(all_cases) + len(images)
            images += image
        records += bytes(station[k] for k in ("policy", "control", "license", "sideband", "region",
                                              "plan", "dial_here", "power_here"))
        records += bytes([kind, direction])
        records += struct.pack("<4Q4d2q2I", station["lower"], station["upper"], station["dial"],
                               station["power"], *edges, first, last, at[image], len(image))
        refusal, counts = census(station, kind, direction, edges, image, first, last)
        told.append("%d refusal %d counts %s" % (number, refusal, " ".join(map(str, counts))))
    crate = os.path.join(HERE, "../../crates/run_census")
    with open(os.path.join(crate, "stdin"), "wb") as out:
        out.write(struct.pack("<H", len(all_cases)) + records + images)
    with open(os.path.join(crate, "stdout"), "w") as out:
        out.write("\n".join(told) + "\n")


if __name__ == "__main__":
    main()
