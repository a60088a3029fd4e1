"""What crates/run_nearest is given, and what it must write: the nearest dial at its borders.

    python3 tools/reference/nearest.py           writes crates/run_nearest/stdin and stdout
    python3 tools/reference/nearest.py --list    prints each line of stdout with the name of its case
    python3 tools/reference/nearest.py --brute 2000 1
                                                 draws 2,000 small cases with seed 1, and holds the
                                                 answer by rows to one that asks every dial
    python3 tools/reference/nearest.py --draw 40 1
                                                 draws 40 inputs of up to 200 cases with seed 1, and
                                                 holds crates/run_nearest/out/run_nearest (rt run there)
                                                 to the model

Input: u16 number of cases; a case is 82 bytes, the first 74 laid out as those of run_census: eight
station bytes (policy, control, licence, sideband, region, plan mark, dial and power presence), a byte
that is 0, u8 direction, then by their 64 bits the two margins, dial and power, the edges (power low and
high, spectral low and high); then u32 where its image begins, counted from the input's first byte, and
u32 how long it is. Behind the cases stand the images. Output, a line a case: its number, the answer (0
refused, 1 a dial, 2 none, 3 not judged), the refusal, and the dial's 64 bits in hex, those of +infinity
where there is none.

The model is written from document 02, 11: exact fractions, the rows of document 01's list outside the
channel band, and of each the point next to the present dial. `every_dial` knows no rows: it asks the
verdict's code, as census.py works it out, of every dial in eighths. Answers worked out by hand stand
beside the cases; where the model says otherwise, nothing is written.
"""
import math
import os
import random
import struct
import subprocess
import sys
from fractions import Fraction

sys.dont_write_bytecode = True

import build
import census
import reference
from census import bits
from practice import PRACTICE

HERE = os.path.dirname(os.path.abspath(__file__))
RULES = 2
REFUSED, DIAL, NONE, NOT_JUDGED = range(4)
EIGHTH = 0.125
# "hertz figures of at most 2^38 in size"
FAR = 2.0 ** 38
RESPOND, OPERATOR = 1, 2
AUTOMATIC = 2
GENERAL = ("data limit", "elsewhere limit", "channel width", "carrier offset", "carrier tolerance")
TABLES = ("band", "segment", "channel", "privilege", "automatic", "excluded", "power", "plan data",
          "plan avoid")


# ---------------------------------------------------------------------------------------------
# The model

def refusal_of(station, direction, edges, image):
    """"A numbered refusal comes first". "Order: 20, 21, 22, 1 to 14, 15". Data is what is sent."""
    refusal, _ = reference.read_station(station, direction, census.DATA, len(image))
    if refusal:
        return refusal
    # "Images are read only under Rules."
    if station["policy"] == RULES and reference.check_image(image):
        return reference.check_image(image)
    return 0 if all(reference.in_size(bits(e)) for e in edges) else 15


def exact(figure_bits):
    """A figure as it is read: "Negative zero in edges or station reads as zero." """
    return Fraction(reference.figure_of(figure_bits))


def in_eighths(x):
    """"A figure is in eighths if eight times it is whole." """
    return (8 * x).denominator == 1


def image_figures(image):
    """"Hertz figures are those of image, edges, station record and dial asked; watts are none." Each
    with its name. The third figure of a record is a width in data segments and watts in power; all
    others are unused, and zero."""
    figures, _, tables = census.floats(image)
    out = [(name, x) for name, x in zip(GENERAL, figures)]
    for table, (name, records) in enumerate(zip(TABLES, tables)):
        for (low, high, third), _ in records:
            out += [(name + " low", low), (name + " high", high)]
            if table != reference.POWER:
                out.append((name + " figure", third))
    return [(name, Fraction(x)) for name, x in out]


def audio_of(edges, image):
    """The edges read."""
    general = reference.general_block(image)
    return census.audio_of(general[41], [Fraction(e) for e in edges])


def failing(station, edges, image):
    """The premises that fail, by their names; nothing is refused here. "the premises of the nought
    distance on table, station and signal [...] and hertz figures of at most 2^38 in size": a tidy table
    in force, "all hertz figures in eighths, prerequisites met, a positive guarded width"."""
    # "A table is in force if the policy is Rules and no image check refuses it."
    if station["policy"] != RULES:
        return ["rules in force"]
    out = []
    if reference.tidy_question(image) != (0, True):
        out.append("tidy")
    # "Prerequisites in order: region, control, licence, sideband, dial."
    if station["region"] != reference.general_block(image)[40]:
        out.append("region")
    out += [name for name in ("control", "license", "sideband") if station[name] == reference.ABSENT]
    if station["dial_here"] == 0:
        out.append("dial known")
    # "A positive guarded width is now width plus both [margins]." (document 02, 9)
    low, high = audio_of(edges, image)
    lower, upper = exact(station["lower"]), exact(station["upper"])
    if high - low + lower + upper <= 0:
        out.append("guarded width")
    figures = image_figures(image)
    figures += [("edge %d" % i, Fraction(e)) for i, e in enumerate(edges)]
    figures += [("lower margin", lower), ("upper margin", upper)]
    if station["dial_here"] == 1:
        figures.append(("dial", exact(station["dial"])))
    out += [name + " in eighths" for name, x in figures if not in_eighths(x)]
    out += [name + " in size" for name, x in figures if abs(x) > FAR]
    return out


def intersect(one, other):
    """"`intersect` needs low < high" """
    low, high = max(one[0], other[0]), min(one[1], other[1])
    return (low, high) if low < high else None


def dial_range(piece, sideband, audio, lower, upper):
    """The dials at which the guarded range lies in a piece. "on lower sideband the list's dials are
    (low + audio high) + lower and (high + audio low) - upper"; "`dial_range` low <= high"."""
    if sideband == 0:
        low, high = piece[0] - audio[0] + lower, piece[1] - audio[1] - upper
    else:
        low, high = piece[0] + audio[1] + lower, piece[1] + audio[0] - upper
    return (low, high) if low <= high else None


def rows_of(station, direction, edges, image):
    """The dials of each row that document 01's list has outside the channel band."""
    figures, general, tables = census.floats(image)
    audio = audio_of(edges, image)
    width = audio[1] - audio[0]
    # "Automatic is off when the direction is Operator." The elsewhere rule "needs its width and, where
    # required, Respond"; "the elsewhere rule counts only a plain Respond" (document 02, 3).
    automatic = station["control"] == AUTOMATIC and direction != OPERATOR
    elsewhere = (general[42] & 1 == 1 and width <= figures[1]
                 and (general[42] & 2 == 0 or direction == RESPOND))
    excluded = [r[24] for _, r in tables[reference.EXCLUDED]]
    spans = [(Fraction(low), Fraction(high)) for (low, high, _), _ in tables[reference.AUTOMATIC]]
    rows = []
    for (low, high, own), segment in tables[reference.SEGMENTS]:
        # "The channel band is every band of byte 43's number, none if flag bit 2 is clear."
        if general[42] & 4 and segment[24] == general[43]:
            continue
        # "`data_limit`: a segment's own limit, else the general one."
        if width > (own if segment[27] & 1 else figures[0]):
            continue
        if automatic and segment[24] in excluded:
            continue
        for (first, last, _), privilege in tables[reference.PRIVILEGES]:
            if privilege[25] != station["license"] or not census.allowed(privilege, census.DATA):
                continue
            piece = intersect((Fraction(low), Fraction(high)), (Fraction(first), Fraction(last)))
            # "Only under automatic control and where elsewhere doesn't help are pieces cut to the
            # automatic segments"
            cut = automatic and not elsewhere
            for part in ([intersect(piece, span) for span in spans] if piece and cut else [piece]):
                row = part and dial_range(part, station["sideband"], audio, exact(station["lower"]),
                                          exact(station["upper"]))
                if row:
                    rows.append(row)
    return rows


def closest(dials, dial):
    """"give the one at which data is allowed and no allowed one is closer; of two equally close, the
    lower". None of none."""
    return min(dials, key=lambda x: (abs(x - dial), x), default=None)


def nearest(station, direction, edges, image):
    """(answer, refusal, the dial or None)"""
    refusal = refusal_of(station, direction, edges, image)
    if refusal:
        return REFUSED, refusal, None
    if failing(station, edges, image):
        return NOT_JUDGED, 0, None
    dial = exact(station["dial"])
    # of a row, the point next to the present dial
    ends = rows_of(station, direction, edges, image)
    found = closest([min(max(dial, low), high) for low, high in ends], dial)
    if found is None:
        return NONE, 0, None
    # "so that each row's ends are dials the gate takes"
    assert in_eighths(found) and abs(found) <= 3 * FAR
    return DIAL, 0, found


def every_dial(station, direction, edges, image):
    """The same of a judged case with no rows: every dial in eighths at which a signal can lie in a band
    is asked for by itself."""
    read = {**station, "lower": reference.figure_of(reference.as_read(station["lower"])),
            "upper": reference.figure_of(reference.as_read(station["upper"]))}
    judge = census.Judge(read, census.DATA, direction, [e + 0.0 for e in edges], image)
    low, high = judge.audio
    bands = [(f[0], f[1], r[24]) for f, r in judge.tables[reference.BANDS]]
    reach = sum(abs(x) for x in (*edges, read["lower"], read["upper"])) + 1.0
    first = math.floor(8 * (min(b[0] for b in bands) - reach))
    last = math.ceil(8 * (max(b[1] for b in bands) + reach))
    channel_band = judge.general[43] if judge.general[42] & 4 else None
    found = []
    for k in range(first, last + 1):
        dial = k / 8
        air = (dial + low, dial + high) if read["sideband"] == 0 else (dial - high, dial - low)
        guarded = air[0] - read["lower"], air[1] + read["upper"]
        # "Of the dials on the eighths grid whose guarded range the channel band doesn't hold"
        if any(n == channel_band and census.held(a, b, *guarded) for a, b, n in bands):
            continue
        code = judge.code_at(dial)
        assert code < 22, "60 m off the channel band"
        # permitted, automatic_segment, automatic_response
        if code in (16, 17, 21):
            found.append(Fraction(dial))
    return closest(found, exact(station["dial"]))


# ---------------------------------------------------------------------------------------------
# Tables

SMALL = census.SMALL
TWO = census.small(segments=[build.record(20.0, 40.0, band=1), build.record(60.0, 80.0, band=1)])
CHANNELS = dict(flags=4, channel_band=1, width=10.0, offset=2.0, tolerance=1.0)
SIXTY = census.small(block=CHANNELS, channels=[build.record(90.0)])
SIXTY_AND = census.small(
    block=CHANNELS, channels=[build.record(90.0)],
    bands=[build.record(0.0, 100.0, band=1), build.record(200.0, 300.0, band=2)],
    segments=[build.record(20.0, 80.0, band=1), build.record(200.0, 300.0, band=2)],
    privileges=[build.record(0.0, 100.0, cls=4), build.record(200.0, 300.0, cls=4)])
# two bands of the channel band's number, and one between them
SIXTY_TWICE = census.small(
    block=CHANNELS, channels=[build.record(90.0)],
    bands=[build.record(0.0, 100.0, band=1), build.record(100.0, 200.0, band=2),
           build.record(200.0, 300.0, band=1)],
    segments=[build.record(20.0, 80.0, band=1), build.record(120.0, 180.0, band=2),
              build.record(200.0, 300.0, band=1)],
    privileges=[build.record(0.0, 300.0, cls=4)])
# the channel band's number is of no band
NO_SIXTY = census.small(block=dict(CHANNELS, channel_band=9), channels=[build.record(90.0)])
PARTED = census.small(privileges=[build.record(0.0, 50.0, cls=4), build.record(50.0, 100.0, cls=4)])
CUT = census.small(privileges=[build.record(30.0, 60.0, cls=4)])
NO_DATA = census.small(privileges=[build.record(0.0, 100.0, cls=4, emissions=14, flags=1)])
DATA_ONLY = census.small(privileges=[build.record(0.0, 100.0, cls=4, emissions=1, flags=1)])
EMPTY_LIST = census.small(privileges=[build.record(0.0, 100.0, cls=4, flags=1)])
OWN = census.OWN_LIMIT
EXACTLY = census.small(segments=[build.record(20.0, 25.0, band=1)])
ABOUT = census.small(-50.0, segments=[build.record(-40.0, -20.0, band=1), build.record(20.0, 40.0, band=1)])
TO_NOUGHT = census.small(-50.0, segments=[build.record(-40.0, 5.0, band=1)])
ROBOT = census.ROBOT
ROBOTS = census.small(block=dict(elsewhere=5.0, flags=3),
                      automatic=[build.record(30.0, 45.0), build.record(55.0, 70.0)])
NO_RESPONSE = census.small(block=dict(elsewhere=5.0, flags=1), automatic=[build.record(30.0, 45.0)])
EXCLUDED = census.small(
    bands=[build.record(0.0, 100.0, band=1), build.record(100.0, 200.0, band=2)],
    segments=[build.record(20.0, 80.0, band=1), build.record(120.0, 180.0, band=2)],
    privileges=[build.record(0.0, 200.0, cls=4)], excluded=[build.record(band=1)],
    block=dict(elsewhere=9.0, flags=1))
WATTS = census.small(power=[build.record(0.0, 100.0, 9.15)])
PLAN = census.small(block=dict(flags=16), plan_data=[build.record(0.0625, 1.0)])
SECOND = build.raised(SMALL)
OTHER_WATTS = build.raised(SMALL, 0.1, 2.0 ** 40)
# up to 2^38, from -2^38 on, and all between
HIGHEST = census.small(FAR - 100.0)
LOWEST = census.small(-FAR)
WHOLE = census.small(block=dict(data=FAR), bands=[build.record(-FAR, FAR, band=1)],
                     segments=[build.record(-FAR, FAR, band=1)],
                     privileges=[build.record(-FAR, FAR, cls=4)])
EDGES = (0.0, 5.0, 0.0, 5.0)
NAN, INFINITE = bits(math.nan), bits(math.inf)


def both(low, high):
    return low, high, low, high


def full(figures=(), watts=9.15, only=None):
    """A table with a record of every kind, or of those that it needs and one more; `figures` puts others
    in place of its own, by name. The channel band's number is of no band."""
    g = dict(data=10.0, elsewhere=5.0, width=10.0, offset=2.0, tolerance=1.0)
    r = {"band": [0.0, 100.0], "segment": [20.0, 80.0, 8.0], "channel": [90.0],
         "privilege": [0.0, 100.0], "automatic": [30.0, 45.0], "power": [0.0, 100.0, watts],
         "plan data": [0.0, 50.0], "plan avoid": [60.0, 70.0]}
    for name, x in dict(figures).items():
        if name in g:
            g[name] = x
        else:
            table, which = name.rsplit(" ", 1)
            r[table][("low", "high", "figure").index(which)] = x
    given = {"bands": [build.record(*r["band"], band=1)],
             "segments": [build.record(*r["segment"], band=1, flags=1)],
             "privileges": [build.record(*r["privilege"], cls=4)]}
    for name, table in (("channels", "channel"), ("automatic", "automatic"), ("power", "power"),
                        ("plan_data", "plan data"), ("plan_avoid", "plan avoid")):
        if only is None or table == only:
            given[name] = [build.record(*r[table])]
    return build.image(build.general(region=2, reading=2, flags=1 + 4 + 16, channel_band=9, **g), **given)


STATION = {"policy": RULES, "control": 0, "license": 4, "sideband": 0, "region": 2, "plan": 0,
           "dial_here": 1, "power_here": 0, "lower": 0, "upper": 0, "dial": 0, "power": 0}


class Cases:
    """The cases, each with its name and its answer."""

    def __init__(self):
        self.list = []

    def ask(self, name, expected=None, image=SMALL, dial=30.0, edges=EDGES, direction=0, **more):
        """`expected`: a dial, "none", "not judged" or "refused N", worked out by hand; or nothing.
        Margins and power may be given as figures."""
        station = {**STATION, "dial": dial}
        for side in ("lower", "upper"):
            if "margin" in more:
                station[side] = more["margin"]
        station.update((k, x) for k, x in more.items() if k != "margin")
        station = {k: bits(x) if isinstance(x, float) else x for k, x in station.items()}
        answer = nearest(station, direction, edges, image)
        if expected is not None:
            kind, refusal, found = answer
            told = {REFUSED: "refused %d" % refusal, DIAL: found, NONE: "none",
                    NOT_JUDGED: "not judged"}[kind]
            if told != expected:
                sys.exit("%s: the model says %s, by hand it is %s" % (name, told, expected))
        self.list.append((name, station, direction, edges, image, answer))
        return answer


# ---------------------------------------------------------------------------------------------
# The cases

def by_hand(c):
    ask = c.ask
    # READINGS-02, 11
    for dial, to in ((10.0, 20), (30.0, 30), (100.0, 75), (20.0, 20), (75.0, 75), (19.875, 20),
                     (75.125, 75), (-1000.0, 20), (1000.0, 75)):
        ask("small at %s" % dial, to, dial=dial)
    for dial, to in ((47.5, 35), (47.625, 60), (47.375, 35), (35.0, 35), (35.125, 35), (59.875, 60),
                     (60.0, 60), (0.0, 20), (90.0, 75), (25.0, 25), (70.0, 70)):
        ask("two segments at %s" % dial, to, TWO, dial)
    ask("sixty at 88", "none", SIXTY, 88.0)
    ask("sixty at 30, allowed by its segment", "none", SIXTY, 30.0)
    ask("sixty with a second band at 88", 200, SIXTY_AND, 88.0)
    for dial, to in ((30.0, 200), (299.0, 295), (250.0, 250), (147.5, 200), (-5.0, 200), (400.0, 295)):
        ask("sixty with a second band at %s" % dial, to, SIXTY_AND, dial)
    for dial, to in ((88.0, 120), (250.0, 175), (150.0, 150), (300.0, 175)):
        ask("sixty twice at %s" % dial, to, SIXTY_TWICE, dial)
    ask("channels of no band", 75, NO_SIXTY, 88.0)
    ask("dial 30.0625", "not judged", dial=30.0625)
    ask("a plan edge of 0.0625, plan off", "not judged", PLAN)
    ask("a plan edge of 0.0625, plan on", "not judged", PLAN, plan=1)
    ask("9.15 W", 30, WATTS)
    ask("9.15 W at 10", 20, WATTS, 10.0)
    ask("the station's 9.15 W", 30, power=9.15, power_here=1)
    ask("the station's 2^40 W", 20, dial=10.0, power=2.0 ** 40, power_here=1)
    ask("the station's -0 W", 20, dial=10.0, power=-0.0, power_here=1)
    ask("edition 2", 20, SECOND, 10.0)
    ask("edition 2, other watts", 20, OTHER_WATTS, 10.0)
    # sidebands: 0 to 5 on lower sideband lies below the dial
    for dial, to in ((10.0, 25), (30.0, 30), (100.0, 80)):
        ask("lower sideband at %s" % dial, to, dial=dial, sideband=1)
    for dial, upper, lower in ((0.0, 10, 35), (100.0, 65, 90), (50.0, 50, 50)):
        ask("10 to 15, upper, at %s" % dial, upper, dial=dial, edges=both(10.0, 15.0))
        ask("10 to 15, lower, at %s" % dial, lower, dial=dial, edges=both(10.0, 15.0), sideband=1)
    # margins: below and above on the air, on either sideband
    for dial, upper, lower in ((0.0, 22, 27), (100.0, 72, 77)):
        ask("margins 2 and 3, upper, at %s" % dial, upper, dial=dial, lower=2.0, upper=3.0)
        ask("margins 2 and 3, lower, at %s" % dial, lower, dial=dial, lower=2.0, upper=3.0, sideband=1)
        ask("margins 3 and 2, lower, at %s" % dial, lower + 1, dial=dial, lower=3.0, upper=2.0, sideband=1)
    ask("margins -1 at 0", 19, dial=0.0, margin=-1.0)
    ask("margins -1 at 100", 76, dial=100.0, margin=-1.0)
    ask("margins 4 and -1 at 0", 24, dial=0.0, lower=4.0, upper=-1.0)
    ask("margins 4 and -1 at 100", 76, dial=100.0, lower=4.0, upper=-1.0)
    ask("margins -0", 20, dial=10.0, margin=-0.0)
    # the guarded width
    ask("margins that take all", "not judged", lower=-5.0)
    ask("margins that take all but an eighth", Fraction(121, 8), dial=10.0, lower=-4.875)
    ask("margins that take more", "not judged", upper=-5.125)
    ask("no width", "not judged", edges=both(0.0, 0.0))
    ask("an eighth", 20, dial=10.0, edges=both(0.0, 0.125))
    ask("no width, a margin", Fraction(161, 8), dial=10.0, edges=both(0.0, 0.0), lower=0.125)
    ask("no width, a margin above", 80 - Fraction(1, 8), dial=90.0, edges=both(0.0, 0.0), upper=0.125)
    ask("low above high", 18, dial=0.0, edges=both(5.0, 0.0), margin=3.0)
    ask("low above high, at 100", 77, dial=100.0, edges=both(5.0, 0.0), margin=3.0)
    ask("low above high, the margins as much", "not judged", edges=both(5.0, 0.0), margin=2.5)
    # the reading: the wider here; the other pair counts as a figure alone
    ask("wider", 16, dial=0.0, edges=(4.0, 8.0, 5.0, 9.0))
    ask("wider at 100", 71, dial=100.0, edges=(4.0, 8.0, 5.0, 9.0))
    for reading, low, high in ((0, 16, 72), (1, 15, 71)):
        image = census.small(block=dict(reading=reading))
        ask("reading %d" % reading, low, image, 0.0, (4.0, 8.0, 5.0, 9.0))
        ask("reading %d at 100" % reading, high, image, 100.0, (4.0, 8.0, 5.0, 9.0))
        ask("reading %d, the other pair of no width" % reading, low, image, 0.0,
            (4.0, 8.0, 5.0, 5.0) if reading == 0 else (4.0, 4.0, 5.0, 9.0))
        ask("reading %d, the pair of no width" % reading, "not judged", image, 0.0,
            (4.0, 8.0, 5.0, 5.0) if reading == 1 else (4.0, 4.0, 5.0, 9.0))
    # limits
    ask("just as wide as the limit", 70, dial=100.0, edges=both(0.0, 10.0))
    ask("wider than the limit", "none", edges=both(0.0, 10.125))
    ask("an own limit, just as wide", 46, OWN, 48.0, both(0.0, 4.0))
    ask("an own limit, wider", 50, OWN, 30.0, both(0.0, 4.125))
    ask("a row of one dial", 20, EXACTLY, 30.0)
    ask("a row of one dial from below", 20, EXACTLY, 0.0)
    ask("a row of one dial on it", 20, EXACTLY, 20.0)
    ask("a piece an eighth too short", "none", EXACTLY, 20.0, both(0.0, 5.125))
    ask("a margin too many", "none", EXACTLY, 20.0, upper=0.125)
    # privileges
    for dial, to in ((0.0, 30), (100.0, 55), (40.0, 40)):
        ask("a privilege of 30 to 60 at %s" % dial, to, CUT, dial)
    for dial, to in ((47.0, 45), (47.5, 45), (47.625, 50), (50.0, 50), (45.0, 45)):
        ask("touching privileges at %s" % dial, to, PARTED, dial)
    ask("a privilege without data", "none", NO_DATA)
    ask("a privilege with an empty list", "none", EMPTY_LIST)
    ask("a privilege of data alone", 20, DATA_ONLY, 10.0)
    for license in range(4):
        ask("class %d" % license, "none", license=license)
    # control and direction
    robot = dict(control=AUTOMATIC)
    for direction, low, high in ((0, 30, 40), (1, 20, 75), (2, 20, 75), (3, 30, 40)):
        ask("robot, direction %d, at 0" % direction, low, ROBOT, 0.0, direction=direction, **robot)
        ask("robot, direction %d, at 100" % direction, high, ROBOT, 100.0, direction=direction, **robot)
        ask("local, direction %d" % direction, 75, ROBOT, 100.0, direction=direction)
        ask("remote, direction %d" % direction, 20, ROBOT, 0.0, direction=direction, control=1)
        ask("no response required, direction %d" % direction, 75, NO_RESPONSE, 100.0,
            direction=direction, **robot)
        ask("no elsewhere, direction %d" % direction, 75 if direction == 2 else 40,
            census.NO_ELSEWHERE, 100.0, direction=direction, **robot)
        ask("excluded, direction %d" % direction, 30 if direction == 2 else 120, EXCLUDED,
            direction=direction, **robot)
    ask("excluded, local", 30, EXCLUDED)
    ask("excluded, between", 75, EXCLUDED, 97.5)
    ask("excluded, between, a robot", 120, EXCLUDED, 97.5, **robot)
    ask("responding, just as wide as elsewhere", 20, ROBOT, 0.0, direction=1, **robot)
    ask("responding, wider than elsewhere", 30, ROBOT, 0.0, both(0.0, 5.125), direction=1, **robot)
    ask("responding, wider than elsewhere, at 100", Fraction(319, 8), ROBOT, 100.0, both(0.0, 5.125),
        direction=1, **robot)
    for dial, to in ((47.5, 40), (47.625, 55), (47.375, 40), (0.0, 30), (99.0, 65)):
        ask("two automatic segments at %s" % dial, to, ROBOTS, dial, **robot)
    # about nought
    for dial, to in ((0.0, Fraction(-45, 2)), (-0.0, Fraction(-45, 2)), (0.125, Fraction(45, 2)),
                     (-0.125, Fraction(-45, 2)), (-30.0, -30)):
        ask("about nought at %s" % dial, to, ABOUT, dial, both(-2.5, 2.5))
    ask("a row up to nought", 0, TO_NOUGHT, 10.0)
    ask("a row up to nought, at -0", 0, TO_NOUGHT, -0.0)
    ask("negative noughts", 0, TO_NOUGHT, 10.0, (-0.0, 5.0, -0.0, 5.0), margin=-0.0)
    # the practice table
    general = dict(license=2, margin=50.0, edges=both(1250.0, 1750.0))
    for dial, to in ((14000000.0, 14023800), (14023799.875, 14023800), (14148200.125, 14148200),
                     (14100000.0, 14100000), (5330550.0, 14023800), (5355000.0, 14023800)):
        ask("practice at %s" % dial, to, PRACTICE, dial, **general)
    for dial, to in ((14098500.0, 14097700), (14098500.125, 14099300), (14098499.875, 14097700),
                     (14000000.0, 14093800), (14200000.0, 14110200)):
        ask("practice, automatic, at %s" % dial, to, PRACTICE, dial, control=AUTOMATIC, **general)
    ask("practice, automatic, responding", 14023800, PRACTICE, 14000000.0, control=AUTOMATIC,
        direction=1, **general)


def far(c):
    """Figures of 2^38 and beyond."""
    ask, f = c.ask, Fraction(FAR)
    ask("the highest band", f - 80, HIGHEST, 0.0)
    ask("the highest band, from above", f - 25, HIGHEST, FAR)
    ask("the lowest band", -f + 75, LOWEST, 0.0)
    ask("the lowest band, from below", -f + 20, LOWEST, -FAR)
    ask("from one end to the other", -f + 75, LOWEST, FAR)
    ask("from one end to the other, up", f - 80, HIGHEST, -FAR)
    ask("everything, at 2^38", f - 5, WHOLE, FAR)
    ask("everything, at -2^38", -f, WHOLE, -FAR)
    # row ends of 3 * 2^38
    edges = both(-FAR, 5.0 - FAR)
    ask("a row at 3 * 2^38", 3 * f - 80, HIGHEST, 0.0, edges, lower=FAR, upper=-FAR)
    ask("a row at 3 * 2^38, from 2^38", 3 * f - 80, HIGHEST, FAR, edges, lower=FAR, upper=-FAR)
    ask("a row at 3 * 2^38, from -2^38", 3 * f - 80, HIGHEST, -FAR, edges, lower=FAR, upper=-FAR)
    ask("asked again from there", "not judged", HIGHEST, 3 * FAR - 80.0, edges, lower=FAR, upper=-FAR)
    # on lower sideband: (low + audio high) + lower and (high + audio low) - upper
    ask("a row at -3 * 2^38", -3 * f + 80, LOWEST, 0.0, edges, sideband=1, lower=-FAR, upper=FAR)
    ask("a row at -3 * 2^38, from 2^38", -3 * f + 80, LOWEST, FAR, edges, sideband=1, lower=-FAR, upper=FAR)
    ask("a row at -3 * 2^38, from -2^38", -3 * f + 80, LOWEST, -FAR, edges, sideband=1, lower=-FAR, upper=FAR)
    # the farthest that a row can lie, of one dial
    last = census.small(bands=[build.record(FAR - EIGHTH, FAR, band=1)],
                        segments=[build.record(FAR - EIGHTH, FAR, band=1)],
                        privileges=[build.record(FAR - EIGHTH, FAR, cls=4)])
    ask("the farthest row", 3 * f - Fraction(1, 8), last, -FAR, both(-FAR, -FAR), lower=FAR,
        upper=EIGHTH - FAR)
    ask("just as wide as a limit of 2^38", f, WHOLE, 0.0, both(-FAR, 0.0), lower=FAR, upper=-FAR)
    ask("wider", "none", WHOLE, 0.0, both(-FAR, EIGHTH), lower=FAR, upper=-FAR)
    ask("as wide as can be", "none", WHOLE, 0.0, both(-FAR, FAR), margin=FAR)
    # one eighth more
    for sign in (1.0, -1.0):
        ask("dial, %s * (2^38 + 1/8)" % sign, "not judged", dial=sign * (FAR + EIGHTH))
        ask("dial, %s * 2^40" % sign, "not judged", dial=sign * 2.0 ** 40)
        ask("dial, %s * (2^40 + 1/8)" % sign, "refused 21", dial=sign * (2.0 ** 40 + EIGHTH))
        for i in range(4):
            # reading 0 leaves the spectral pair out, 1 the power pair
            for reading in (0, 1):
                for x in (FAR, FAR + EIGHTH):
                    edge = tuple(sign * x if j == i else e for j, e in enumerate(EDGES))
                    told = 20 if x == FAR and reading != i // 2 else "not judged" if x > FAR else None
                    ask("edge %d, %s * %s, reading %d" % (i, sign, x, reading), told,
                        census.small(block=dict(reading=reading)), 10.0, edge)
        ask("an edge of %s * 2^40" % sign, "not judged", edges=(0.0, 5.0, sign * 2.0 ** 40, 5.0))
        ask("an edge of %s * (2^40 + 1/8)" % sign, "refused 15",
            edges=(0.0, 5.0, 0.0, sign * (2.0 ** 40 + EIGHTH)))
        for side in ("lower", "upper"):
            ask("%s margin, %s * 2^38" % (side, sign), "none" if sign > 0 else "not judged",
                **{side: sign * FAR})
            ask("%s margin, %s * (2^38 + 1/8)" % (side, sign), "not judged", **{side: sign * (FAR + EIGHTH)})
        ask("a margin of %s * 2^40" % sign, "not judged", upper=sign * 2.0 ** 40)
        ask("a margin of %s * (2^40 + 1/8)" % sign, "refused 21", lower=sign * (2.0 ** 40 + EIGHTH))


# Each hertz figure of `full`: what it is, and one that is not in eighths; then one of 2^38 and one an
# eighth beyond, where the image is accepted with it.
FIGURES = [
    ("data", 10.0625, FAR), ("elsewhere", 5.0625, FAR), ("elsewhere", -5.0625, -FAR),
    ("width", 10.0625, FAR), ("width", -10.0625, -FAR), ("offset", 2.0625, FAR),
    ("offset", -2.0625, -FAR), ("tolerance", 1.0625, FAR), ("tolerance", -1.0625, -FAR),
    ("band low", -0.0625, -FAR), ("band high", 100.0625, FAR), ("segment low", 20.0625, None),
    ("segment high", 79.9375, None), ("segment figure", 8.0625, FAR), ("channel low", 90.0625, FAR),
    ("channel low", -90.0625, -FAR), ("privilege low", 0.0625, -FAR), ("privilege high", 99.9375, FAR),
    ("automatic low", 30.0625, -FAR), ("automatic high", 44.9375, FAR), ("power low", 0.0625, -FAR),
    ("power low", 0.0625, FAR), ("power high", 100.0625, FAR), ("plan data low", 0.0625, FAR),
    ("plan data high", 50.0625, -FAR), ("plan avoid low", 60.0625, -FAR), ("plan avoid high", 70.0625, FAR),
]


def premises(c):
    """Each premise that fails alone, beside one that just doesn't."""
    ask = c.ask
    ask("every kind of record", 20, full(), 10.0)
    ask("every kind of record, 2^40 W", 20, full(watts=2.0 ** 40), 10.0)
    seen = set()
    for name, off, size in FIGURES:
        def alone(x, told):
            image = full({name: x}, only=name.rsplit(" ", 1)[0])
            # no other premise fails
            names = failing({**STATION, "dial": bits(10.0)}, EDGES, image)
            assert (len(names) == 0) == (told != "not judged") and len(names) <= 1, (name, names)
            ask("%s %r" % (name, x), told, image, 10.0)
        if name not in seen:
            alone(off, "not judged")
        seen.add(name)
        if size is not None:
            alone(size, 20)
            alone(math.copysign(FAR + EIGHTH, size), "not judged")
    # a segment as far as its band, which an eighth beyond 2^38 it can't be alone
    ask("segment to 2^38", 500, full({"segment high": FAR, "band high": FAR, "privilege high": FAR}), 500.0)
    ask("segment from -2^38", -500, full({"segment low": -FAR, "band low": -FAR, "privilege low": -FAR}), -500.0)
    ask("segment beyond 2^38", "not judged",
        full({"segment high": FAR + EIGHTH, "band high": FAR + EIGHTH, "privilege high": FAR}), 500.0)
    ask("the smallest figure off the grid", "not judged", full({"width": 5e-324}), 10.0)
    ask("2^38 less a fourth of an eighth", "not judged", full({"data": FAR - EIGHTH / 4}), 10.0)
    # station and signal
    for policy in (0, 1, 3):
        ask("policy %d" % policy, "not judged", policy=policy)
        ask("policy %d, no image" % policy, "not judged", b"", policy=policy)
        ask("policy %d, a damaged image" % policy, "not judged", census.LETTERS, policy=policy)
    ask("region 3", "not judged", region=3)
    for name in ("control", "license", "sideband"):
        ask("no " + name, "not judged", **{name: reference.ABSENT})
    ask("no dial", "not judged", dial_here=0)
    ask("no dial, and that a NaN", "not judged", dial=math.nan, dial_here=0)
    ask("no power, and that a NaN", 30, power=math.nan)
    for i in range(4):
        for reading in (0, 1):
            edge = tuple(e + 0.0625 if j == i else e for j, e in enumerate(EDGES))
            ask("edge %d off the grid, reading %d" % (i, reading), "not judged",
                census.small(block=dict(reading=reading)), edges=edge)
    for side in ("lower", "upper"):
        ask("%s margin 0.0625" % side, "not judged", **{side: 0.0625})
        ask("%s margin -0.0625" % side, "not judged", **{side: -0.0625})
    ask("dial 5e-324", "not judged", dial=5e-324)
    # untidy: a segment of no band of its number; bands, segments, privileges that share a stretch
    spans = (0.0, 100.0), (99.875, 110.0)
    ask("untidy, the number", "not judged", census.small(segments=[build.record(20.0, 80.0, band=2)]))
    ask("untidy bands", "not judged",
        census.small(bands=[build.record(*span, band=1 + i) for i, span in enumerate(spans)]))
    ask("untidy segments", "not judged",
        census.small(segments=[build.record(20.0, 80.0, band=1), build.record(79.875, 90.0, band=1)]))
    ask("untidy privileges", "not judged",
        census.small(privileges=[build.record(*span, cls=4) for span in spans]))
    ask("untidy privileges of another class", "not judged",
        census.small(privileges=[build.record(0.0, 100.0, cls=4)]
                     + [build.record(*span, cls=1) for span in spans]))
    ask("privileges of two classes", 20,
        census.small(privileges=[build.record(*span, cls=4 - i) for i, span in enumerate(spans)]), 10.0)
    ask("touching bands", 20,
        census.small(bands=[build.record(0.0, 100.0, band=1), build.record(100.0, 110.0, band=1)]), 10.0)


REFUSED_IMAGES = {
    1: SMALL[:91],
    2: census.LETTERS,
    3: build.image(build.general(), edition=3),
    4: build.image(build.general(), distance=65),
    5: census.small(block=dict(reading=3)),
    6: census.small(block=dict(data=math.inf)),
    7: census.small(bands=[build.record(100.0, 100.0, band=1)]),
    8: census.small(segments=[build.record(80.0, 20.0, band=1)]),
    9: census.small(automatic=[build.record(30.0, 30.0)]),
    10: census.small(privileges=[build.record(100.0, 0.0, cls=4)]),
    11: census.small(segments=[]),
    12: census.small(segments=[build.record(20.0, 101.0, band=1)]),
    13: census.small(segments=[build.record(20.0, 80.0, 0.0, band=1, flags=1)]),
    14: census.small(block=dict(data=0.0)),
}


def refusals(c):
    """Each number, and each before those behind it and before "not judged"."""
    ask = c.ask
    nan = both(math.nan, 5.0)
    for name, station in (("policy", dict(policy=4)), ("control", dict(control=3)),
                          ("licence", dict(license=5)), ("sideband", dict(sideband=2)),
                          ("plan", dict(plan=2)), ("dial presence", dict(dial_here=2)),
                          ("power presence", dict(power_here=255))):
        ask("20 by " + name, "refused 20", **station)
    for direction in (4, 128, 255):
        ask("20 by direction %d" % direction, "refused 20", direction=direction)
    ask("20 before 21", "refused 20", direction=4, lower=math.nan)
    ask("20 before 22", "refused 20", b"", plan=3)
    ask("20 before 2", "refused 20", census.LETTERS, direction=4)
    ask("20 before 15", "refused 20", direction=4, edges=nan)
    ask("20 before not judged", "refused 20", direction=4, region=3)
    for i, x in enumerate((math.nan, math.inf, -math.inf, math.nan)):
        ask("15 by edge %d %s" % (i, x), "refused 15",
            edges=tuple(x if j == i else e for j, e in enumerate(EDGES)))
    for x in (math.nan, math.inf):
        for name in ("lower", "upper", "dial"):
            ask("21 by %s %s" % (name, x), "refused 21", **{name: x})
        ask("21 by power %s" % x, "refused 21", power=x, power_here=1)
    for policy in range(4):
        ask("21, policy %d" % policy, "refused 21", policy=policy, upper=math.nan)
        ask("15, policy %d" % policy, "refused 15", policy=policy, edges=nan)
    ask("21 before 22", "refused 21", b"", dial=math.inf)
    ask("21 before 2", "refused 21", census.LETTERS, dial=math.inf)
    ask("21 before 15", "refused 21", dial=math.inf, edges=nan)
    ask("21 before not judged", "refused 21", dial=math.inf, control=reference.ABSENT)
    ask("22", "refused 22", b"")
    ask("22 before 15", "refused 22", b"", edges=nan)
    ask("22 before not judged", "refused 22", b"", dial=30.0625)
    for number, image in REFUSED_IMAGES.items():
        ask("%d" % number, "refused %d" % number, image)
    ask("2 before 15", "refused 2", census.LETTERS, edges=nan)
    ask("14 before 15", "refused 14", REFUSED_IMAGES[14], edges=nan)
    ask("2 before not judged", "refused 2", census.LETTERS, dial_here=0)
    ask("15 before not judged", "refused 15", edges=nan, dial=30.0625)
    ask("15 before not judged, untidy", "refused 15", edges=nan,
        image=census.small(segments=[build.record(20.0, 80.0, band=2)]))


# ---------------------------------------------------------------------------------------------
# Drawn cases

def points(draw, count, low, high):
    """So many different figures in eighths, in their order."""
    return [x / 8 for x in sorted(draw.sample(range(8 * low, 8 * high + 1), count))]


def ranges(draw, low, high, most):
    """Ranges that share no stretch; some touch."""
    n = draw.randint(1, most)
    ends = points(draw, 2 * n, low, high)
    out = [(ends[2 * i], ends[2 * i + 1]) for i in range(n)]
    for i in range(n - 1):
        if draw.random() < 0.3:
            out[i] = out[i][0], out[i + 1][0]
    draw.shuffle(out)
    return out


def drawn_table(draw):
    """A small table, tidy mostly."""
    offset = draw.choice((0, 0, -20, 100))
    area = offset, offset + 40
    bands = [(a, b, draw.choice((1, 2, 3))) for a, b in ranges(draw, *area, 3)]
    if draw.random() < 0.4:
        bands = [(float(offset), offset + 40.0, draw.choice((1, 2)))]
    segments = []
    for a, b, number in bands:
        spans = [(a, b)]
        if b - a >= 6.0 and draw.random() < 0.7:
            spans = ranges(draw, math.ceil(a), math.floor(b), 3)
        for x, y in spans:
            own = draw.random() < 0.2
            home = 9 if draw.random() < 0.02 else number
            segments.append(build.record(x, y, draw.randint(1, 80) / 8 if own else 0.0, band=home,
                                         flags=int(own)))
    privileges = []
    for cls in (4, 4, 2) if draw.random() < 0.1 else (4, 2):
        wide = draw.random() < 0.6
        for x, y in [(offset - 10.0, offset + 50.0)] if wide else ranges(draw, *area, 3):
            listed = draw.random() < 0.15
            privileges.append(build.record(x, y, cls=cls, emissions=draw.randint(0, 15) if listed else 0,
                                           flags=int(listed)))
    draw.shuffle(segments)
    draw.shuffle(privileges)
    flags, block, more = 0, {}, {}
    if draw.random() < 0.5:
        flags |= 1 | draw.choice((0, 2))
        block["elsewhere"] = draw.randint(0, 80) / 8
    if draw.random() < 0.6:
        more["automatic"] = [build.record(a, b) for a, b in ranges(draw, *area, 3)]
    if draw.random() < 0.2:
        more["excluded"] = [build.record(band=draw.choice((1, 2, 3)))]
    if draw.random() < 0.5:
        flags |= 4
        block.update(channel_band=draw.choice((1, 2, 3, 4)), width=draw.randint(1, 80) / 8,
                     offset=draw.randint(-16, 16) / 8, tolerance=draw.randint(0, 16) / 8,
                     sideband=draw.randint(0, 1))
        more["channels"] = [build.record(x) for x in points(draw, draw.randint(0, 3), *area)]
    if draw.random() < 0.2:
        more["power"] = [build.record(0.0, 50.0, 9.15)]
    image = build.image(
        build.general(data=draw.choice((10.0, 10.0, draw.randint(1, 120) / 8)), region=2,
                      reading=draw.randint(0, 2), flags=flags, **block),
        bands=[build.record(a, b, band=number) for a, b, number in bands],
        segments=segments, privileges=privileges, **more)
    return build.raised(image) if draw.random() < 0.2 else image


def drawn(draw):
    """A station, direction and edges."""
    low = draw.randint(-40, 80) / 8
    high = low + draw.choice((draw.randint(1, 24), draw.randint(1, 40), draw.randint(-8, 90))) / 8
    other = [x + draw.randint(-8, 8) / 8 for x in (low, high)] if draw.random() < 0.4 else [low, high]
    edges = [low, high, *other] if draw.random() < 0.5 else [*other, low, high]
    lower = draw.choice((0, 0, draw.randint(-16, 24))) / 8
    upper = lower if draw.random() < 0.5 else draw.choice((0, draw.randint(-16, 24))) / 8
    station = {**STATION, "control": draw.choice((0, 1, 2, 2)), "sideband": draw.randint(0, 1),
               "license": draw.choice((4, 4, 4, 2)), "lower": lower, "upper": upper,
               "dial": draw.randint(-60 * 8, 180 * 8) / 8}
    if draw.random() < 0.08:
        name = draw.choice(("lower", "upper", "dial", "edge"))
        if name == "edge":
            edges[draw.randrange(4)] += 0.0625
        else:
            station[name] += 0.0625
    if draw.random() < 0.05:
        station.update(draw.choice((dict(policy=0), dict(region=1), dict(control=255), dict(dial_here=0),
                                    dict(license=255), dict(sideband=255), dict(plan=2))))
    station = {k: bits(x) if isinstance(x, float) else x for k, x in station.items()}
    return station, draw.randint(0, 3), tuple(edges)


def gaps(rows):
    """What lies between rows: (the end below, the end above)."""
    out, top = [], None
    for low, high in sorted(rows):
        if top is not None and low > top:
            out.append((top, low))
        top = high if top is None else max(top, high)
    return out


def placed(draw, station, direction, edges, image):
    """The station with a dial that lies at the list's rows: on their ends, beside them, in the middle of
    two."""
    if refusal_of(station, direction, edges, image) or failing(station, edges, image):
        return station
    rows = rows_of(station, direction, edges, image)
    if not rows or draw.random() < 0.3:
        return station
    between = gaps(rows)
    if between and draw.random() < 0.7:
        dial = sum(draw.choice(between)) / 2
    else:
        dial = draw.choice(draw.choice(rows))
    dial = Fraction(math.floor(8 * dial), 8)
    if draw.random() < 0.4:
        dial += Fraction(draw.choice((-1, 1)), 8)
    return {**station, "dial": bits(float(dial))}


def some_case(draw):
    image = drawn_table(draw)
    station, direction, edges = drawn(draw)
    return placed(draw, station, direction, edges, image), direction, edges, image


def brute(count, seed):
    """The answer by rows beside one that asks every dial."""
    draw = random.Random("nearest %d" % seed)
    met = {}

    def count_up(key):
        met[key] = met.get(key, 0) + 1

    for _ in range(count):
        station, direction, edges, image = some_case(draw)
        answer, refusal, found = nearest(station, direction, edges, image)
        count_up(("refused", "a dial", "none", "not judged")[answer])
        if answer not in (DIAL, NONE):
            continue
        other = every_dial(station, direction, edges, image)
        if other != found:
            sys.exit("seed %d: by rows %s, by every dial %s\n%r direction %d edges %r\n%s" % (
                seed, found, other, station, direction, edges, image.hex()))
        dial = exact(station["dial"])
        if found is None:
            continue
        rows = rows_of(station, direction, edges, image)
        mirrored = 2 * dial - found
        if found == dial:
            count_up("where it stands")
        elif found > dial:
            count_up("above")
        else:
            count_up("below")
            if any(low <= mirrored <= high for low, high in rows):
                count_up("of two equally close")
    print("%d cases: %s" % (count, ", ".join("%s %d" % (k, met[k]) for k in sorted(met))))


# ---------------------------------------------------------------------------------------------
# Input and output

CASE_BYTES = 8 + 2 + 4 * 8 + 4 * 8 + 2 * 4


def encoded(cases):
    records, images, at = b"", b"", {}
    for _, station, direction, edges, image, _ in cases:
        if image not in at:
            at[image] = 2 + CASE_BYTES * len(cases) + len(images)
            images += image
        records += bytes(station[k] for k in ("policy", "control", "license", "sideband", "region",
                                              "plan", "dial_here", "power_here"))
        records += bytes([0, direction])
        records += struct.pack("<4Q4d2I", station["lower"], station["upper"], station["dial"],
                               station["power"], *edges, at[image], len(image))
    return struct.pack("<H", len(cases)) + records + images


def shown(number, answer):
    kind, refusal, found = answer
    return "%d answer %d refusal %d dial %016x" % (
        number, kind, refusal, INFINITE if found is None else bits(float(found)))


def lines_of(cases):
    return [shown(number, case[5]) for number, case in enumerate(cases)]


def compare(runs, seed):
    """Drawn inputs, of what the program has room for, by crates/run_nearest/out/run_nearest and by the model."""
    program = os.path.join(HERE, "../../crates/run_nearest/out/run_nearest")
    told = {}
    for run in range(runs):
        draw = random.Random("nearest %d %d" % (seed, run))
        cases, size = [], 2
        while len(cases) < 200:
            station, direction, edges, image = some_case(draw)
            size += CASE_BYTES + len(image)
            if size >= 65536:
                break
            answer = nearest(station, direction, edges, image)
            cases.append(("drawn", station, direction, edges, image, answer))
            told[answer[:2]] = told.get(answer[:2], 0) + 1
        ran = subprocess.run([program], input=encoded(cases), stdout=subprocess.PIPE, check=True)
        for one, other in zip(lines_of(cases), ran.stdout.decode().split("\n")):
            if one != other:
                sys.exit("run %d: the model\n%s\nthe program\n%s" % (run, one, other))
        assert ran.stdout.decode().count("\n") == len(cases), "another number of lines"
    print("%d cases agree" % sum(told.values()))
    for key in sorted(told):
        print("%8d answer %d refusal %d" % (told[key], *key))


def main():
    if "--brute" in sys.argv:
        brute(*map(int, sys.argv[2:4]))
        return
    if "--draw" in sys.argv:
        compare(*map(int, sys.argv[2:4]))
        return
    c = Cases()
    by_hand(c)
    far(c)
    premises(c)
    refusals(c)
    lines = lines_of(c.list)
    if "--list" in sys.argv:
        print("\n".join("%s   (%s)" % (line, case[0]) for line, case in zip(lines, c.list)))
        return
    met = {case[5][:2] for case in c.list}
    assert met == {(DIAL, 0), (NONE, 0), (NOT_JUDGED, 0)} | {
        (REFUSED, n) for n in (*range(1, 16), 20, 21, 22)}, met
    data = encoded(c.list)
    assert len(data) < 65536, len(data)
    crate = os.path.join(HERE, "../../crates/run_nearest")
    os.makedirs(crate, exist_ok=True)
    with open(os.path.join(crate, "stdin"), "wb") as out:
        out.write(data)
    with open(os.path.join(crate, "stdout"), "w") as out:
        out.write("\n".join(lines) + "\n")


if __name__ == "__main__":
    main()
