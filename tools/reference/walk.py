"""What crates/run_walk is given, and what it must write: walks of rungs with swaps of the table.

    python3 tools/reference/walk.py           writes crates/run_walk/stdin and stdout (some seconds)
    python3 tools/reference/walk.py --list    prints each line of stdout with the name of its call
    python3 tools/reference/walk.py --draw 40 1
                                              draws 40 times 25 sequences with seed 1, and holds
                                              crates/run_walk/out/run_walk (rt run there) to the model

Input: u16 number of calls, then those, each of 12 bytes: u8 call (0 first, 1 swap, 2 open, 3 step),
u8 which state it is given (0 that of the call before, 1 its own), then u16 each, counted from the
input's first byte, where its own state begins, its station, what it is lent, image 0 and image 1
(0 where it has none). Behind the calls stand those parts:
    state      the four occupied edges by their bits, u32 place, u8 image, waiting and walking
               (39 bytes)
    station    policy, control, licence, sideband, region, plan mark, dial and power presence,
               direction (u8 each), lower and upper margin, dial and power by their bits (41 bytes)
    lent       ordinary and floor edges by their bits, u16 where the rungs' figures begin and how
               many they are, u16 where the floor bytes begin and how many (72 bytes)
    image      u16 its length, its bytes
Output, a line a call: its number, its name, the refusal, of a step the rung (- if none), the
limit's code (- if none) and whether the walk is over; then the state: place, image, waiting,
walking and the occupied edges' bits, those of a NaN all ones.

The model is written from document 02, 10: the state is a dictionary, and a step judges the rung at
its place with what the rungs before it occupied, by the verdict's code as census.py works it out.
"DECISION" marks what the papers leave open. Answers worked out by hand stand beside the calls of
`by_hand`, `codes` and `refusals`; where the model says otherwise, nothing is written.
"""
import math
import os
import random
import struct
import subprocess
import sys

sys.dont_write_bytecode = True

import build
import census
import reference
from census import bits
from practice import PRACTICE

HERE = os.path.dirname(os.path.abspath(__file__))
RULES = 2
FIRST, SWAP, OPEN, STEP = range(4)
NAMES = ("first", "swap", "open", "step")


# ---------------------------------------------------------------------------------------------
# The model

def resting(image):
    """Nobody is walking. DECISION: nothing is occupied then, by four noughts."""
    return {"occupied": (0, 0, 0, 0), "place": 0, "image": image, "waiting": 0, "walking": 0}


def first():
    """"Image 0 is in force at first" """
    return resting(0)


def given_by_a_call(state):
    """DECISION: a state that no call gives meets 20, next to the station's codes. A place is below
    256, since a walk of 256 rungs ends with the last; the occupied edges are looked at only where a
    rung was judged, and are such as 15 lets pass."""
    if state["image"] > 1 or state["waiting"] > 1 or state["walking"] > 1 or state["place"] > 255:
        return False
    if state["walking"] == 0:
        return state["waiting"] == 0 and state["place"] == 0
    return state["place"] == 0 or all(reference.in_size(edge) for edge in state["occupied"])


def occupied_of(state):
    """What the rungs judged so far occupy: "Negative zero in edges [...] reads as zero"."""
    if state["place"] == 0:
        return (0, 0, 0, 0)
    return tuple(reference.as_read(edge) for edge in state["occupied"])


def swap(state):
    """"A swap may be made while a walk is open: the walk finishes under the table it began with,
    the next begins under the new one." "A table with nobody walking takes force immediately."
    "It refuses (29) a second swap while one waits"."""
    if state["waiting"] == 1:
        return 29, state
    if not given_by_a_call(state):
        return 20, state
    if state["walking"] == 1:
        return 0, {**state, "occupied": occupied_of(state), "waiting": 1}
    return 0, resting(1 - state["image"])


def open_walk(state):
    """"(30, next) [...] an opening while one is open"."""
    if state["walking"] == 1:
        return 30, state
    if not given_by_a_call(state):
        return 20, state
    return 0, {**resting(state["image"]), "walking": 1}


def ended(state):
    """"a swap changes to the other of the two": one that waited takes force as the walk ends."""
    return resting(1 - state["image"] if state["waiting"] == 1 else state["image"])


def union(one, other):
    """"The envelope gathers rung and control edges": the lower lows and the higher highs."""
    return tuple(bits(choose(reference.figure_of(a), reference.figure_of(b)))
                 for choose, a, b in zip((min, max, min, max), one, other))


def on_channel(judge, dial):
    """Whether code 24 is legal for data, as the Rust's `sixty_channel` has it: "a data emission on
    the channel's sideband, its carrier (the dial) where §97.303(h)(3) puts it, and all of it
    inside the channel". Document 01: "5,330,550 legal 24; 5,330,550.125 blocked 24"."""
    station, (low, high) = judge.station, judge.audio
    air = (dial + low, dial + high) if station["sideband"] == 0 else (dial - high, dial - low)
    guarded = air[0] - station["lower"], air[1] + station["upper"]
    width, offset, tolerance = judge.figures[2:5]
    for (centre, _, _), _ in judge.tables[reference.CHANNELS]:
        channel = centre - width / 2.0, centre + width / 2.0
        if census.overlaps(*channel, *guarded):
            return (station["sideband"] == judge.general[44]
                    and abs(dial - (centre - offset)) <= tolerance
                    and census.held(*channel, *guarded))
    return False


def blocking_code(station, direction, edges, image):
    """The code of the verdict on a data signal with these edges, where it is Blocked; else None.
    `station` is as it is read. "Prerequisites in order: region, control, licence, sideband, dial":
    census.py knows no absent dial, 9."""
    absent = station["dial"] is None
    dial = 0.0 if absent else reference.figure_of(station["dial"])
    sides = {side: reference.figure_of(station[side]) for side in ("lower", "upper")}
    judge = census.Judge({**station, **sides}, census.DATA, direction,
                         [reference.figure_of(e) for e in edges], image)
    code = judge.code_at(dial)
    if absent and code > 9:
        return 9
    # no_rules, permitted, automatic_segment, automatic_response, sixty_segment
    if code in (3, 16, 17, 21, 25) or code == 24 and on_channel(judge, dial):
        return None
    return code


def refusal_of(station, direction, ordinary, floor, image, figures, floors):
    """The ceiling's: "Order: 20, 21, 22, 1 to 14, 15, 16"."""
    refusal, _ = reference.read_station(station, direction, census.DATA, len(image))
    if refusal:
        return refusal
    if station["policy"] == RULES and reference.check_image(image):
        return reference.check_image(image)
    if not all(reference.in_size(edge) for edge in ordinary + floor + figures):
        return 15
    rungs = len(figures) // 4
    if len(figures) % 4 or rungs > 256 or len(floors) != rungs or any(f > 1 for f in floors):
        return 16
    return 0


def burst(ordinary, floor, figures, floors, k):
    """"four figures a rung (power, spectral), with a floor byte each (1 joins the floor control
    edges, 0 the ordinary ones)"."""
    rung, control = figures[4 * k:4 * k + 4], floor if floors[k] == 1 else ordinary
    return union(*(tuple(reference.as_read(edge) for edge in edges) for edges in (rung, control)))


def step(state, lent):
    """"Each step gives the ceiling that the rungs judged so far give, and whether the walk is
    over." "It refuses [...] (30, next) a step with no walk open". "A refusal by any number leaves
    the state unchanged." DECISION: a refusal does not say that the walk is over."""
    def answer(refusal, rung, limit, over, after):
        return {"refusal": refusal, "rung": rung, "limit": limit, "over": over, "state": after}

    if state["walking"] == 0:
        return answer(30, None, None, False, state)
    if not given_by_a_call(state):
        return answer(20, None, None, False, state)
    station, direction, ordinary, floor, images, figures, floors = lent
    # "A step reads only its walk's image."
    image = images[state["image"]]
    refusal = refusal_of(station, direction, ordinary, floor, image, figures, floors)
    if refusal:
        return answer(refusal, None, None, False, state)
    place = state["place"]
    judged = place - 1 if place else None
    # "a step lent no rung at its place ends it, judging nothing"
    if place >= len(floors):
        return answer(0, judged, None, True, ended(state))
    occupied = burst(ordinary, floor, figures, floors, place)
    if place:
        occupied = union(occupied_of(state), occupied)
    _, read = reference.read_station(station, direction, census.DATA, len(image))
    code = blocking_code(read, direction, occupied, image)
    # "A walk ends with its first blocked rung or its last rung"
    if code:
        return answer(0, judged, code, True, ended(state))
    if place + 1 == len(floors):
        return answer(0, place, None, True, ended(state))
    return answer(0, place, None, False, {**state, "occupied": occupied, "place": place + 1})


def ceiling(lent, which):
    """Document 01's ceiling on one of the two images: (refusal, rung, limit)."""
    station, direction, ordinary, floor, images, figures, floors = lent
    refusal = refusal_of(station, direction, ordinary, floor, images[which], figures, floors)
    if refusal:
        return refusal, None, None
    _, read = reference.read_station(station, direction, census.DATA, len(images[which]))
    bursts = [burst(ordinary, floor, figures, floors, k) for k in range(len(floors))]
    for k in range(len(bursts)):
        envelope = bursts[0]
        for more in bursts[1:k + 1]:
            envelope = union(envelope, more)
        code = blocking_code(read, direction, envelope, images[which])
        if code:
            return 0, k - 1 if k else None, code
    return 0, len(bursts) - 1 if bursts else None, None


# ---------------------------------------------------------------------------------------------
# What the calls are given

SMALL = census.SMALL                                    # data at most 10 wide
NARROW = census.small(block=dict(data=4.0))             # at most 4
HIGHER = census.small(segments=[build.record(60.0, 80.0, band=1)])
NO_DATA = census.small(block=dict(flags=4 + 8, channel_band=1, width=10.0, offset=2.0,
                                  tolerance=1.0, emissions=2), channels=[build.record(90.0)])
LOWER_CHANNEL = census.small(block=dict(flags=4, channel_band=1, width=10.0, offset=2.0,
                                        tolerance=1.0, sideband=1), channels=[build.record(90.0)])
REFUSED = {
    1: SMALL[:91],
    2: census.LETTERS,
    3: build.image(build.general(), edition=3),
    4: build.image(build.general(), distance=65),
    5: census.small(block=dict(reading=3)),
    6: census.small(block=dict(data=math.inf)),
    7: census.small(bands=[build.record(100.0, 100.0, band=1)]),
    8: census.small(segments=[build.record(80.0, 20.0, band=1)]),
    9: census.small(automatic=[build.record(30.0, 30.0)]),
    10: census.small(privileges=[build.record(100.0, 0.0, cls=4)]),
    11: census.small(segments=[]),
    12: census.small(segments=[build.record(20.0, 101.0, band=1)]),
    13: census.small(segments=[build.record(20.0, 80.0, 0.0, band=1, flags=1)]),
    14: census.small(block=dict(data=0.0)),
}
NAN, INFINITE, BELOW, OVER = (bits(x) for x in (math.nan, math.inf, -math.inf, 2.0 ** 40 + 1.0))
MINUS_NOUGHT, MOST, LEAST = bits(-0.0), bits(2.0 ** 40), bits(-2.0 ** 40)


def pairs(low, high, *spectral):
    """Four edges by their bits; both pairs alike where one is given."""
    return tuple(bits(float(x)) for x in (low, high, *(spectral or (low, high))))


def ladder(*rungs):
    return tuple(edge for rung in rungs for edge in pairs(*rung))


TWO = ladder((0, 5), (0, 9))
STATION = {**census.STATION, "dial_here": 1, "dial": bits(30.0)}


def lent(images=(SMALL, NARROW), figures=TWO, floors=None, direction=0, ordinary=pairs(0, 5),
         floor=pairs(0, 5), **station):
    """What a step is lent. A station figure that is a float stands for its bits."""
    given = {k: bits(v) if isinstance(v, float) else v for k, v in station.items()}
    floors = bytes(len(figures) // 4) if floors is None else bytes(floors)
    return {**STATION, **given}, direction, ordinary, floor, images, figures, floors


def at(place=0, image=0, waiting=0, walking=0, occupied=(0, 0, 0, 0)):
    return {"occupied": occupied, "place": place, "image": image, "waiting": waiting,
            "walking": walking}


class Calls:
    """The calls in their order, each with its name, its answer and what it was given."""

    def __init__(self):
        self.list, self.state, self.name = [], first(), ""

    def call(self, which, own=None, given=None, expected=None):
        """One call more, in the state of the one before or in its own. `expected`, by hand: the
        state of a first call, (refusal, state) of swap and open, (refusal, rung, limit, over,
        state) of a step; a state that is None is the one that the call was given."""
        before = self.state if own is None else own
        if which == FIRST:
            answer = {"refusal": 0, "state": first()}
        elif which == STEP:
            answer = step(before, given)
        else:
            refusal, after = (swap if which == SWAP else open_walk)(before)
            answer = {"refusal": refusal, "state": after}
        if expected is not None:
            wanted = expected[:-1] + (before if expected[-1] is None else expected[-1],)
            if wanted != tuple(answer.values()):
                sys.exit("%s, %s: by hand %s, the model %s"
                         % (self.name, NAMES[which], wanted, answer))
        self.list.append((which, self.name, own, given, answer))
        self.state = answer["state"]
        return answer

    def first(self):
        self.call(FIRST, expected=(0, at()))

    def swap(self, refusal, after=None, own=None):
        self.call(SWAP, own, None, (refusal, after))

    def open(self, refusal, after=None, own=None):
        self.call(OPEN, own, None, (refusal, after))

    def step(self, given, refusal, rung=None, limit=None, over=False, after=None, own=None):
        self.call(STEP, own, given, (refusal, rung, limit, over, after))


# ---------------------------------------------------------------------------------------------
# Worked out by hand: small is band 0 to 100, segment 20 to 80, an Extra's privilege 0 to 100

def by_hand(c):
    five, nine = pairs(0, 5), pairs(0, 9)
    usual = lent()
    opened, going = at(walking=1), at(1, walking=1, occupied=five)

    c.name = "swap with nobody walking"
    c.first()
    c.swap(0, at(image=1))
    c.swap(0, at(image=0))
    c.swap(0, at(image=1))
    c.open(0, at(image=1, walking=1))
    c.step(usual, 0, None, 12, True, at(image=1))        # 5 wide, where 4 is the most
    c.step(usual, 30)
    c.first()
    c.step(usual, 30)

    c.name = "a swap waits for the last rung"
    c.first()
    c.open(0, opened)
    c.open(30)
    c.step(usual, 0, 0, None, False, going)
    c.swap(0, at(1, 0, 1, 1, five))
    c.swap(29)
    c.open(30)
    c.step(usual, 0, 1, None, True, at(image=1))
    c.open(0, at(image=1, walking=1))
    c.step(usual, 0, None, 12, True, at(image=1))        # the next walk, under the new table
    c.swap(0, at(image=0))                               # free again
    c.open(0, opened)
    c.swap(0, at(0, 0, 1, 1))
    c.step(usual, 0, 0, None, False, at(1, 0, 1, 1, five))
    c.step(usual, 0, 1, None, True, at(image=1))
    c.swap(0, at(image=0))

    c.name = "a swap waits for a blocked rung"
    wide = lent(figures=ladder((0, 5), (0, 11), (0, 5)))
    c.first()
    c.open(0, opened)
    c.step(wide, 0, 0, None, False, going)
    c.swap(0, at(1, 0, 1, 1, five))
    c.swap(29)
    c.step(wide, 0, 0, 12, True, at(image=1))
    c.step(wide, 30)
    c.swap(0, at(image=0))
    c.open(0, opened)
    c.swap(0, at(0, 0, 1, 1))
    c.step(lent(dial=90.0), 0, None, 14, True, at(image=1))
    c.open(0, at(image=1, walking=1))
    c.swap(0, at(0, 1, 1, 1))
    c.step(usual, 0, None, 12, True, at(image=0))        # and back to image 0

    c.name = "a swap waits for a place with no rung"
    none = lent(figures=())
    c.first()
    c.open(0, opened)
    c.step(usual, 0, 0, None, False, going)
    c.swap(0, at(1, 0, 1, 1, five))
    c.step(none, 0, 0, None, True, at(image=1))
    c.swap(0, at(image=0))
    c.open(0, opened)
    c.step(usual, 0, 0, None, False, going)
    c.swap(0, at(1, 0, 1, 1, five))
    c.step(lent(figures=ladder((0, 11))), 0, 0, None, True, at(image=1))     # nothing is judged

    c.name = "a walk with no rungs"
    c.first()
    c.open(0, opened)
    c.step(none, 0, None, None, True, at())
    c.step(none, 30)
    for policy in (0, 1, 3):
        c.open(0, opened)
        c.step(lent(figures=(), policy=policy), 0, None, None, True, at())
    c.open(0, opened)
    c.swap(0, at(0, 0, 1, 1))
    c.step(none, 0, None, None, True, at(image=1))

    c.name = "a walk whose image is refused"
    for image, number in ((b"", 22), (census.LETTERS, 2)):
        damaged = lent((image, NARROW))
        c.first()
        c.open(0, opened)
        c.step(damaged, number)
        c.step(lent((image, NARROW), figures=()), number)                    # not ended so
        c.swap(0, at(0, 0, 1, 1))
        c.step(damaged, number)
        c.swap(29)
        c.step(usual, 0, 0, None, False, at(1, 0, 1, 1, five))               # lent whole again
        c.step(damaged, number)
        c.step(usual, 0, 1, None, True, at(image=1))

    c.name = "the other image is empty or damaged"
    for other, number in ((b"", 22), (census.LETTERS, 2), (SMALL[:91], 1), (REFUSED[14], 14)):
        c.first()
        c.open(0, opened)
        c.step(lent((SMALL, other)), 0, 0, None, False, going)
        c.swap(0, at(1, 0, 1, 1, five))
        c.step(lent((SMALL, other)), 0, 1, None, True, at(image=1))
        c.open(0, at(image=1, walking=1))
        c.step(lent((other, SMALL)), 0, 0, None, False, at(1, 1, 0, 1, five))
        c.step(lent((SMALL, other)), number)
        c.step(lent((other, SMALL)), 0, 1, None, True, at(image=1))

    c.name = "policies other than Rules"
    for images in ((SMALL, NARROW), (b"", census.LETTERS)):
        for policy, limit in ((0, 1), (1, None), (3, 2)):
            other = lent(images, policy=policy, figures=ladder((0, 5), (0, 5000)))
            c.first()
            c.open(0, opened)
            if limit:
                c.step(other, 0, None, limit, True, at())
            else:
                c.step(other, 0, 0, None, False, going)
                c.swap(0, at(1, 0, 1, 1, five))
                c.step(other, 0, 1, None, True, at(image=1))

    c.name = "other parts from step to step"
    c.first()
    c.open(0, opened)
    c.step(usual, 0, 0, None, False, going)
    c.step(lent(dial=90.0), 0, 0, 14, True, at())
    c.open(0, opened)                                    # fewer rungs than were judged, then more
    c.step(lent(figures=TWO + five), 0, 0, None, False, going)
    c.step(lent(figures=TWO + five), 0, 1, None, False, at(2, walking=1, occupied=nine))
    c.step(lent(figures=five), 0, 1, None, True, at())
    c.open(0, opened)
    c.step(usual, 0, 0, None, False, going)
    c.step(lent(figures=TWO + five), 0, 1, None, False, at(2, walking=1, occupied=nine))
    c.step(lent(figures=TWO + five), 0, 2, None, True, at())
    c.open(0, opened)                                    # the envelope counts, not the rung alone
    c.step(lent(figures=nine + five), 0, 0, None, False, at(1, walking=1, occupied=nine))
    c.step(lent(figures=nine + five, dial=73.0), 0, 0, 13, True, at())
    c.open(0, opened)                                    # other bytes of its image
    c.step(usual, 0, 0, None, False, going)
    c.step(lent((NARROW, SMALL)), 0, 0, 12, True, at())
    c.open(0, opened)
    c.step(usual, 0, 0, None, False, going)
    c.step(lent((HIGHER, SMALL)), 0, 0, 14, True, at())
    c.open(0, opened)                                    # another policy
    c.step(usual, 0, 0, None, False, going)
    c.step(lent(policy=0), 0, 0, 1, True, at())
    c.open(0, opened)                                    # other directions under automatic control
    robot = dict(images=(census.ROBOT, SMALL), control=census.AUTOMATIC, dial=60.0,
                 figures=ladder((0, 5), (0, 4), (0, 3)))
    c.step(lent(direction=1, **robot), 0, 0, None, False, going)
    c.step(lent(direction=2, **robot), 0, 1, None, False, at(2, walking=1, occupied=five))
    c.step(lent(direction=3, **robot), 0, 1, 20, True, at())
    c.open(0, opened)                                    # other control frames
    c.step(lent(ordinary=nine, floor=five, floors=(1, 0)), 0, 0, None, False, going)
    c.step(lent(figures=TWO + five, ordinary=nine, floor=pairs(-2, 5), floors=(1, 1, 0)),
           0, 0, 12, True, at())                         # -2 to 9

    c.name = "edges as they are read"
    noughts = (MINUS_NOUGHT, bits(5.0)) * 2
    c.first()
    c.open(0, opened)
    c.step(lent(figures=noughts + noughts, ordinary=noughts), 0, 0, None, False, going)
    c.swap(0, at(1, 0, 1, 1, five), own=at(1, walking=1, occupied=noughts))
    c.step(lent(figures=TWO + nine), 0, 1, None, False, at(2, walking=1, occupied=nine),
           own=at(1, walking=1, occupied=noughts))
    inner = ladder((1, 4), (1, 4), (1, 4))
    c.step(lent(figures=inner, ordinary=noughts), 0, 0, None, False, going, own=opened)
    c.step(lent(figures=inner, ordinary=pairs(1, 5), floor=noughts, floors=(1, 0, 0)),
           0, 0, None, False, going, own=opened)
    c.open(0, opened, own=at())
    c.step(lent(figures=ladder((1, 4, -1, 3), (0, 5)), ordinary=pairs(2, 3, 0, 6)),
           0, 0, None, False, at(1, walking=1, occupied=pairs(1, 4, -1, 6)))
    c.step(lent(figures=ladder((1, 4, -1, 3), (5, 0), (0, 5)), ordinary=pairs(2, 3, 0, 6)),
           0, 1, None, False, at(2, walking=1, occupied=pairs(1, 4, -1, 6)))      # low above high
    c.step(lent(figures=ladder((1, 4, -1, 3), (5, 0), (0, 5)), ordinary=pairs(2, 3, 0, 6)),
           0, 2, None, True, at())

    c.name = "document 01's ceiling, a rung a step"
    # "rungs 1,250-1,750, 1,000-2,000, 0-2,900, control 1,250-1,750: rung 1, limit too_wide"
    control = pairs(1250, 1750)
    practice = lent((PRACTICE, build.raised(PRACTICE)),
                    ladder((1250, 1750), (1000, 2000), (0, 2900)), ordinary=control,
                    floor=control, license=2, lower=50.0, upper=50.0, dial=14100000.0)
    for image in (0, 1):
        c.open(0, at(image=image, walking=1), own=at(image=image))
        c.step(practice, 0, 0, None, False, at(1, image, 0, 1, control))
        c.step(practice, 0, 1, None, False, at(2, image, 0, 1, pairs(1000, 2000)))
        c.step(practice, 0, 1, 12, True, at(image=image))
    # "5,330,550 legal 24; 5,330,550.125 blocked 24"
    sixty = dict(images=(PRACTICE, b""), ordinary=control, floor=control, license=2, lower=50.0,
                 upper=50.0, figures=control + control)
    c.open(0, opened, own=at())
    c.step(lent(dial=5330550.0, **sixty), 0, 0, None, False, at(1, walking=1, occupied=control))
    c.step(lent(dial=5330550.125, **sixty), 0, 0, 24, True, at())

    c.name = "256 rungs"
    many = five * 255 + nine
    c.first()
    c.open(0, opened)
    c.step(lent(figures=many), 0, 0, None, False, going)
    c.step(lent(figures=many), 0, 1, None, False, at(2, walking=1, occupied=five))
    c.step(lent(figures=many), 0, 254, None, False, at(255, 0, 1, 1, five),
           own=at(254, 0, 1, 1, five))
    c.step(lent(figures=many + five), 16)
    c.step(lent(figures=many, floors=bytes(255)), 16)
    c.step(lent(figures=many, floors=bytes(255) + b"\2"), 16)
    c.step(lent(figures=many[:-1]), 16)
    c.step(lent(figures=many[:-1] + (NAN,)), 15)         # also the rungs that are not judged yet
    c.step(lent(figures=many), 0, 255, None, True, at(image=1))
    last = at(255, walking=1, occupied=five)
    c.step(lent(figures=many, dial=75.0), 0, 254, 13, True, at(), own=last)
    c.step(usual, 0, 254, None, True, at(), own=last)
    c.step(none, 0, 254, None, True, at(), own=last)
    c.step(lent(figures=many[:-1] + (NAN,)), 15, own=opened)

    c.name = "both editions"
    editions = (SMALL, build.raised(SMALL)), (build.raised(SMALL, 5.0, 50.0), SMALL)
    for images in editions:
        for image in (0, 1):
            same = lent(images, figures=ladder((0, 5), (0, 9), (0, 11)))
            c.open(0, at(image=image, walking=1), own=at(image=image))
            c.step(same, 0, 0, None, False, at(1, image, 0, 1, five))
            c.swap(0, at(1, image, 1, 1, five))
            c.step(same, 0, 1, None, False, at(2, image, 1, 1, nine))
            c.step(same, 0, 1, 12, True, at(image=1 - image))


# ---------------------------------------------------------------------------------------------
# Each code of a verdict

def codes(c):
    """One rung in a walk that is open: blocked by each code that data can meet, or allowed."""
    def judged(code, image=SMALL, edges=(0, 5), blocked=True, **more):
        c.name = "code %d, %s" % (code, "blocked" if blocked else "allowed")
        for which in (0, 1):
            images = (image, b"") if which == 0 else (b"", build.raised(image))
            given = lent(images, figures=ladder(edges), **more)
            c.step(given, 0, None if blocked else 0, code if blocked else None, True,
                   at(image=which), own=at(image=which, walking=1))

    robot = dict(control=census.AUTOMATIC)
    judged(1, policy=0)
    judged(2, policy=3)
    judged(3, blocked=False, policy=1)
    judged(5, region=3)
    judged(6, control=255)
    judged(7, license=255)
    judged(8, sideband=255)
    judged(9, dial_here=0, dial=NAN)
    judged(10, dial=96.0)
    judged(11, census.EXCLUDED, **robot)
    judged(12, edges=(0, 11))
    judged(13, dial=76.0)
    judged(14, dial=81.0)
    judged(15, license=3)
    judged(16, blocked=False)
    judged(17, census.ROBOT, blocked=False, **robot)
    judged(18, census.NO_ELSEWHERE, dial=60.0, **robot)
    judged(19, census.ROBOT, (0, 6), dial=60.0, direction=1, **robot)
    judged(20, census.ROBOT, dial=60.0, direction=3, **robot)
    judged(21, census.ROBOT, blocked=False, dial=60.0, direction=1, **robot)
    judged(22, NO_DATA, dial=88.0)
    judged(23, census.SIXTY, dial=10.0)
    judged(24, census.SIXTY, blocked=False, dial=88.0)
    judged(24, census.SIXTY, dial=86.5)                  # in the channel, the dial off
    judged(24, census.SIXTY, dial=89.0, edges=(0, 6.5))  # over its upper edge
    judged(24, LOWER_CHANNEL, dial=88.0)
    judged(25, census.SIXTY, blocked=False)


# ---------------------------------------------------------------------------------------------
# Refusals, one and two at a time, and states that no call gives

def refusals(c):
    """Each refusal, in a state that is given back to the bit; then two at a time."""
    before = at(1, 1, 1, 1, (MINUS_NOUGHT, bits(5.0), MINUS_NOUGHT, bits(5.0)))

    def meets(number, name, own=before, **more):
        c.name = "%d: %s" % (number, name)
        c.step(lent(**{"images": (b"", SMALL), **more}), number, own=own)

    for field, value in (("policy", 4), ("policy", 255), ("control", 3), ("license", 5),
                         ("sideband", 2), ("plan", 2), ("dial_here", 2), ("power_here", 255),
                         ("direction", 4), ("direction", 255)):
        meets(20, field, **{field: value})
    for field in ("lower", "upper", "dial", "power"):
        for value in (NAN, INFINITE, OVER):
            meets(21, field, power_here=1, **{field: value})
    meets(22, "empty image", images=(SMALL, b""))
    for number, image in REFUSED.items():
        assert reference.check_image(image) == number
        meets(number, "image", images=(SMALL, image))
    five = pairs(0, 5)
    for i in range(4):
        edges = tuple((NAN, INFINITE, BELOW, OVER)[i] if i == j else e for j, e in enumerate(five))
        meets(15, "ordinary edges", ordinary=edges)
        meets(15, "floor edges", floor=edges)
        meets(15, "rung judged before", figures=edges + five + five)
        meets(15, "rung to come", figures=five + five + edges)
    meets(15, "past the last four", figures=TWO + (NAN,), floors=(0, 0))
    for figures, floors in ((TWO + (0,), (0, 0)), (TWO[:-1], (0, 0)), (TWO, (0,)), (TWO, (0, 0, 0)),
                            (TWO, ()), (TWO, (2, 0)), (TWO, (0, 255)), ((), (0,))):
        meets(16, "rungs and floor bytes", figures=figures, floors=floors)
    for policy in (0, 1, 3):
        meets(15, "under policy %d" % policy, policy=policy, images=(b"", b""), ordinary=(NAN,) * 4)
        meets(16, "under policy %d" % policy, policy=policy, images=(b"", b""), floors=(0,))

    wrong = [(30, {"own": at()}), (20, {"own": {**before, "place": 256}}), (20, {"control": 3}),
             (21, {"upper": NAN}), (22, {"images": (SMALL, b"")}),
             (2, {"images": (SMALL, census.LETTERS)}), (15, {"floor": (NAN,) * 4}),
             (16, {"floors": (0,)})]
    for i, (number, one) in enumerate(wrong):
        for later, other in wrong[i + 1:]:
            if not set(one) & set(other):
                meets(number, "and %d" % later, **one, **other)
    c.name = "30 of a walk not open, with a swap that waits"
    c.step(lent(), 30, own=at(waiting=1))


def states(c):
    """Each field of a state outside its values, and at its borders: swap, open, step."""
    five = pairs(0, 5)
    judged, fresh = at(1, 0, 0, 1, five), at(walking=1)

    def tried(name, state):
        c.name = name
        c.call(SWAP, state)
        if state["walking"] != 1 or state["place"] != 1:
            c.call(OPEN, state)
        c.call(STEP, state, lent(figures=TWO + pairs(0, 9)))

    for base in (at(), judged, {**judged, "waiting": 1}):
        for field, values in (("image", (1, 2)), ("waiting", (1, 2)), ("walking", (0, 2)),
                              ("place", (2, 255, 256))):
            for value in values:
                if base[field] != value:
                    tried("%s %d" % (field, value), {**base, field: value})
    for field, value in (("image", 255), ("waiting", 255), ("walking", 255),
                         ("place", 2 ** 32 - 1)):
        tried("%s %d" % (field, value), {**judged, field: value})
    for i in range(4):
        for edge in ((NAN, INFINITE, BELOW, OVER)[i], (OVER, BELOW, INFINITE, NAN)[i],
                     (LEAST, MOST, MINUS_NOUGHT, MOST)[i]):
            edges = tuple(edge if i == j else e for j, e in enumerate(five))
            tried("occupied edge %d" % i, {**judged, "occupied": edges})
    for edge in (NAN, MINUS_NOUGHT):
        tried("occupied edges with no rung judged", {**fresh, "occupied": (edge,) * 4})
        tried("occupied edges with nobody walking", {**at(), "occupied": (edge,) * 4})


# ---------------------------------------------------------------------------------------------
# Drawn

def damaged(draw, image):
    """An image with one byte changed."""
    at_byte = draw.randrange(len(image))
    return image[:at_byte] + bytes([draw.randrange(256)]) + image[at_byte + 1:]


class World:
    """What the steps of a drawn run are lent: of small tables, or of document 01's."""

    def __init__(self, draw):
        self.draw, practice = draw, draw.random() < 0.25
        if practice:
            good = [PRACTICE, build.raised(PRACTICE), build.raised(PRACTICE, 50.0, 5.0)]
            dials = (14023800, 14148200, 14097700, 14098000, 14100000, 5330550, 5358000)
            moved, middle, unit, license = (0, 0, 0.125, -0.125, 0.1, 40, -300), 1500, 125, 2
        else:
            good = [SMALL, NARROW, HIGHER, census.ROBOT, census.SIXTY, census.FIRST_FORBIDS,
                    census.OWN_LIMIT, census.NO_ELSEWHERE]
            good += [build.raised(image) for image in (SMALL, census.ROBOT, census.SIXTY)]
            dials = (20, 30, 30, 30, 40, 60, 70, 75, 88)
            moved, middle, unit, license = (0, 0, 0, 0.125, 1, -1, 0.1), 2, 0.5, 4
        bad = [b"", census.LETTERS, draw.choice(list(REFUSED.values())), build.raised(REFUSED[12]),
               damaged(draw, draw.choice(good))]
        self.images = good * 4 + bad
        sides = (0, 0, unit, -unit, 0.1)

        def edges(k):
            return pairs(middle - unit * draw.randrange(1, 3 + k),
                         middle + unit * draw.randrange(1, 4 + k), middle - unit,
                         middle + unit * draw.randrange(1, 4 + 2 * k))

        self.ladders = [tuple(edge for k in range(draw.randrange(1, 9)) for edge in edges(k))
                        for _ in range(12)] + [()]
        self.controls = [edges(0) for _ in range(4)]
        self.stations = [dict(
            dial=float(draw.choice(dials) + draw.choice(moved)), license=license,
            control=draw.choice((0, 0, 1, 2, 255) if draw.random() < 0.2 else (0, 1, 2)),
            sideband=draw.choice((0, 0, 0, 1)), lower=float(draw.choice(sides)),
            upper=float(draw.choice(sides))) for _ in range(14)]
        self.stations += [dict(policy=1), dict(policy=3), dict(upper=INFINITE), dict(plan=7)]

    def part(self):
        draw = self.draw
        figures = draw.choice(self.ladders)
        floors = [draw.randrange(2) for _ in range(len(figures) // 4)]
        if draw.random() < 0.03:
            floors = floors[1:] or [2]
        control = draw.choice(self.controls) if draw.random() < 0.97 else (NAN,) * 4
        return lent(tuple(draw.choice(self.images) for _ in range(2)), figures, floors,
                    draw.choice((0, 1, 1, 2, 3)), control, draw.choice(self.controls),
                    **draw.choice(self.stations))

    def state(self, state):
        """A state with a field changed."""
        draw = self.draw
        field = draw.choice(("occupied", "place", "image", "waiting", "walking"))
        if field == "occupied":
            edge = draw.choice((NAN, INFINITE, OVER, MOST, MINUS_NOUGHT, 0, bits(3.5)))
            return {**state, field: tuple(edge if draw.random() < 0.4 else e for e in state[field])}
        if field == "place":
            return {**state, field: draw.choice((0, 1, 2, 255, 256, 2 ** 32 - 1))}
        return {**state, field: draw.choice((0, 1, 1, 2, 255))}


def drawn(c, count, world):
    """Swaps, openings and steps, mostly lent the same from step to step."""
    draw = world.draw
    c.name = "drawn"
    c.first()
    given, alike, began, refused, back = world.part(), False, 0, False, None
    for _ in range(count):
        own, back = back, None
        if draw.random() < 0.04 and own is None:
            own, alike, back = world.state(c.state), False, c.state
        walking, chosen = (c.state if own is None else own)["walking"], draw.random()
        if chosen < 0.15:
            answer = c.call(SWAP, own)
        elif chosen < (0.2 if walking else 0.9):
            answer = c.call(OPEN, own)
            if answer["refusal"] == 0:
                given, alike, began = world.part(), True, c.state["image"]
        else:
            if draw.random() < 0.1 or refused:
                given, alike = world.part(), False
            answer = c.call(STEP, own, given)
            refused = answer["refusal"] not in (0, 30) and draw.random() < 0.7
            # "a finished walk equals one call of the ceiling on the table at its start"
            if answer["over"] and alike:
                assert (0, answer["rung"], answer["limit"]) == ceiling(given, began)
        # a damaged state that was refused is followed by the one before it
        back = back if answer["refusal"] else None


def compare(runs, seed):
    """Drawn runs, each of 25 sequences of 20 calls, by crates/run_walk/out/run_walk and by the model."""
    program = os.path.join(HERE, "../../crates/run_walk/out/run_walk")
    answers = {}
    for run in range(runs):
        c, draw = Calls(), random.Random("%d %d" % (seed, run))
        for _ in range(5):
            world = World(draw)
            for _ in range(5):
                drawn(c, 20, world)
        lines = lines_of(c)
        told = subprocess.run([program], input=encoded(c.list), stdout=subprocess.PIPE, check=True)
        if told.stdout.decode() != "\n".join(lines) + "\n":
            for one, other in zip(lines, told.stdout.decode().split("\n")):
                if one != other:
                    sys.exit("run %d: the model\n%s\nthe program\n%s" % (run, one, other))
            sys.exit("run %d: the program wrote another number of lines" % run)
        for which, _, _, _, answer in c.list:
            key = NAMES[which], answer["refusal"], answer.get("limit"), answer.get("over")
            answers[key] = answers.get(key, 0) + 1
    print("%d sequences, %d calls agree" % (25 * runs, sum(answers.values())))
    for key in sorted(answers, key=str):
        print("%8d %s refusal %d limit %s over %s" % (answers[key], *key))


# ---------------------------------------------------------------------------------------------
# Input and output

def state_bytes(state):
    return struct.pack("<4QI3B", *state["occupied"], state["place"], state["image"],
                       state["waiting"], state["walking"])


def station_bytes(station, direction):
    return (bytes(station[k] for k in ("policy", "control", "license", "sideband", "region", "plan",
                                       "dial_here", "power_here")) + bytes([direction])
            + struct.pack("<4Q", *(station[k] for k in ("lower", "upper", "dial", "power"))))


def figure_bytes(figures):
    return struct.pack("<%dQ" % len(figures), *figures)


def image_bytes(image):
    return struct.pack("<H", len(image)) + image


def encoded(calls):
    """The input. A part that stands in it already is not put there again."""
    start = 2 + 12 * len(calls)
    parts = set()
    for _, _, own, given, _ in calls:
        if own is not None:
            parts.add(state_bytes(own))
        if given is not None:
            station, direction, _, _, images, figures, floors = given
            parts |= {station_bytes(station, direction), figure_bytes(figures), floors}
            parts |= {image_bytes(image) for image in images}
    area = bytearray()

    def place(part):
        if part not in area:
            area.extend(part)
        return start + area.index(part)

    for part in sorted(parts, key=lambda p: (-len(p), p)):
        place(part)
    heads = b""
    for which, _, own, given, _ in calls:
        places = [0] * 5
        if own is not None:
            places[0] = place(state_bytes(own))
        if given is not None:
            station, direction, ordinary, floor, images, figures, floors = given
            part = figure_bytes(ordinary + floor) + struct.pack(
                "<4H", place(figure_bytes(figures)), len(figures), place(floors), len(floors))
            places[1:] = [place(station_bytes(station, direction)), place(part),
                          place(image_bytes(images[0])), place(image_bytes(images[1]))]
        heads += struct.pack("<2B5H", which, own is not None, *places)
    return struct.pack("<H", len(calls)) + heads + bytes(area)


def shown(number, which, answer):
    def or_none(x):
        return "-" if x is None else str(x)

    words = [str(number), NAMES[which]]
    if which != FIRST:
        words += ["refusal", str(answer["refusal"])]
    if which == STEP:
        words += ["rung", or_none(answer["rung"]), "limit", or_none(answer["limit"]), "over",
                  str(int(answer["over"]))]
    state = answer["state"]
    words += ["state"] + [str(state[k]) for k in ("place", "image", "waiting", "walking")]
    for edge in state["occupied"]:
        words.append("f" * 16 if math.isnan(reference.figure_of(edge)) else "%016x" % edge)
    return " ".join(words)


def lines_of(c):
    return [shown(n, which, answer) for n, (which, _, _, _, answer) in enumerate(c.list)]


def main():
    if "--draw" in sys.argv:
        compare(*map(int, sys.argv[2:4]))
        return
    c = Calls()
    by_hand(c)
    codes(c)
    refusals(c)
    states(c)
    drawn(c, 200, World(random.Random(2)))
    met = {answer["refusal"] for _, _, _, _, answer in c.list}
    assert met == {0, *range(1, 17), 20, 21, 22, 29, 30}, met
    lines = lines_of(c)
    if "--list" in sys.argv:
        print("\n".join("%s   (%s)" % (line, call[1]) for line, call in zip(lines, c.list)))
        return
    data = encoded(c.list)
    assert len(data) < 65536, len(data)
    crate = os.path.join(HERE, "../../crates/run_walk")
    with open(os.path.join(crate, "stdin"), "wb") as out:
        out.write(data)
    with open(os.path.join(crate, "stdout"), "w") as out:
        out.write("\n".join(lines) + "\n")


if __name__ == "__main__":
    main()
