"""What crates/run_airtime is given, and what it must write: time on the air, at its borders.

    python3 tools/reference/airtime.py    writes crates/run_airtime/stdin and stdout

Input: u16 number of cases. A case begins with u8 form and u32 how many starts, bands, seconds and totals
are lent. Form 0 lists them: the starts (u64), the bands (u8) and the seconds (u16), each run whole. Form 1
has the rule that makes them: u64 first start, u64 step, u32 records to a start, u16 bands, u16 factor;
record i starts at first + (i / records to a start) * step, modulo 2^64, is of band i mod bands, and has
(i * factor) mod 65,536 seconds. Every total that is lent holds 11,574,427,654,092,267,680 before the call.

Output, a line a case: its number, the refusal, how many totals were written; then of form 0 every total
that is lent, of form 1 all of them folded, h -> (h * 31 + total mod 4,294,967,291) mod 4,294,967,291,
from 0.

The totals are worked out here from document 02: "give for each record the seconds of its band, summed in
u64, over itself and the earlier records that start at most 599 seconds before it".
"""
import os
import struct

HERE = os.path.dirname(os.path.abspath(__file__))
MOST = 65536
FILL = 0xA0A0A0A0A0A0A0A0
FOLD = 4294967291
TOP = 2 ** 64 - 1


def total(starts, bands, seconds, i):
    """Record i's, from its own records alone."""
    out, j = 0, i
    while j >= 0 and starts[i] - starts[j] <= 599:
        if bands[j] == bands[i]:
            out += seconds[j]
        j -= 1
    return out


def answer(starts, bands, seconds, lent):
    """The refusal, and the totals: "It refuses (31) a start below the one before and (32, next) runs of
    unequal length, the output's included, or of over 65,536 records, output untouched.\""""
    if any(b < a for a, b in zip(starts, starts[1:])):
        return 31, [FILL] * lent
    if not len(starts) == len(bands) == len(seconds) == lent or len(starts) > MOST:
        return 32, [FILL] * lent
    return 0, [total(starts, bands, seconds, i) for i in range(lent)]


def listed():
    """Starts, bands, seconds and how many totals are lent."""
    def run(starts, bands=None, seconds=None, lent=None):
        n = len(starts)
        bands = [20] * n if bands is None else bands
        seconds = [2 ** (i % 16) for i in range(n)] if seconds is None else seconds
        return starts, bands, seconds, n if lent is None else lent

    # nothing, one record, the last of either end
    yield run([])
    yield run([0])
    yield run([TOP], [255], [65535])
    # 599 counts, 600 does not, and what lies between them
    for gap in (0, 1, 598, 599, 600, 601, 1199, 1200):
        yield run([1000, 1000 + gap])
        yield run([0, gap, 2 * gap])
    # a window that slides by one record, by several at once, and over a long silence
    yield run([0, 300, 599, 600, 899, 900, 1199, 1200, 1800, 1801])
    yield run([0, 1, 2, 3, 4, 602, 603, 603, 1203])
    yield run([5, 6, 7, 10 ** 12, 10 ** 12 + 599, 10 ** 12 + 600])
    # equal starts: the earlier of the list count
    yield run([7] * 6)
    yield run([7] * 6, [1, 2, 1, 2, 1, 2])
    yield run([0, 0, 599, 599, 600, 600])
    # near nought, where start - 599 falls below it, and near 2^64, where start + 599 passes it
    yield run([0, 598, 599, 600])
    yield run([1, 599, 600, 601])
    yield run([TOP - 1200, TOP - 600, TOP - 599, TOP - 1, TOP])
    yield run([0, TOP - 599, TOP])
    yield run([0, TOP])
    yield run([2 ** 63 - 1, 2 ** 63, 2 ** 63 + 598, 2 ** 63 + 599])
    # bands: one, two that alternate, the least and the greatest, all 256
    yield run(list(range(0, 900, 100)), [0] * 9)
    yield run(list(range(0, 900, 100)), [0, 255] * 4 + [0])
    yield run([3] * 256 + [602] * 256 + [603] * 256, list(range(256)) * 3, [65535] * 768)
    # seconds: none, and the most
    yield run([1, 2, 3], None, [0, 0, 0])
    yield run(list(range(40)), None, [65535] * 40)
    # 31: at the first, in the middle, at the last; it comes before 32; an equal start is no fall
    yield run([5, 4])
    yield run([5, 4, 9, 10])
    yield run([5, 6, 5, 10])
    yield run([5, 6, 9, 8])
    yield run([TOP, 0])
    yield run([5, 4], [1], [], 3)
    yield run([1, 2, 3, 2], [], [], 0)
    yield run([4, 4, 4], [1], [1, 1, 1], 3)
    # 32: each pair of runs unequal, each run longer and shorter than the others, none of some
    for bands, seconds, lent in ((2, 3, 3), (4, 3, 3), (3, 2, 3), (3, 4, 3), (3, 3, 2), (3, 3, 4),
                                 (2, 2, 2), (4, 4, 4), (2, 2, 3), (2, 3, 2), (3, 2, 2), (0, 0, 0),
                                 (0, 3, 3), (3, 0, 3), (3, 3, 0)):
        yield run([1, 2, 3], [9] * bands, [1] * seconds, lent)
    yield run([], [1], [], 0)
    yield run([], [], [1], 0)
    yield run([], [], [], 1)


def made():
    """How many of each run, first start, step, records to a start, bands, factor."""
    # as many as a run may have: some at a start, one window, a record a second, all within a window
    yield (MOST,) * 4, 0, 30, 3, 256, 7
    yield (MOST,) * 4, TOP - 21845 * 30, 30, 3, 5, 40503
    yield (MOST,) * 4, 12345, 60, 1, 1, 65535
    yield (MOST,) * 4, 9, 600, 1, 2, 1
    # one more, also where the output or another run is not
    yield (MOST + 1,) * 4, 0, 30, 3, 256, 7
    yield (MOST + 1, MOST + 1, MOST + 1, MOST), 0, 30, 3, 256, 7
    yield (MOST, MOST, MOST, MOST + 1), 0, 30, 3, 256, 7
    yield (MOST, MOST - 1, MOST, MOST), 0, 30, 3, 256, 7
    # a start that falls, at the very last of too many records
    yield (MOST + 1,) * 4, TOP - 65535, 1, 1, 256, 7


def main():
    given, told = b"", []

    def say(refusal, count, rest):
        told.append("%d refusal %d totals %d%s" % (len(told), refusal, count, rest))

    for starts, bands, seconds, lent in listed():
        given += struct.pack("<BIIII", 0, len(starts), len(bands), len(seconds), lent)
        given += struct.pack("<%dQ" % len(starts), *starts) + bytes(bands)
        given += struct.pack("<%dH" % len(seconds), *seconds)
        refusal, totals = answer(starts, bands, seconds, lent)
        say(refusal, 0 if refusal else lent, "".join(" %d" % t for t in totals))
    for sizes, first, step, alike, bands_of, factor in made():
        given += struct.pack("<BIIIIQQIHH", 1, *sizes, first, step, alike, bands_of, factor)
        starts = [(first + i // alike * step) % 2 ** 64 for i in range(sizes[0])]
        bands = [i % bands_of for i in range(sizes[1])]
        seconds = [i * factor % 65536 for i in range(sizes[2])]
        refusal, totals = answer(starts, bands, seconds, sizes[3])
        h = 0
        for t in totals:
            h = (h * 31 + t % FOLD) % FOLD
        say(refusal, 0 if refusal else sizes[3], " folded %d" % h)
    crate = os.path.join(HERE, "../../crates/run_airtime")
    with open(os.path.join(crate, "stdin"), "wb") as out:
        out.write(struct.pack("<H", len(told)) + given)
    with open(os.path.join(crate, "stdout"), "w") as out:
        out.write("\n".join(told) + "\n")


if __name__ == "__main__":
    main()
