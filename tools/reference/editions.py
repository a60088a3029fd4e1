"""Border cases for the gate program run_editions, with its expected output.

    python3 tools/reference/editions.py          writes crates/run_editions/stdin and stdout
    python3 tools/reference/editions.py --list   prints each case's number, answer and name instead

Every expected output comes from reference.py; beside it each case has its answer by hand (0 or the
refusal), and the generator stops if the reference says otherwise. Only the images with a bit turned
over have none.

stdin, little-endian: u16 cases; each: u8 call (0 write, 1 raise, 2 lower), u32 bytes lent, u32 size of
what follows. For raise and lower that is an image; for write: u16 edition, the seven figures of the
general block (u64 bits each; the watts last), six codes, six u16 rules, nine u16 counts, u16 numbers of
figures, codes and rules of the records, and these. A lent byte holds a5 before the call.
stdout: "<case> length <n>" or "<case> refusal <n>", then every lent byte in hexadecimal, or, of over 512,
their two sums (Adler's, modulo 65521).
"""

import os
import struct
import sys

sys.dont_write_bytecode = True

import build
import reference
from borders import (AUTOMATIC, BAND, BANDS, EVERYTHING, FULL, INFINITY, MINIMAL, NEG_ZERO, PLAIN, QUIET_NAN,
                     SEGMENT, SEGMENTS, SIGNAL_NAN, TWO40, ABOVE, with_table)
from build import f64, general, image, record
from practice import PRACTICE

HERE = os.path.dirname(os.path.abspath(__file__))
FOLDER = os.path.join(HERE, "..", "..", "crates", "run_editions")

FILL = 0xA5
SHOWN = 512
NAMES = ["data_limit", "elsewhere_limit", "channel_width", "carrier_offset", "carrier_tolerance",
         "channel_watts", "segment_watts"]
CODES = ["region", "reading", "flags", "channel_band", "sideband", "emissions"]
RULES = ["data_rule", "elsewhere_rule", "automatic_rule", "channels_rule", "emissions_rule",
         "privileges_rule"]

CASES = []                                       # (name, bytes, line)


def line(refusal, written, room):
    lent = bytes([FILL]) * room if refusal else written + bytes([FILL]) * (room - len(written))
    head = "refusal %d" % refusal if refusal else "length %d" % len(written)
    if room <= SHOWN:
        return head + " " + lent.hex()
    one, two = 1, 0
    for byte in lent:
        one = (one + byte) % 65521
        two = (two + one) % 65521
    return head + " sums %d %d" % (one, two)


def add(name, call, room, body, hand, answer):
    refusal, written = answer
    if hand is not None and hand != refusal:
        raise SystemExit("%s: by hand %d, reference %d" % (name, hand, refusal))
    CASES.append((name, struct.pack("<BII", call, room, len(body)) + body, line(refusal, written, room)))


def raises(hand, name, data, room):
    add("raise: " + name, 1, room, data, hand, reference.raise_image(data, room))


def lowers(hand, name, data, room):
    add("lower: " + name, 2, room, data, hand, reference.lower_image(data, room))


def given(data):
    """The fields, counts and runs that a right image of edition 1 or 2 is written from."""
    second = struct.unpack("<H", data[-6:-4])[0] == 2
    size = 80 if second else 64
    fields = dict(zip(NAMES[:5], struct.unpack("<5Q", data[:40])))
    fields.update(zip(CODES, data[40:46]))
    fields.update(zip(RULES, struct.unpack("<6H", data[46:58])))
    fields["channel_watts"], fields["segment_watts"] = struct.unpack("<2Q", data[64:80]) if second else (0, 0)
    fields["edition"] = 2 if second else 1
    counts = list(struct.unpack("<9H", data[-28:-10]))
    figures, codes, rules = [], [], []
    for i in range(sum(counts)):
        one = data[size + 32 * i:size + 32 * i + 32]
        figures += struct.unpack("<3Q", one[:24])
        codes += one[24:28]
        rules += struct.unpack("<2H", one[28:])
    return fields, counts, figures, codes, rules


def writes(hand, name, parts, room, whole=None):
    """`whole` is the image that must come out, where there is one by hand."""
    fields, counts, figures, codes, rules = parts
    body = struct.pack("<H7Q", fields["edition"], *(fields[n] for n in NAMES))
    body += bytes(fields[n] for n in CODES) + struct.pack("<6H", *(fields[n] for n in RULES))
    body += struct.pack("<9H", *counts) + struct.pack("<3H", len(figures), len(codes), len(rules))
    body += struct.pack("<%dQ" % len(figures), *figures) + bytes(codes) + struct.pack("<%dH" % len(rules), *rules)
    answer = reference.write_image(fields, counts, figures, codes, rules, room)
    assert whole is None or answer == (0, whole), name
    add("write: " + name, 0, room, body, hand, answer)


def bits(value):
    return struct.unpack("<Q", struct.pack("<d", value))[0]


def changed(data, **changes):
    parts = given(data)
    parts[0].update(changes)
    return parts


def converters():
    for name, data in (("the smallest", MINIMAL), ("everything", EVERYTHING), ("every usable byte", FULL),
                       ("the practice table", PRACTICE)):
        second = build.raised(data)
        raises(0, name, data, len(data) + 16)
        raises(0, name + ", bytes past it", data, len(data) + 16 + 7)
        raises(23, name + ", one byte short", data, len(data) + 15)
        raises(23, name + ", no byte lent", data, 0)
        raises(3, name + ", raised already", second, len(second) + 32)
        lowers(0, name, second, len(data))
        lowers(0, name + ", bytes past it", second, len(data) + 7)
        lowers(23, name + ", one byte short", second, len(data) - 1)
        lowers(3, name + ", of edition 1 already", data, len(data))
        for other, channel, segment in (("channel watts", bits(100.0) + 1, bits(9.15)),
                                        ("segment watts", bits(100.0), bits(9.15) - 1),
                                        ("watts exchanged", bits(9.15), bits(100.0)),
                                        ("no watts", 0, 0), ("negative watts", bits(-100.0), bits(-9.15))):
            lowers(26, name + ", " + other, build.raised(data, channel, segment), len(data))
            lowers(26, name + ", %s, and no byte lent" % other, build.raised(data, channel, segment), 0)
    second = build.raised(MINIMAL)
    end = len(MINIMAL) - 28

    # The order: 1, 2, 3, 4 to 14, 26, 23.
    raises(1, "no byte", b"", 200)
    lowers(1, "no byte", b"", 200)
    raises(1, "91 bytes", bytes(91), 200)
    raises(2, "a letter and the edition", second[:-1] + b"F", 200)
    raises(2, "92 bytes of zero", bytes(92), 200)
    raises(3, "edition 3", MINIMAL[:end + 22] + b"\x03\x00EDGE", 200)
    lowers(3, "edition 3", MINIMAL[:end + 22] + b"\x03\x00EDGE", 200)
    raises(3, "edition 2, and a count that is wrong", second[:-28] + b"\x07" + second[-27:], 200)
    lowers(3, "edition 1, and a distance that is wrong", MINIMAL[:end + 18] + b"\x01" + MINIMAL[end + 19:], 200)
    raises(4, "a count that is wrong", MINIMAL[:end] + b"\x07" + MINIMAL[end + 1:], 200)
    raises(4, "edition 1 in edition 2's length", second[:-6] + b"\x01\x00EDGE", 200)
    lowers(4, "edition 2 in edition 1's length", MINIMAL[:-6] + b"\x02\x00EDGE", 200)
    raises(5, "an unused byte", MINIMAL[:60] + b"\x01" + MINIMAL[61:], 0)
    lowers(5, "an unused byte, other watts", build.raised(MINIMAL[:60] + b"\x01" + MINIMAL[61:], 1.0, 1.0), 0)
    lowers(6, "watts that are no number", build.raised(MINIMAL, QUIET_NAN, 9.15), 0)
    lowers(6, "watts that are negative zero", build.raised(MINIMAL, 100.0, NEG_ZERO), 0)
    raises(7, "a band of no width", image(bands=[record(1.0, 1.0)], segments=[SEGMENT]), 0)
    lowers(12, "a segment in no band", build.raised(image(bands=[record(1.0, 2.0)], segments=[SEGMENT]), 1.0, 1.0), 0)
    raises(14, "no general limit", image(general(data=0.0), bands=[BAND], segments=[SEGMENT]), 0)

    # The largest.
    even = [227] * 8 + [229]
    large = image(general(flags=31), **dict(zip(
        ("bands", "segments", "channels", "privileges", "automatic", "excluded", "power", "plan_data", "plan_avoid"),
        ([PLAIN[t]] * even[t] for t in range(9)))))
    assert len(large) == 65532
    raises(0, "2,045 records", large, 65548)
    lowers(0, "2,045 records", build.raised(large), 65600)
    writes(0, "2,045 records", given(build.raised(large, 5.0, 6.0)), 65600, build.raised(large, 5.0, 6.0))


def writer():
    for name, data in (("the smallest", MINIMAL), ("everything", EVERYTHING), ("every usable byte", FULL),
                       ("the practice table", PRACTICE)):
        for edition, whole in ((1, data), (2, build.raised(data)), (2, build.raised(data, 50.0, 0.25))):
            what = "%s, edition %d" % (name, edition)
            writes(0, what, given(whole), len(whole), whole)
            writes(0, what + ", bytes past it", given(whole), len(whole) + 9, whole)
            writes(23, what + ", one byte short", given(whole), len(whole) - 1)
        # "watts given to the writer for edition 1 (not looked at)"
        writes(0, name + ", edition 1 with watts", changed(data, channel_watts=QUIET_NAN, segment_watts=NEG_ZERO),
               len(data), data)
    for edition in (0, 3, 256, 65535):
        writes(3, "edition %d" % edition, changed(MINIMAL, edition=edition), 300)
    writes(3, "edition 3, and 257 counted", (dict(given(MINIMAL)[0], edition=3), [257] + [0] * 8, [], [], []), 300)

    # Counts and runs.
    fields, counts, figures, codes, rules = given(MINIMAL)
    writes(1, "2,046 records counted", (fields, [256] * 7 + [254, 0], figures, codes, rules), 300)
    writes(1, "2,046 records counted, edition 3", (dict(fields, edition=3), [256] * 7 + [254, 0], [], [], []), 300)
    writes(1, "all counts 65,535", (fields, [65535] * 9, [], [], []), 300)
    writes(4, "257 bands counted, two there", (fields, [257, 1] + [0] * 7, figures, codes, rules), 300)
    writes(4, "2,045 of one table", (fields, [2045] + [0] * 8, figures, codes, rules), 300)
    for what, parts in (("no figures", (fields, counts, [], codes, rules)),
                        ("a figure less", (fields, counts, figures[:-1], codes, rules)),
                        ("a figure more", (fields, counts, figures + [0], codes, rules)),
                        ("a code less", (fields, counts, figures, codes[:-1], rules)),
                        ("a code more", (fields, counts, figures, codes + [0], rules)),
                        ("a rule less", (fields, counts, figures, codes, rules[:-1])),
                        ("a rule more", (fields, counts, figures, codes, rules + [0])),
                        ("a record less", (fields, counts, figures[:-3], codes[:-4], rules[:-2])),
                        ("counted one less", (fields, [1, 0] + [0] * 7, figures, codes, rules))):
        writes(4, what, parts, 300)
    writes(11, "nothing", (fields, [0] * 9, [], [], []), 300)

    # 5 to 14, each by its first cause, in either edition; a figure's every wrong bits.
    for edition in (1, 2):
        def small(**changes):
            return changed(build.raised(MINIMAL) if edition == 2 else MINIMAL, **changes)

        def run(which, at, value):
            parts = small()
            parts[which][at] = value
            return parts
        end = " (edition %d)" % edition
        writes(5, "reading 3" + end, small(reading=3), 300)
        writes(5, "a field of an absent part" + end, small(channel_width=bits(1.0)), 300)
        writes(5, "negative zero in an absent part" + end, small(channel_width=NEG_ZERO), 300)
        writes(5, "a NaN in an unused figure" + end, run(2, 2, QUIET_NAN), 300)
        writes(5, "an unused code" + end, run(3, 1, 1), 300)
        writes(5, "an unused rule of the last" + end, run(4, 3, 1), 300)
        writes(5, "a channel, the part absent" + end, (small()[0], [1, 1, 1] + [0] * 6, small()[2] + [bits(1.0), 0, 0],
                                                        small()[3] + [0] * 4, small()[4] + [0] * 2), 300)
        for what, value in (("a NaN", QUIET_NAN), ("a signalling NaN", SIGNAL_NAN), ("infinite", INFINITY),
                            ("above 2^40", ABOVE), ("negative zero", NEG_ZERO)):
            writes(6, "data limit %s" % what + end, small(data_limit=value), 300)
            writes(6, "low of a band %s" % what + end, run(2, 0, value), 300)
            for watts in ("channel_watts", "segment_watts"):
                writes(6 if edition == 2 else 0, "%s %s" % (watts, what) + end, small(**{watts: value}), 300)
        writes(0, "data limit 2^40" + end, small(data_limit=TWO40), 300)
        writes(7, "a band of no width" + end, run(2, 1, bits(-1024.0)), 300)
        writes(8, "a segment of no width" + end, run(2, 3, bits(1024.0)), 300)
        writes(12, "a segment past the band" + end, run(2, 4, bits(2048.0)), 300)
        parts = small()
        parts[3][7] = 1
        writes(13, "an own limit of 0" + end, parts, 300)
        writes(14, "a general limit of 0" + end, small(data_limit=0), 300)
        writes(14, "a general limit below 0, and no room" + end, small(data_limit=bits(-1.0)), 0)
        for t, number in ((AUTOMATIC, 9), (3, 10)):
            whole = with_table(t, [record(8.0, 8.0, cls=2 if t == 3 else 0)])
            writes(number, "table %d of no width" % t + end, given(build.raised(whole) if edition == 2 else whole), 300)


def bits_turned():
    for name, call, data in (("raise", raises, MINIMAL), ("lower", lowers, build.raised(MINIMAL))):
        for bit in range(0, 8 * len(data), 3):
            turned = bytearray(data)
            turned[bit // 8] ^= 1 << bit % 8
            call(None, "bit %d turned" % bit, bytes(turned), 200)


def main():
    converters()
    writer()
    bits_turned()
    lines = ["%d %s" % (n, case[2]) for n, case in enumerate(CASES)]
    if "--list" in sys.argv[1:]:
        for text, case in zip(lines, CASES):
            print(" ".join(text.split(" ")[:3]) + ": " + case[0])
        return
    stdin = struct.pack("<H", len(CASES)) + b"".join(case[1] for case in CASES)
    os.makedirs(FOLDER, exist_ok=True)
    with open(os.path.join(FOLDER, "stdin"), "wb") as out:
        out.write(stdin)
    with open(os.path.join(FOLDER, "stdout"), "w", encoding="ascii") as out:
        out.write("\n".join(lines) + "\n")
    print("%d cases, stdin %d bytes" % (len(CASES), len(stdin)))


if __name__ == "__main__":
    main()
