"""What crates/run_fresh must write: the fresh record, and the dial lists drawn from it on the practice table.

    python3 tools/reference/fresh.py    writes crates/run_fresh/stdout

The rows are worked out here from the papers, for local control, either sideband and a signal within
every limit: segment by segment and privilege by privilege, then the channels, by lower dial.
"""
import os
import struct

import reference

HERE = os.path.dirname(os.path.abspath(__file__))
LOW, HIGH = 1250.0, 1750.0
LENT = 144


def bits(x):
    return struct.unpack("<Q", struct.pack("<d", x))[0]


def tables(image):
    """The general block, and each table's records."""
    counts = struct.unpack("<9H", image[-28:-10])
    at, out = 64, []
    for count in counts:
        out.append([image[at + 32 * i:at + 32 * i + 32] for i in range(count)])
        at += 32 * count
    return image[:64], out


def span(record):
    return struct.unpack("<dd", record[:16])


def rows_of(image, lower, upper, sideband=0):
    """(segment low, high, dial low, high, band, rule), "stable by lower dial". "On lower sideband [the
    margins] still mean the air side." No channel is listed there."""
    general, (_, segments, channels, privileges, *_) = tables(image)
    rows = []
    for s in segments:
        for p in privileges:
            low, high = max(span(s)[0], span(p)[0]), min(span(s)[1], span(p)[1])
            if p[25] == 2 and low < high:
                ends = (low - LOW) + lower, (high - HIGH) - upper
                if sideband == 1:
                    ends = (low + HIGH) + lower, (high + LOW) - upper
                if ends[0] <= ends[1]:
                    rows.append((low, high, *ends, s[24], struct.unpack("<H", s[28:30])[0]))
    width, offset = struct.unpack("<dd", general[16:32])
    for c in channels if sideband == 0 else []:
        centre = span(c)[0]
        low, high = centre - width / 2.0, centre + width / 2.0
        dial = centre - offset
        if low <= dial + LOW - lower and dial + HIGH + upper <= high:
            rows.append((low, high, dial, dial, general[43], struct.unpack("<H", general[52:54])[0]))
    return sorted(rows, key=lambda row: row[2])


def lent(rows):
    out = b"".join(struct.pack("<4dBBH", *row[:4], row[4], 0, row[5]) for row in rows)
    out += b"\xa5" * (LENT - len(out))
    return [" ".join(str(b) for b in out[i:i + 36]) for i in range(0, LENT, 36)]


def lines(image):
    f = reference.fresh_station()
    names = [("policy", "policy"), ("control", "control"), ("license", "license"),
             ("sideband", "sideband"), ("region", "region"), ("plan", "plan"),
             ("dial known", "dial_here"), ("power known", "power_here")]
    for name, key in names:
        yield "%s %d" % (name, f[key])
    for name, key in (("lower margin", "lower"), ("upper margin", "upper"), ("dial", "dial"),
                      ("power", "power")):
        yield "%s %d" % (name, bits(float(f[key])))
    # blocked without a policy (1); under Rules the practice table's region is 2: 6 "no control"
    # for the fresh record, 5 "region" for whoever passes region 0
    for name, code in (("fresh", 1), ("fresh under Rules", 6),
                       ("region 0 and margin 0 under Rules", 5)):
        yield "%s: verdict 2" % name
        yield "%s: code %d" % (name, code)
    # without Rules no list is drawn
    for name, rows in (("fresh", []),
                       ("fresh, set up", rows_of(image, float(f["lower"]), float(f["upper"]))),
                       ("region 0 and margin 0, set up", rows_of(image, 0.0, 0.0)),
                       ("margins 25 and 450, set up", rows_of(image, 25.0, 450.0)),
                       ("margins 25 and 450, lower sideband", rows_of(image, 25.0, 450.0, 1))):
        yield "%s: rows %d" % (name, len(rows))
        yield from lent(rows)


if __name__ == "__main__":
    with open(os.path.join(HERE, "practice.bin"), "rb") as source:
        practice = source.read()
    with open(os.path.join(HERE, "../../crates/run_fresh/stdout"), "w") as out:
        out.write("\n".join(lines(practice)) + "\n")
