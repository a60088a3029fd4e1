"""Document 01's practice table as an image: `python3 practice.py` writes practice.bin and
practice.txt beside this file.

"Region 2, Wider, general limit 2,800. Band 20: 14,000,000-14,350,000; segment 14,000,000-
14,150,000; General 14,025,000-14,150,000, all emissions; automatic 14,095,000-14,099,500 and
14,100,500-14,112,000; elsewhere 500, response required. Band 60, its General privilege alike:
5,330,000-5,407,000; segment 5,351,500-5,366,500; channel centre 5,332,000, width 2,800, offset
1,500, tolerance 50, upper; emissions data, cw. No power or plan records."

Chosen here, where document 01 doesn't say:
- the band numbers are 20 and 60;
- the rule numbers, all from the trustee's own list and all different: 7 data, 8 elsewhere,
  9 automatic segments, 10 channels, 11 emissions, 12 privileges, and the segments' rules
  13 (20 m) and 14 (60 m);
- "all emissions" is an absent list (flag bit 0 clear), on both privileges, with no rule;
- "no plan records" is an absent plan (general flag bit 4 clear);
- the order within a table is the order of document 01's text: 20 m before 60 m.
"""

import os
import sys

sys.dont_write_bytecode = True

import build

GENERAL_CLASS = 2
WIDER = 2
UPPER = 0
DATA, CW = 1, 2                                   # emission bits 0 and 1

PRACTICE = build.image(
    build.general(
        data=2800.0, elsewhere=500.0, width=2800.0, offset=1500.0, tolerance=50.0,
        region=2, reading=WIDER,
        flags=1 + 2 + 4 + 8,                      # elsewhere, response, channels, 60 m emissions
        channel_band=60, sideband=UPPER, emissions=DATA + CW,
        data_rule=7, elsewhere_rule=8, automatic_rule=9, channels_rule=10, emissions_rule=11,
        privileges_rule=12),
    bands=[build.record(14000000.0, 14350000.0, band=20),
           build.record(5330000.0, 5407000.0, band=60)],
    segments=[build.record(14000000.0, 14150000.0, band=20, rule=13),
              build.record(5351500.0, 5366500.0, band=60, rule=14)],
    channels=[build.record(5332000.0)],
    privileges=[build.record(14025000.0, 14150000.0, cls=GENERAL_CLASS),
                build.record(5330000.0, 5407000.0, cls=GENERAL_CLASS)],
    automatic=[build.record(14095000.0, 14099500.0),
               build.record(14100500.0, 14112000.0)])


def listing(data):
    """Offset, sixteen bytes in hex, and whose bytes they are."""
    names = ["band", "band", "segment", "segment", "channel", "privilege", "privilege",
             "automatic", "automatic"]
    owners = {0: "general block", 64 + 32 * len(names): "trailer"}
    for i, name in enumerate(names):
        owners[64 + 32 * i] = "%s %d" % (name, names[:i].count(name))
    lines = []
    for at in range(0, len(data), 16):
        line = "%5d  %-47s  %s" % (at, data[at:at + 16].hex(" "), owners.get(at, ""))
        lines.append(line.rstrip())
    return "\n".join(lines) + "\n"


if __name__ == "__main__":
    here = os.path.dirname(os.path.abspath(__file__))
    with open(os.path.join(here, "practice.bin"), "wb") as out:
        out.write(PRACTICE)
    with open(os.path.join(here, "practice.txt"), "w") as out:
        out.write(listing(PRACTICE))
