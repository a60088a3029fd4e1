"""Checks docs/IMAGE.md: `python3 tools/reference/image_page.py`. Exit status 0 if the page is right.

- The example: its lines follow one another without a gap, the bytes of each have the value that
  stands beside them, and all together are practice.PRACTICE and the file practice.bin.
- The tables of fields: each field of the general block and of a record of each table is given a
  value that the page allows, one that it doesn't, and something where the page wants zero; the
  reference must meet 5 exactly where the page says so. Edition 2's own fields are given figures
  that it accepts and some that meet 6.
"""

import os
import re
import struct
import sys

sys.dont_write_bytecode = True

import build
import practice
import reference

HERE = os.path.dirname(os.path.abspath(__file__))
PAGE = os.path.join(HERE, "..", "..", "docs", "IMAGE.md")

# a record's fields, as "Records" gives them: the place and the count of bytes
FIELDS = {"low": (0, 8), "high": (8, 8), "figure": (16, 8), "band": (24, 1), "class": (25, 1),
          "emission bits": (26, 1), "flags": (27, 1), "rule": (28, 2), "second rule": (30, 2)}
SIZES = {"f64": 8, "u8": 1, "u16": 2, "u32": 4, "6 bytes": 6}

wrongs = []


def wrong(text):
    wrongs.append(text)


# ---------------------------------------------------------------------------------------------
# The example

def value_of(kind, data):
    """The bytes of one line, as the page writes their value."""
    if kind == "zero":
        return "" if data == bytes(len(data)) else "not zero"
    if kind == "ascii":
        return data.decode("ascii", "replace")
    if len(data) != SIZES[kind]:
        return "%d bytes" % len(data)
    if kind == "f64":
        return format(struct.unpack("<d", data)[0], ",.17g")
    return format(int.from_bytes(data, "little"), ",")


def check_example(page):
    line = re.compile(r" *(\d+)  ((?:[0-9a-f]{2} )*[0-9a-f]{2})  +(zero|ascii|f64|u8|u16|u32) ?(\S*)"
                      r"  +\S")
    image = b""
    block = page.split("## Example")[1].split("```")[1]
    for text in block.splitlines():
        if not text.startswith(" "):
            continue                                     # a heading, or nothing
        found = line.match(text)
        if not found:
            wrong("not a line of the example: %r" % text)
            continue
        at, data, kind, value = found.groups()
        data = bytes.fromhex(data)
        if int(at) != len(image):
            wrong("the line of %s stands at %d" % (at, len(image)))
        if value_of(kind, data) != value:
            wrong("at %s: %s %s, not %s" % (at, kind, value_of(kind, data), value))
        image += data
    if image != practice.PRACTICE:
        wrong("the example is not what practice.py makes")
    with open(os.path.join(HERE, "practice.bin"), "rb") as file:
        if image != file.read():
            wrong("the example is not practice.bin")


# ---------------------------------------------------------------------------------------------
# The tables of fields

def rows_after(page, heading):
    """The cells of the first table after a heading, its own heading left out."""
    rows = []
    for text in page.split("\n" + heading + "\n")[1].splitlines():
        if text.startswith("|"):
            rows.append([cell.strip() for cell in text.strip().strip("|").split("|")])
        elif rows:
            break
    return rows[0], rows[2:]


def rule_of(cell):
    """The flags that a field needs (0 for none), and its largest number: 0 for "always zero", None
    for a figure or "any"."""
    flags = 0
    if cell.startswith("bit "):
        bit, cell = cell[4:].split(": ")
        flags = 1 << int(bit)
    if cell == "–":
        return flags, 0
    if cell in ("Hz", "W", "any"):
        return flags, None
    return flags, int(cell.split("0 to ")[1])


def filled(size):
    """A field of so many bytes that is not zero, in each of its bytes by itself."""
    return [bytes(k) + b"\1" + bytes(size - k - 1) for k in range(size)]


def tries(cell, size):
    """(the field's bytes, the flags that stand with it, whether 5 is met) for a field of this cell."""
    flags, largest = rule_of(cell)
    yield bytes(size), flags, False
    if largest is None:
        yield build.f64(1000.0) if size == 8 else b"\xff" * size, flags, False
    else:
        yield bytes([largest]) + bytes(size - 1), flags, False
        yield bytes([largest + 1]) + bytes(size - 1), flags, True
    if largest == 0 or flags != 0:
        for data in filled(size):
            yield data, 0, True


def with_field(block, at, data):
    return block[:at] + data + block[at + len(data):]


def met_5(image):
    number = reference.check_image(image)
    if 1 <= number <= 4:
        wrong("an image of this check meets %d" % number)
    return number == 5


def expect_5(what, image, want):
    if met_5(image) != want:
        wrong("%s: the page says %s5, the reference %s5" % (what, "" if want else "not ",
                                                            "not " if want else ""))


BAND = build.record(0.0, 100.0)
SEGMENT = build.record(0.0, 100.0)


def check_general(page):
    heading, rows = rows_after(page, "## General block")
    if heading[:4] != ["at", "type", "field", "value"]:
        wrong("the table of the general block has other columns")
    end = 0
    for at, kind, field, cell, _ in rows:
        if int(at) != end:
            wrong("%s stands at %d" % (field, end))
        end = int(at) + SIZES[kind]
        for data, flags, want in tries(cell, SIZES[kind]):
            block = with_field(build.general(flags=flags), int(at), data)
            image = build.image(block, bands=[BAND], segments=[SEGMENT])
            expect_5("%s %s, flags %d" % (field, data.hex(" "), flags), image, want)
    if end != 64:
        wrong("the general block ends at %d" % end)
    for flags in range(32):
        image = build.image(build.general(flags=flags), bands=[BAND], segments=[SEGMENT])
        expect_5("flags %d" % flags, image, flags & 3 == 2)          # "needs bit 0"
        for part, bit in (("channels", 4), ("plan_data", 16), ("plan_avoid", 16)):
            image = build.image(build.general(flags=flags), bands=[BAND], segments=[SEGMENT],
                                **{part: [build.record()]})
            expect_5("flags %d, a record of %s" % (flags, part), image,
                     flags & bit == 0 or flags & 3 == 2)


def check_edition_2(page):
    heading, rows = rows_after(page, "## Edition 2")
    if heading[:4] != ["at", "type", "field", "value"]:
        wrong("the table of edition 2's fields has other columns")
    end = 64
    for at, kind, field, cell, _ in rows:
        if int(at) != end or (kind, cell) != ("f64", "W"):
            wrong("%s: %s %s stands at %d" % (field, kind, cell, end))
        end = int(at) + SIZES[kind]
        for value, want in ((9.15, 0), (0.0, 0), (-1.0, 0), (2.0 ** 40, 0), (-0.0, 6), (2.0 ** 41, 6),
                            (float("inf"), 6), (float("nan"), 6)):
            block = with_field(build.general(watts=(100.0, 9.15)), int(at), build.f64(value))
            image = build.image(block, bands=[BAND], segments=[SEGMENT], edition=2)
            met = reference.check_image(image)
            if met != want:
                wrong("%s of %r: the reference answers %d, not %d" % (field, value, met, want))
    if end != 80:
        wrong("the general block of edition 2 ends at %d" % end)


def check_records(page):
    heading, rows = rows_after(page, "## Records")
    if heading != ["", "table"] + list(FIELDS) or [row[0] for row in rows] != list("012345678"):
        wrong("the table of the records has other columns or rows")
    names = ["bands", "segments", "channels", "privileges", "automatic", "excluded", "power",
             "plan_data", "plan_avoid"]
    for row in rows:
        name = names[int(row[0])]
        for (field, (at, size)), cell in zip(FIELDS.items(), row[2:]):
            for data, flags, want in tries(cell, size):
                record = with_field(build.record(flags=flags), at, data)
                tables = {"bands": [BAND], "segments": [SEGMENT]}
                tables[name] = tables.get(name, []) + [record]
                image = build.image(build.general(flags=4 + 16), **tables)
                what = "%s: %s %s, flags %d" % (row[1], field, data.hex(" "), flags)
                expect_5(what, image, want)


def check_refusals(page):
    _, rows = rows_after(page, "## Refusals")
    if [row[0] for row in rows] != [str(n) for n in range(1, 15)]:
        wrong("the refusals are not 1 to 14 in their order")


if __name__ == "__main__":
    with open(PAGE, encoding="utf-8") as file:
        text = file.read()
    check_example(text)
    check_general(text)
    check_edition_2(text)
    check_records(text)
    check_refusals(text)
    for w in wrongs:
        print("docs/IMAGE.md: " + w)
    if wrongs:
        sys.exit(1)
    print("docs/IMAGE.md: the example is the practice image, and its tables agree with the reference")
