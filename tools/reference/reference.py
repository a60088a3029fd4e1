"""A reference for the table image and the station record, written from the papers alone.

It is written for reading, not for speed, and owes nothing to the Rattle code: every function's
comment quotes the sentence of document 01 that it turns into Python. "READING" marks how a sentence
of it is read, "DECISION" a decision on an open point (docs/DECISIONS.md).

    check_image(image)    0 if the image is accepted, else the first refusal, 1 to 14
    place_of(image)       where that refusal is met
    tidy_question(image)  (refusal, None) or (0, True) or (0, False)
    read_station(...)     the first of 20, 21, 22, or the station as it is read
    write_image(...)      (refusal, None), or (0, the image of these fields and records)
    raise_image(image)    (refusal, None), or (0, its edition 2 form)
    lower_image(image)    (refusal, None), or (0, its edition 1 form)
    amend_image(...)      (refusal, None), or (0, the effective image of a day)
"""

import math
import struct

# "nine tables of 32-byte records" - in document 01's order.
BANDS, SEGMENTS, CHANNELS, PRIVILEGES, AUTOMATIC, EXCLUDED, POWER, PLAN_DATA, PLAN_AVOID = range(9)
TABLES = 9

# "A 64-byte general block, nine tables of 32-byte records, and a 28-byte trailer at the end that
# points back." "Edition 2 has two more f64 in the general block" (document 02, 6).
GENERAL_BYTES = {1: 64, 2: 80}
RECORD_BYTES = 32
TRAILER_BYTES = 28

# "1 now means under 92 or over 65,552"
SHORTEST = 92
LONGEST = 65552

# "going up always fills in 100 and 9.15": what edition 1 goes by
CHANNEL_WATTS = 100.0
SEGMENT_WATTS = 9.15

# "6 a figure not finite, above 2^40 in size", and the same size in 21.
SIZE = 2.0 ** 40

NEGATIVE_ZERO = 0x8000000000000000


# ---------------------------------------------------------------------------------------------
# Reading bytes

def u16_at(data, at):
    """"Little-endian"."""
    return data[at] + 256 * data[at + 1]


def u32_at(data, at):
    """"Little-endian"."""
    return u16_at(data, at) + 65536 * u16_at(data, at + 2)


def bits_at(data, at):
    """"Little-endian; f64 means its 64 bits." """
    return u32_at(data, at) + 2 ** 32 * u32_at(data, at + 4)


def figure_of(bits):
    """"f64 means its 64 bits." """
    return struct.unpack("<d", struct.pack("<Q", bits))[0]


def in_size(bits):
    """"not finite [or] above 2^40 in size", turned round. 2^40 itself isn't above 2^40."""
    value = figure_of(bits)
    return math.isfinite(value) and abs(value) <= SIZE


# ---------------------------------------------------------------------------------------------
# The image, taken apart

def trailer(image):
    """"Trailer: nine u16 counts, a u32 distance from the trailer's start back to the first byte,
    u16 edition 1, and the ASCII letters EDGE." 18 + 4 + 2 + 4 = 28 bytes."""
    start = len(image) - TRAILER_BYTES
    return {
        "start": start,
        "counts": [u16_at(image, start + 2 * t) for t in range(TABLES)],
        "distance": u32_at(image, start + 18),
        "edition": u16_at(image, start + 22),
        "letters": bytes(image[start + 24:start + 28]),
    }


def general_block(image):
    """"General: 0 data limit, 8 elsewhere limit, 16 channel width, 24 carrier offset, 32 carrier
    tolerance (f64 each); bytes 40 region, 41 reading [...], 42 flags [...], 43 channel band,
    44 sideband [...], 45 emission bits; u16 rules at 46 data, 48 elsewhere, 50 automatic
    segments, 52 channels, 54 emissions, 56 privileges." "channel watts at 64 and segment watts at
    72" in edition 2. Only asked of an image that 1 to 4 let pass."""
    return bytes(image[0:GENERAL_BYTES[trailer(image)["edition"]]])


def watts(image):
    """The two 60 m power limits, channel and segment: edition 2's own, else "100 and 9.15"."""
    general = general_block(image)
    if trailer(image)["edition"] == 2:
        return figure_of(bits_at(general, 64)), figure_of(bits_at(general, 72))
    return CHANNEL_WATTS, SEGMENT_WATTS


def table_records(image):
    """The nine tables, each a list of its 32-byte records; "nine tables of 32-byte records"
    follow the general block, one after another. Only asked of an image that 1 to 4 let pass."""
    tables = []
    at = GENERAL_BYTES[trailer(image)["edition"]]
    for count in trailer(image)["counts"]:
        tables.append([bytes(image[at + RECORD_BYTES * i:at + RECORD_BYTES * (i + 1)])
                       for i in range(count)])
        at += RECORD_BYTES * count
    return tables


def low(record):
    """"Record: 0 low" """
    return figure_of(bits_at(record, 0))


def high(record):
    """"8 high" """
    return figure_of(bits_at(record, 8))


def figure(record):
    """"16 figure (f64)" """
    return figure_of(bits_at(record, 16))


def band_number(record):
    """"bytes 24 band" """
    return record[24]


def class_byte(record):
    """"25 class": a class number in privileges, class bits in power."""
    return record[25]


def flags(record):
    """"27 flags" """
    return record[27]


def has_bit(byte, bit):
    return (byte >> bit) & 1 == 1


# ---------------------------------------------------------------------------------------------
# Check 5: which bytes are used, and what a coded byte may be

def used_general_bytes(general):
    """The bytes of the general block that hold something, by the flags of byte 42.

    "Unused bytes and fields of absent parts are zero". Bytes 58 to 63 have no field. "Neither
    field belongs to an absent part, with channels or without" (of the two watts)."""
    used = set(range(0, 8))                              # data limit
    used |= {40, 41, 42}                                 # region, reading, flags
    used |= {46, 47}                                     # data rule
    used |= {50, 51}                                     # automatic segments' rule
    used |= {56, 57}                                     # privileges' rule
    if has_bit(general[42], 0):                          # "bit 0 elsewhere"
        used |= set(range(8, 16)) | {48, 49}             # its limit and its rule
    if has_bit(general[42], 2):                          # "2 channels"
        used |= set(range(16, 40))                       # width, offset, tolerance
        used |= {43, 44, 52, 53}                         # band, sideband, rule
    if has_bit(general[42], 3):                          # "3 60 m emissions"
        used |= {45, 54, 55}                             # emission bits, rule
    used |= set(range(64, 80))                           # the watts, where there are any
    return used


def general_codes_right(general):
    """The coded bytes of the general block.

    "41 reading (0 power, 1 spectral, 2 wider)"; "42 flags (bit 0 elsewhere, 1 response required,
    a field of elsewhere, 2 channels, 3 60 m emissions, 4 plan)"; "44 sideband (0 upper,
    1 lower)"; "Emission bits: 0 data, 1 cw, 2 test, 3 nothing".

    READING: "Region and band bytes have no values to be outside of". Rules are any u16: "Rules
    0 to 6 mean [...]; others come from the trustee's text list"."""
    if general[41] > 2:
        return False
    if general[42] > 0b11111:
        return False
    if has_bit(general[42], 1) and not has_bit(general[42], 0):
        return False                                     # a field of an absent part
    if general[44] > 1:
        return False
    if general[45] > 0b1111:
        return False
    return True


def used_record_bytes(table, record):
    """The bytes of a record that hold something, by its table and its own flags.

    "Tables: bands (low, high, band); data segments (plus figure under flag bit 0, rule, second
    rule under bit 1); channels (low is the centre); privileges (range, class number, emission
    bits under flag bit 0, rule under bit 1); automatic segments (range); excluded (band, rule);
    power (range, figure in watts, class bits under flag bit 0, rule); plan data and plan avoid
    (range, label number in rule)."

    The flags byte is used where the table has flag bits, and only there."""
    range_bytes = set(range(0, 16))
    low_bytes = set(range(0, 8))
    figure_bytes = set(range(16, 24))
    rule_bytes = {28, 29}
    second_rule_bytes = {30, 31}

    if table == BANDS:
        return range_bytes | {24}
    if table == SEGMENTS:
        used = range_bytes | {24, 27} | rule_bytes
        if has_bit(record[27], 0):
            used |= figure_bytes
        if has_bit(record[27], 1):
            used |= second_rule_bytes
        return used
    if table == CHANNELS:
        return low_bytes
    if table == PRIVILEGES:
        used = range_bytes | {25, 27}
        if has_bit(record[27], 0):
            used |= {26}
        if has_bit(record[27], 1):
            used |= rule_bytes
        return used
    if table == AUTOMATIC:
        return range_bytes
    if table == EXCLUDED:
        return {24} | rule_bytes
    if table == POWER:
        used = range_bytes | figure_bytes | {27} | rule_bytes
        if has_bit(record[27], 0):
            used |= {25}
        return used
    if table in (PLAN_DATA, PLAN_AVOID):
        return range_bytes | rule_bytes
    raise ValueError("no such table")


def record_codes_right(table, record):
    """The coded bytes of a record.

    "Classes: 0 Novice, 1 Technician, 2 General, 3 Advanced, 4 Extra. Emission bits: 0 data, 1 cw,
    2 test, 3 nothing." READING: "Emission bits above 3, class bits above 4 and flag bits without
    a meaning are values outside." """
    if table == SEGMENTS:
        return record[27] <= 0b11
    if table == PRIVILEGES:
        return record[25] <= 4 and record[26] <= 0b1111 and record[27] <= 0b11
    if table == POWER:
        return record[25] <= 0b11111 and record[27] <= 0b1
    return True


def unused_are_zero(data, used):
    """"Unused bytes and fields of absent parts are zero". All eight bytes of an unused figure,
    so a negative zero there is not zero (READING: "a NaN or a negative zero in an unused figure
    is 5")."""
    return all(data[i] == 0 for i in range(len(data)) if i not in used)


# ---------------------------------------------------------------------------------------------
# The checks, one function for each refusal; each says whether the refusal is met

def refusal_1(image):
    """"1 now means under 92 or over 65,552"."""
    return len(image) < SHORTEST or len(image) > LONGEST


def refusal_2(image):
    """"2 letters": "the ASCII letters EDGE"."""
    return trailer(image)["letters"] != b"EDGE"


def refusal_3(image):
    """"3 edition": "3 now passes both editions"."""
    return trailer(image)["edition"] not in (1, 2)


def refusal_4(image):
    """"4 a count over 256, or a length or distance that disagrees". The sum is over whole
    numbers here: nothing overflows. "a length wrong for the edition meets 4"."""
    end = trailer(image)
    if any(count > 256 for count in end["counts"]):
        return True
    front = GENERAL_BYTES[end["edition"]] + RECORD_BYTES * sum(end["counts"])
    return len(image) != front + TRAILER_BYTES or end["distance"] != front


def refusal_5(image):
    """"5 a coded byte outside its values, an unused one not zero, or a table of an absent part
    not empty". The parts with tables are the channels (bit 2) and the plan (bit 4)."""
    general = general_block(image)
    tables = table_records(image)
    if not general_codes_right(general):
        return True
    if not unused_are_zero(general, used_general_bytes(general)):
        return True
    if not has_bit(general[42], 2) and tables[CHANNELS]:
        return True
    if not has_bit(general[42], 4) and (tables[PLAN_DATA] or tables[PLAN_AVOID]):
        return True
    for table in range(TABLES):
        for record in tables[table]:
            if not record_codes_right(table, record):
                return True
            if not unused_are_zero(record, used_record_bytes(table, record)):
                return True
    return False


def general_figures(general):
    """Where the figures of the general block stand: five, and edition 2's two watts."""
    return [0, 8, 16, 24, 32] + ([64, 72] if len(general) == 80 else [])


def refusal_6(image):
    """"6 a figure not finite, above 2^40 in size, or negative zero". All of the general block and
    all three of every record: one that is unused is zero by now, and zero is right."""
    general = general_block(image)
    figures = [bits_at(general, at) for at in general_figures(general)]
    for records in table_records(image):
        for record in records:
            figures += [bits_at(record, 0), bits_at(record, 8), bits_at(record, 16)]
    return any(bits == NEGATIVE_ZERO or not in_size(bits) for bits in figures)


def no_width(records):
    """"range with low >= high"."""
    return any(low(record) >= high(record) for record in records)


def refusal_7(image):
    """"7 band [...] range with low >= high"."""
    return no_width(table_records(image)[BANDS])


def refusal_8(image):
    """"8 segment [...] range with low >= high"."""
    return no_width(table_records(image)[SEGMENTS])


def refusal_9(image):
    """"9 automatic [...] range with low >= high"."""
    return no_width(table_records(image)[AUTOMATIC])


def refusal_10(image):
    """"10 privilege range with low >= high"."""
    return no_width(table_records(image)[PRIVILEGES])


def refusal_11(image):
    """"11 no bands or no segments"."""
    tables = table_records(image)
    return not tables[BANDS] or not tables[SEGMENTS]


def holds(record, lo, hi):
    """"`holds` and `overlaps` include both ends." """
    return lo >= low(record) and hi <= high(record)


def refusal_12(image):
    """"12 a segment in no band". READING: "12 asks only that some band holds the segment, of
    whatever number"."""
    tables = table_records(image)
    return any(not any(holds(band, low(segment), high(segment)) for band in tables[BANDS])
               for segment in tables[SEGMENTS])


def refusal_13(image):
    """"13 own limit <= 0". A segment has an own limit if its flag bit 0 is set."""
    return any(has_bit(flags(segment), 0) and figure(segment) <= 0.0
               for segment in table_records(image)[SEGMENTS])


def refusal_14(image):
    """"14 general limit <= 0": the general block's data limit."""
    return figure_of(bits_at(general_block(image), 0)) <= 0.0


IMAGE_CHECKS = [refusal_1, refusal_2, refusal_3, refusal_4, refusal_5, refusal_6, refusal_7,
                refusal_8, refusal_9, refusal_10, refusal_11, refusal_12, refusal_13, refusal_14]


def check_image(image):
    """"Order: 20, 21, 22, 1 to 14, 15, 16, 23." 0 if none of 1 to 14 is met, else the first.

    READING: "Each check is made over the whole input before the next begins". DECISION: the
    check knows no policy, so an empty image meets 1 and not 22."""
    for number, met in enumerate(IMAGE_CHECKS, start=1):
        if met(image):
            return number
    return 0


# ---------------------------------------------------------------------------------------------
# Where a refusal is met

NOWHERE = "nowhere"
GENERAL = "general"


def first_place(tables, met):
    """The first table and, in it, the first record that meets something; tables and records in
    their order in the image."""
    for table, records in enumerate(tables):
        for index, record in enumerate(records):
            if met(table, record):
                return table, index
    return NOWHERE


def place_of(image):
    """Where the check's refusal is met: GENERAL (the general block), (table, index), or NOWHERE.

    The refusals that speak of bytes, figures or ranges of the block or of a record have a place:
    5 to 10, 12, 13. 1 to 4 are the form's, 11 is a table without records, 14 is the one general
    limit; they have none, nor has an accepted image. The block comes before the records. "A table
    of an absent part not empty" is met by each of its records."""
    number = check_image(image)
    if number not in (5, 6, 7, 8, 9, 10, 12, 13):
        return NOWHERE
    general = general_block(image)
    tables = table_records(image)
    if number == 5:
        if not (general_codes_right(general)
                and unused_are_zero(general, used_general_bytes(general))):
            return GENERAL
        absent = []
        if not has_bit(general[42], 2):
            absent += [CHANNELS]
        if not has_bit(general[42], 4):
            absent += [PLAN_DATA, PLAN_AVOID]
        return first_place(tables, lambda table, record: table in absent
                           or not record_codes_right(table, record)
                           or not unused_are_zero(record, used_record_bytes(table, record)))
    if number == 6:
        def wrong(data, offsets):
            return any(bits_at(data, at) == NEGATIVE_ZERO or not in_size(bits_at(data, at))
                       for at in offsets)
        if wrong(general, general_figures(general)):
            return GENERAL
        return first_place(tables, lambda table, record: wrong(record, (0, 8, 16)))
    ranges = {7: BANDS, 8: SEGMENTS, 9: AUTOMATIC, 10: PRIVILEGES}
    if number in ranges:
        return first_place(tables, lambda table, record: table == ranges[number]
                           and no_width([record]))
    if number == 12:
        return first_place(tables, lambda table, record: table == SEGMENTS
                           and not any(holds(band, low(record), high(record))
                                       for band in tables[BANDS]))
    return first_place(tables, lambda table, record: table == SEGMENTS
                       and has_bit(flags(record), 0) and figure(record) <= 0.0)


# ---------------------------------------------------------------------------------------------
# Tidy

def share_a_stretch(one, other):
    """"share a stretch of positive length": touching ends don't count."""
    return max(low(one), low(other)) < min(high(one), high(other))


def two_share(records):
    """"no two [...] share a stretch of positive length", turned round. Two records are two places
    of the table: alike records share their whole range."""
    return any(share_a_stretch(records[i], records[j])
               for i in range(len(records)) for j in range(i))


def tidy_question(image):
    """"A table is *tidy* if each data segment lies in a band of its number, and no two bands, no
    two segments, and no two privileges of one class share a stretch of positive length. A
    question answers this."

    DECISION: the question knows no policy; its refusals are the check's, 1 for an empty image."""
    refusal = check_image(image)
    if refusal != 0:
        return refusal, None
    tables = table_records(image)
    at_home = all(any(band_number(band) == band_number(segment)
                      and holds(band, low(segment), high(segment)) for band in tables[BANDS])
                  for segment in tables[SEGMENTS])
    by_class = [[p for p in tables[PRIVILEGES] if class_byte(p) == c] for c in range(5)]
    apart = (not two_share(tables[BANDS]) and not two_share(tables[SEGMENTS])
             and not any(two_share(privileges) for privileges in by_class))
    return 0, at_home and apart


# ---------------------------------------------------------------------------------------------
# Writing and converting images (document 02, 6)

FIELDS = [("data_limit", "d"), ("elsewhere_limit", "d"), ("channel_width", "d"),
          ("carrier_offset", "d"), ("carrier_tolerance", "d"), ("region", "B"), ("reading", "B"),
          ("flags", "B"), ("channel_band", "B"), ("sideband", "B"), ("emissions", "B"),
          ("data_rule", "H"), ("elsewhere_rule", "H"), ("automatic_rule", "H"),
          ("channels_rule", "H"), ("emissions_rule", "H"), ("privileges_rule", "H")]


def put(kind, value):
    """A number, "little-endian; f64 means its 64 bits": a figure is given by its bits here. DECISION:
    a figure that is no number has many bits, and gets 7FF8000000000000."""
    if kind == "d":
        return struct.pack("<Q", value if figure_of(value) == figure_of(value) else 0x7FF8000000000000)
    return struct.pack("<" + kind, value)


def write_image(fields, counts, figures, codes, rules, room):
    """"Add a writer of either edition from given fields and records [...] The writer refuses with the
    number that its image would get"; "23, last, also meets an output shorter than the image to be
    written". The records come in three runs, table after table: three figures (by their bits), four
    codes and two rules each.

    An image of over 2,045 records is over 65,552 bytes long in either edition: 1. DECISION: runs that
    disagree with the counts meet 4; the watts given for edition 1 are not looked at."""
    total = sum(counts)
    if total > 2045:
        return 1, None
    if fields["edition"] not in (1, 2):
        return 3, None
    if any(count > 256 for count in counts):
        return 4, None
    if (len(figures), len(codes), len(rules)) != (3 * total, 4 * total, 2 * total):
        return 4, None
    image = b"".join(put(kind, fields[name]) for name, kind in FIELDS) + bytes(6)
    if fields["edition"] == 2:
        image += put("d", fields["channel_watts"]) + put("d", fields["segment_watts"])
    for i in range(total):
        image += b"".join(put("d", x) for x in figures[3 * i:3 * i + 3])
        image += bytes(codes[4 * i:4 * i + 4])
        image += b"".join(put("H", x) for x in rules[2 * i:2 * i + 2])
    distance = len(image)
    image += b"".join(put("H", count) for count in counts)
    image += put("I", distance) + put("H", fields["edition"]) + b"EDGE"
    refusal = check_image(image)
    if refusal != 0:
        return refusal, None
    return (23, None) if room < len(image) else (0, image)


def refusal_from(image, edition):
    """"a converter meets 3 on an image that already has the edition it converts to": the image's own
    checks, with 3 on every edition but the one that is converted."""
    for number, met in enumerate(IMAGE_CHECKS, start=1):
        if trailer(image)["edition"] != edition if number == 3 else met(image):
            return number
    return 0


def raise_image(image, room):
    """"going up always fills in 100 and 9.15", "the distance back is 16 longer"; then 23."""
    refusal = refusal_from(image, 1)
    if refusal == 0 and room < len(image) + 16:
        refusal = 23
    if refusal != 0:
        return refusal, None
    start = trailer(image)["start"]
    watts_bytes = struct.pack("<dd", CHANNEL_WATTS, SEGMENT_WATTS)
    return 0, (image[:64] + watts_bytes + image[64:start + 18] + struct.pack("<IH", start + 16, 2)
               + b"EDGE")


def lower_image(image, room):
    """"It refuses (26, after the image checks) to lower an image whose watts differ from those two";
    then 23."""
    refusal = refusal_from(image, 2)
    if refusal == 0 and watts(image) != (CHANNEL_WATTS, SEGMENT_WATTS):
        refusal = 26
    if refusal == 0 and room < len(image) - 16:
        refusal = 23
    if refusal != 0:
        return refusal, None
    start = trailer(image)["start"]
    return 0, image[:64] + image[80:start + 18] + struct.pack("<IH", start - 16, 1) + b"EDGE"


# ---------------------------------------------------------------------------------------------
# Amendments with a day (document 02, 8)

AMENDMENT_BYTES = 40


def amendments_of(listing):
    """"In the lent list it is 40 bytes: u16 table (0 to 8 in the image's order), u16 index, u32 day,
    the 32-byte record." Only asked of a list in forties."""
    return [{"table": u16_at(listing, at), "index": u16_at(listing, at + 2),
             "day": u32_at(listing, at + 4), "record": bytes(listing[at + 8:at + 40])}
            for at in range(0, len(listing), AMENDMENT_BYTES)]


def superseding(amendments, table, index, day):
    """"For a given day, a record is superseded by the latest-day amendment not after that day; on
    equal days the later in the list counts." The amendment, or None."""
    best = None
    for amendment in amendments:
        if (amendment["table"], amendment["index"]) == (table, index) and amendment["day"] <= day:
            if best is None or amendment["day"] >= best["day"]:
                best = amendment
    return best


def amend_image(image, listing, day, room):
    """"It refuses (27, after the base image's checks) a list not in forties, or a table number above 8
    or an index beyond its table, anywhere in the list, and (28, next, before the effective image's
    checks) an output buffer shorter than the image"; the effective image "must pass every image check
    too, and where it fails, that check's number is given".

    DECISION: an empty base image meets 1."""
    refusal = check_image(image)
    if refusal != 0:
        return refusal, None
    if len(listing) % AMENDMENT_BYTES != 0:
        return 27, None
    amendments = amendments_of(listing)
    counts = trailer(image)["counts"]
    if any(a["table"] > 8 or a["index"] >= counts[a["table"]] for a in amendments):
        return 27, None
    if room < len(image):
        return 28, None
    effective = general_block(image)
    for table, records in enumerate(table_records(image)):
        for index, record in enumerate(records):
            amendment = superseding(amendments, table, index, day)
            effective += record if amendment is None else amendment["record"]
    effective += bytes(image[trailer(image)["start"]:])
    refusal = check_image(effective)
    return (refusal, None) if refusal != 0 else (0, effective)


# ---------------------------------------------------------------------------------------------
# The station record

ABSENT = 255


def fresh_station():
    """"A fresh station record now has region 2 and margin 50"; "A fresh record has 50 in each"
    (document 02). Else it follows `Situation`'s `Default`: "plan off, the rest absent". DECISION: the policy is part of the
    record; the fresh one is "0 unset"."""
    return {"policy": 0, "control": ABSENT, "license": ABSENT, "sideband": ABSENT, "region": 2,
            "plan": 0, "dial_here": 0, "power_here": 0, "lower": 50, "upper": 50, "dial": 0,
            "power": 0}


def station_codes_right(station, direction, kind):
    """"Station codes: policy 0 unset, 1 none, 2 rules, 3 broken; control 0 local, 1 remote,
    2 automatic; sideband 0 upper, 1 lower; direction 0 originate, 1 respond, 2 operator; kinds
    as emission bits; 255 for an absent control, licence or sideband. The plan mark is 0 or 1.
    Dial and power have a presence byte 0 or 1".

    The licence is a class number: "0 Novice [...] 4 Extra". Kinds are bit numbers: "0 data, 1 cw,
    2 test, 3 nothing". The region is any byte. READING: direction and kind meet 20 too, and
    "they have no absent code". "The direction gains the value 3, 'respond to automatic'"
    (document 02)."""
    return (station["policy"] in (0, 1, 2, 3)
            and station["control"] in (0, 1, 2, ABSENT)
            and station["license"] in (0, 1, 2, 3, 4, ABSENT)
            and station["sideband"] in (0, 1, ABSENT)
            and station["plan"] in (0, 1)
            and station["dial_here"] in (0, 1)
            and station["power_here"] in (0, 1)
            and direction in (0, 1, 2, 3)
            and kind in (0, 1, 2, 3))


def station_figures_right(station):
    """"21 a station figure not finite or above 2^40 in size"; "at 0 the figure isn't looked
    at"; "a lower and an upper margin instead of one [...] and 21 covers each" (document 02)."""
    return (in_size(station["lower"])
            and in_size(station["upper"])
            and (station["dial_here"] == 0 or in_size(station["dial"]))
            and (station["power_here"] == 0 or in_size(station["power"])))


def as_read(bits):
    """"Negative zero in edges or station reads as zero." """
    return 0 if bits == NEGATIVE_ZERO else bits


def read_station(station, direction, kind, image_length):
    """The refusals that come from the state, then the station as it is read.

    "20 a station code outside its values; 21 a station figure not finite or above 2^40 in size;
    22 Rules in force and an image of length 0 [...] Order: 20, 21, 22, 1 to 14". The figures are
    64 bits each. Gives (refusal, None), or (0, the station with its figures as they are read:
    None for an absent one)."""
    if not station_codes_right(station, direction, kind):
        return 20, None
    if not station_figures_right(station):
        return 21, None
    if station["policy"] == 2 and image_length == 0:
        return 22, None
    read = dict(station)
    read["lower"] = as_read(station["lower"])
    read["upper"] = as_read(station["upper"])
    read["dial"] = as_read(station["dial"]) if station["dial_here"] == 1 else None
    read["power"] = as_read(station["power"]) if station["power_here"] == 1 else None
    read["direction"] = direction
    read["kind"] = kind
    return 0, read
