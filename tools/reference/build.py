"""Puts an image together from figures and numbers, right or wrong, as document 01's "The table
image" lays it out. The reference takes images apart by offsets of its own; nothing is shared."""

import struct


def f64(value):
    """Eight bytes: of a float, or of an int that gives the 64 bits."""
    if isinstance(value, int):
        return struct.pack("<Q", value)
    return struct.pack("<d", value)


def general(data=2.0, elsewhere=0.0, width=0.0, offset=0.0, tolerance=0.0, region=0, reading=0,
            flags=0, channel_band=0, sideband=0, emissions=0, data_rule=0, elsewhere_rule=0,
            automatic_rule=0, channels_rule=0, emissions_rule=0, privileges_rule=0, watts=None):
    """`watts` are the two figures that make it a block of edition 2."""
    block = b"".join(f64(v) for v in (data, elsewhere, width, offset, tolerance))
    block += bytes([region, reading, flags, channel_band, sideband, emissions])
    block += struct.pack("<6H", data_rule, elsewhere_rule, automatic_rule, channels_rule,
                         emissions_rule, privileges_rule)
    return block + bytes(6) + (b"" if watts is None else f64(watts[0]) + f64(watts[1]))


def record(low=0.0, high=0.0, figure=0.0, band=0, cls=0, emissions=0, flags=0, rule=0, second=0):
    return (f64(low) + f64(high) + f64(figure) + bytes([band, cls, emissions, flags])
            + struct.pack("<HH", rule, second))


def trailer(counts, distance=None, edition=1, letters=b"EDGE"):
    if distance is None:
        distance = 64 + 32 * sum(counts)
    return struct.pack("<9H", *counts) + struct.pack("<IH", distance, edition) + letters


def image(block=None, bands=(), segments=(), channels=(), privileges=(), automatic=(),
          excluded=(), power=(), plan_data=(), plan_avoid=(), counts=None, distance=None,
          edition=1, letters=b"EDGE", slack=b""):
    """`slack` is put between the last record and the trailer. The distance goes by the block."""
    tables = [list(t) for t in (bands, segments, channels, privileges, automatic, excluded, power,
                                plan_data, plan_avoid)]
    records = [r for t in tables for r in t]
    if counts is None:
        counts = [len(t) for t in tables]
    if block is None:
        block = general()
    if distance is None:
        distance = len(block) + 32 * len(records)
    return block + b"".join(records) + slack + trailer(counts, distance, edition, letters)


def raised(data, channel=100.0, segment=9.15):
    """The edition 2 form of a right image of edition 1, with these watts: "channel watts at 64 and
    segment watts at 72, and the distance back is 16 longer"."""
    distance, = struct.unpack("<I", data[-10:-6])
    return (data[:64] + f64(channel) + f64(segment) + data[64:-10]
            + struct.pack("<IH", distance + 16, 2) + data[-4:])
