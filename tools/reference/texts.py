"""What crates/run_texts is given, and what it must write: number texts at their borders.

    python3 tools/reference/texts.py    writes crates/run_texts/stdin and stdout

Input: u16 number of cases; a case is u8 which text (0 at, 1 khz, 2 whole hertz), u8 bytes lent, f64
figure by its bits. Output, a line a case: its number, the refusal, the length, the text in brackets,
and in hexadecimal the lent bytes past it, which hold a5 as before.

The texts are worked out here from document 02: "The digits are those of the printed double's exact
value, nearest, halves to even; the branch tests in `khz` keep its float steps and its own rounding.
Negative figures and those that round to zero keep the sign Rust prints."
"""
import math
import os
import struct
from fractions import Fraction

HERE = os.path.dirname(os.path.abspath(__file__))
LIMIT = 2.0 ** 43
MILLIONTH = 1e-6
WHICH = {"at": 0, "khz": 1, "hertz": 2}


def decimal(x, places):
    """The sign of the double, and the nearest number with so many decimals to its exact value."""
    value = abs(Fraction(x)) * 10 ** places
    whole, rest = divmod(value.numerator, value.denominator)
    if 2 * rest > value.denominator or 2 * rest == value.denominator and whole % 2 == 1:
        whole += 1
    digits = str(whole).rjust(places + 1, "0")
    if places > 0:
        digits = digits[:-places] + "." + digits[-places:]
    return ("-" if math.copysign(1.0, x) < 0 else "") + digits


def nearest_whole(x):
    """The whole double nearest to x, halves away from zero."""
    whole = math.floor(abs(Fraction(x)) + Fraction(1, 2))
    return math.copysign(float(whole), x)


def at(hz):
    return decimal(hz / 1000.0, 3)


def khz(hz):
    k = hz / 1000.0
    if abs(k - nearest_whole(k)) < MILLIONTH:
        return decimal(k, 0)
    tenfold = k * 10.0
    if abs(tenfold - nearest_whole(tenfold)) < MILLIONTH:
        return decimal(k, 1)
    return decimal(k, 3)


def hertz(hz):
    return decimal(hz, 0)


TEXT = {"at": at, "khz": khz, "hertz": hertz}


def answer(which, hz, lent):
    """The refusal and the text: "not finite or above 2^43 in size meets 21", then 24 "when the lent
    bytes are too few"."""
    if math.isnan(hz) or abs(hz) > LIMIT:
        return 21, ""
    text = TEXT[which](hz)
    if lent < len(text):
        return 24, ""
    return 0, text


def up(x):
    """The next double away from zero."""
    bits = struct.unpack("<Q", struct.pack("<d", x))[0]
    return struct.unpack("<d", struct.pack("<Q", bits + 1))[0]


def down(x):
    """The next double towards zero."""
    bits = struct.unpack("<Q", struct.pack("<d", x))[0]
    return struct.unpack("<d", struct.pack("<Q", bits - 1))[0]


# texts that the papers state
STATED = [
    ("at", 0.5, "0.001"), ("at", 1.5, "0.002"), ("at", 2.5, "0.003"), ("at", 4.5, "0.004"),
    ("at", 62.5, "0.062"), ("at", 187.5, "0.188"), ("at", 3585000.0, "3585.000"),
    ("at", -LIMIT, "-8796093022.208"),
    ("khz", -0.4, "-0.000"), ("khz", -0.0001, "-0"), ("khz", 0.001, "0.000"),
    ("khz", 0.000999, "0"), ("khz", 999.999, "1.000"), ("khz", 999.9995, "1"),
    ("khz", 100.00009, "0.1"), ("khz", 100.0001, "0.100"), ("khz", 7125000.0, "7125"),
    ("khz", 14099500.0, "14099.5"),
    ("hertz", -0.5, "-0"), ("hertz", -0.0, "-0"),
]


def cases():
    """Which text, the figure, the bytes lent."""
    for which, hz, text in STATED:
        assert TEXT[which](hz) == text, (which, hz, TEXT[which](hz))
        yield which, hz, 15
    least = struct.unpack("<d", struct.pack("<Q", 1))[0]
    for which in WHICH:
        # halves, and the doubles on either side
        for half in (0.5, 2.5, 312.5, 1062.5):
            yield which, half, 15
            yield which, up(half), 15
            yield which, -down(half), 15
        # a digit more by rounding
        for hz in (9.5, 999.5, 9999.5, 99999.9995, 999999999.5):
            yield which, hz, 15
        for hz in (0.0, -0.0, least, -least, LIMIT, -LIMIT, 1e-300, 30e6, -14097750.0):
            yield which, hz, 15
        # 21, whatever is lent
        for hz in (up(LIMIT), up(-LIMIT), math.inf, -math.inf, math.nan):
            yield which, hz, 15
            yield which, hz, 0
        # no byte lent, one too few, exactly enough, one more
        for hz in (14097750.0, -0.0, -LIMIT):
            length = len(TEXT[which](hz))
            for lent in (0, length - 1, length, length + 1):
                yield which, hz, lent
    # the millionth, from both sides
    for hz in (0.001, up(0.001), down(0.001), 1000.001, up(1000.001), down(1000.001),
               100.0001, down(100.0001), 99.9999, up(99.9999), down(99.9999), 14099999.999):
        yield "khz", hz, 15
        yield "khz", -hz, 15


def main():
    given, told = b"", []
    for number, (which, hz, lent) in enumerate(cases()):
        given += struct.pack("<BBd", WHICH[which], lent, hz)
        refusal, text = answer(which, hz, lent)
        past = "a5" * (lent - len(text))
        told.append("%d refusal %d length %d [%s]%s" % (number, refusal, len(text), text, past))
    crate = os.path.join(HERE, "../../crates/run_texts")
    with open(os.path.join(crate, "stdin"), "wb") as out:
        out.write(struct.pack("<H", len(told)) + given)
    with open(os.path.join(crate, "stdout"), "w") as out:
        out.write("\n".join(told) + "\n")


if __name__ == "__main__":
    main()
