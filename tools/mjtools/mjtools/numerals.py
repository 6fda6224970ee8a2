"""Numbers of models and tapes: integers, and texts that are rounded to a multiple of a power of two."""

import re

NUMERAL = re.compile(r"([+-]?)(\d+\.?\d*|\.\d+)(?:[eE]([+-]?\d{1,2}))?", re.ASCII)
MOST_DIGITS = 26


def nearest(n, d):
    """The integer nearest to n / d, a tie to the one nearer to zero; d above 0."""
    size = (2 * abs(n) + d - 1) // (2 * d)
    return -size if n < 0 else size


def numeral(text, scale=32):
    """The raw number that a numeral stands for, in units of 2^-scale. ValueError where the text is none."""
    found = NUMERAL.fullmatch(text)
    if not found:
        raise ValueError(f"'{text}' is no numeral")
    sign, mantissa, exponent = found.groups()
    whole, _, fraction = mantissa.partition(".")
    if len(whole + fraction) > MOST_DIGITS:
        raise ValueError(f"'{text}' has more than {MOST_DIGITS} digits")
    power = int(exponent or 0) - len(fraction)
    n = int(whole + fraction) << scale
    size = nearest(n, 10**-power) if power < 0 else n * 10**power
    if size >= 2**63:
        raise ValueError(f"'{text}' is too large")
    return -size if sign == "-" else size
