#!/usr/bin/env python3
"""make_table.py B: prints the table of Holland's pressure profile with the exponent B, in the form that fennhop_load_profile reads.

Entry m is the whole number nearest to 10,000 e^(-(m/100)^B), m being R/r in hundredths, 0 to 1,000. B is a decimal number above 0; with B = 1 it is
Myers' profile, and the table that the library has itself.
"""
import decimal
import re
import sys
from decimal import Decimal

ENTRIES, UNIT = 1001, 10_000
# Worked out with 60 digits a value is off by less than 10^-50. One that lies closer than 10^-40 to the middle between two whole numbers would not say
# which of them is nearest.
DIGITS, TIE = 60, Decimal("1e-40")


def entry(m, exponent):
    value = UNIT * (-((Decimal(m) / 100) ** exponent)).exp()
    nearest = value.to_integral_value(decimal.ROUND_HALF_EVEN)
    if abs(value - nearest) > Decimal("0.5") - TIE:
        sys.exit("entry %d is too near to a tie: %s" % (m, value))
    return int(nearest)


def table(exponent):
    """All entries for B, which is given as text: no digit of it is lost."""
    with decimal.localcontext() as context:
        context.prec = DIGITS
        return [entry(m, Decimal(exponent)) for m in range(ENTRIES)]


def text(entries):
    return "".join("%s\n" % line for line in ["factor", *entries])


def main():
    if len(sys.argv) != 2 or not re.fullmatch("[0-9]{1,3}([.][0-9]{1,6})?", sys.argv[1]) or not Decimal(sys.argv[1]):
        sys.stderr.write(__doc__)
        return 2
    sys.stdout.write(text(table(sys.argv[1])))
    return 0


if __name__ == "__main__":
    sys.exit(main())
