"""The kinds of times of a log, for the oracle of `import`.

Each says what reads a field, the latest time, whether durations fit, how long a unit of W is, and the ends that fit with
what makes times of them.
"""
from import_times import decimal, local, number, stamp

LAST_NUMBER = 2**64 - 1
LAST_STAMP = 253_402_207_200_999_999_999
SECOND = 10**9
TIMES = (b"a time is a whole number, decimal seconds like 1700000000.123456, or a time stamp like 2026-11-22T10:00:00.250Z; "
         b"all are of the kind of record 2's, and with --unit whole numbers")


class Numbers:
    """Whole numbers in any unit."""

    latest, has_durations, unit = LAST_NUMBER, False, 1
    ends = {"number": 1}
    read = staticmethod(number)


class Whole:
    """Whole numbers of a unit of so many nanoseconds."""

    has_durations = True

    def __init__(self, unit):
        self.unit, self.latest = unit, LAST_NUMBER * unit
        self.ends = {"number": unit, "nanoseconds": 1}

    def read(self, text):
        value = number(text)
        return None if value is None else value * self.unit


class Decimals:
    """Decimal seconds, and whole ones among them."""

    latest, has_durations, unit = LAST_NUMBER * SECOND + SECOND - 1, True, 1
    ends = {"number": SECOND, "nanoseconds": 1}

    @staticmethod
    def read(text):
        value = number(text)
        return decimal(text) if value is None else value * SECOND


class Stamps:
    """Time stamps with an offset."""

    latest, has_durations, unit = LAST_STAMP, True, 1
    ends = {"stamp": 1}
    read = staticmethod(stamp)


class Locals:
    """Time stamps without an offset."""

    latest, has_durations, unit = LAST_STAMP, True, 1
    ends = {"local": 1}
    read = staticmethod(local)


def kind_of(time):
    """The kind of a log whose first event has this time, None if it is none."""
    kinds = [(number, Numbers), (decimal, Decimals), (stamp, Stamps), (local, Locals)]
    return next((kind for read, kind in kinds if read(time) is not None), None)
