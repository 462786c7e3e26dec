"""Times for the oracle of `import`: what a text is worth as a number, as decimal seconds, as a time stamp with an offset or
without one, or as a duration, or None.

A time stamp is worth its nanosecond since 1970 began, and a duration its nanoseconds. Besides RFC 3339 a stamp may have a
lower-case `t` or `z`, a space for the `T`, a comma for the point, no separators in its date or in its time, hours or
minutes alone, an offset with seconds, a year of six digits with its sign, and suffixes in brackets, which change nothing.
A second of 60 is read as 59. A duration is of ISO 8601 without days (`PT0.5S`), or words (`1h 30m`, `5 milliseconds`,
`1:02:03`), with a sign or `ago`.
"""
import datetime
import re

GREATEST_NUMBER = 2**64 - 1
SECOND = 10**9
# The least and the greatest nanosecond of a stamp.
STAMPS = -377_705_023_201 * SECOND, 253_402_207_201 * SECOND - 1
GREATEST_OFFSET = 25 * 3600 + 59 * 60 + 59
GREATEST_AMOUNT = 2**63 - 1
GREATEST_DURATION = 2**63 * SECOND - 1
# The days of 400 years, and of those before 1970.
DAYS_OF_CYCLE = 146_097
EPOCH = datetime.date(1970, 1, 1).toordinal()

ZONE_PART = rb"[A-Za-z_.][A-Za-z_.0-9+-]*"
STAMP = re.compile(
    rb"(?P<year>\d{4}|[+-]00\d{4})(?P<dash>-?)(?P<month>\d\d)(?P=dash)(?P<day>\d\d)"
    rb"[ Tt]"
    rb"(?P<hour>\d\d)(?:(?P<colon>:?)(?P<minute>\d\d)(?:(?P=colon)(?P<second>\d\d)(?:[.,](?P<fraction>\d{1,9}))?)?)?"
    rb"(?:[Zz]|(?P<sign>[+-])(?P<hours>\d\d)(?:(?P<mark>:?)(?P<minutes>\d\d)(?:(?P=mark)(?P<seconds>\d\d)(?:[.,](?P<rest>\d{1,9}))?)?)?)"
    # (a zone, by its name or its offset, and then keys with values)
    rb"(?:\[!?(?:" + ZONE_PART + rb"(?:/" + ZONE_PART + rb")*|[+-](?:[01]\d|2[0-5])(?::?[0-5]\d)?)\])?"
    rb"(?:\[[a-z_][a-z_0-9-]*=[A-Za-z0-9]+(?:-[A-Za-z0-9]+)*\])*"
)

UNITS = {"h": 3600 * SECOND, "m": 60 * SECOND, "s": SECOND, "ms": 10**6, "us": 10**3, "ns": 1}
NAMES = {
    "h": "hours hour hrs hr h",
    "m": "minutes minute mins min m",
    "s": "seconds second secs sec s",
    "ms": "milliseconds millisecond millis milli msecs msec ms",
    "us": "microseconds microsecond micros micro usecs usec us µsecs µsec µs",
    "ns": "nanoseconds nanosecond nanos nano nsecs nsec ns",
}
UNIT_OF = {name.encode(): UNITS[unit] for unit, names in NAMES.items() for name in names.split()}
SPACE = rb"[ \t\n\f\r]"
AMOUNT = rb"(\d{1,21})(?:[.,](\d{1,9}))?"
ISO = re.compile(rb"([+-]?)[Pp][Tt]((?:\d{1,21}(?:[.,]\d{1,9})?[HhMmSs])+)")
ISO_PART = re.compile(AMOUNT + rb"([HhMmSs])")
WORDS = re.compile(rb"([+-]?)(.*?)(?:" + SPACE + rb"+(ago)?)?", re.DOTALL)
CLOCK = re.compile(rb"(\d{1,21}):(\d{1,21}):" + AMOUNT)
WORD_PART = re.compile(AMOUNT + SPACE + rb"*(" + b"|".join(sorted(UNIT_OF, key=len, reverse=True)) + rb")")
BETWEEN = re.compile(rb"(?:," + SPACE + rb")?" + SPACE + rb"*")


def number(text):
    """The value of the digits of an unsigned number of 64 bits, without a sign and without a leading zero."""
    if not re.fullmatch(rb"0|[1-9]\d{0,19}", text) or int(text) > GREATEST_NUMBER:
        return None
    return int(text)


def decimal(text):
    """The nanosecond of decimal seconds: a number, a point, and one to nine digits."""
    whole, point, digits = text.partition(b".")
    seconds = number(whole)
    if not point or seconds is None or not re.fullmatch(rb"[0-9]{1,9}", digits):
        return None
    return seconds * SECOND + nanos(digits)


def local(text):
    """The nanosecond of a time stamp without an offset, in UTC: what is none by itself, and is one with a Z behind it."""
    return stamp(text + b"Z") if stamp(text) is None and len(text) <= 40 else None


def nanos(digits):
    """A fraction of a second in nanoseconds."""
    return int((digits or b"").ljust(9, b"0"))


def day_number(year, month, day):
    """The days from 1970 began to a date of the calendar that is the same before it was made, None if there is none."""
    try:
        # (Python knows the years from 1 on, and the calendar repeats itself after 400)
        day_of_cycle = datetime.date(year % 400 + 400, month, day).toordinal()
    except ValueError:
        return None
    return day_of_cycle - EPOCH + (year - year % 400 - 400) // 400 * DAYS_OF_CYCLE


def offset_of(found):
    """The seconds of a stamp's offset, None if they are out of range. Half a second adds one."""
    hours, minutes, seconds = (int(found[it] or 0) for it in ("hours", "minutes", "seconds"))
    total = hours * 3600 + minutes * 60 + seconds + (nanos(found["rest"]) >= SECOND // 2)
    if hours > 25 or minutes > 59 or seconds > 59 or total > GREATEST_OFFSET:
        return None
    return -total if found["sign"] == b"-" else total


def stamp(text):
    """The nanosecond of a time stamp."""
    found = STAMP.fullmatch(text)
    if not found or found["year"] == b"-000000":
        return None
    days = day_number(*(int(found[it]) for it in ("year", "month", "day")))
    hour, minute, second = (int(found[it] or 0) for it in ("hour", "minute", "second"))
    offset = offset_of(found)
    if days is None or offset is None or hour > 23 or minute > 59 or second > 60:
        return None
    whole = days * 86400 + hour * 3600 + minute * 60 + min(second, 59) - offset
    value = whole * SECOND + nanos(found["fraction"])
    return value if STAMPS[0] <= value <= STAMPS[1] else None


def amount_of(parts):
    """The nanoseconds of amounts with their fractions and units: the units fall, and a fraction is of the last alone."""
    units = [unit for _, _, unit in parts]
    if any(a <= b for a, b in zip(units, units[1:])) or any(fraction for _, fraction, _ in parts[:-1]):
        return None
    if any(int(amount) > GREATEST_AMOUNT for amount, _, _ in parts) or (parts[-1][1] and units[-1] == 1):
        return None
    total = sum(int(amount) * unit + nanos(fraction) * unit // SECOND for amount, fraction, unit in parts)
    return total if total <= GREATEST_DURATION else None


def word_parts(text):
    """The amounts of a text in words, None if it isn't only such."""
    parts, at = [], 0
    while found := WORD_PART.match(text, at):
        amount, fraction, name = found.groups()
        parts.append((amount, fraction, UNIT_OF[name]))
        if found.end() == len(text):
            return parts
        at = BETWEEN.match(text, found.end()).end()
    return None


def above_zero(text):
    """The nanoseconds of a duration, which are above 0; None of any other text."""
    value = duration(text)
    return value if value and value > 0 else None


def duration(text):
    """The nanoseconds of a duration, with its sign."""
    if found := ISO.fullmatch(text):
        sign = found[1]
        parts = [(amount, fraction, UNITS[unit.decode().lower()]) for amount, fraction, unit in ISO_PART.findall(found[2])]
    else:
        sign, body, ago = WORDS.fullmatch(text).groups()
        clock = CLOCK.fullmatch(body)
        if sign and ago:
            return None
        sign = sign or ago and b"-"
        parts = [(clock[1], None, UNITS["h"]), (clock[2], None, UNITS["m"]), (clock[3], clock[4], UNITS["s"])] if clock else word_parts(body)
    value = amount_of(parts) if parts else None
    return value if value is None or sign != b"-" else -value


# Chosen texts: the second of a stamp by `date -u -d TEXT +%s`, or worked out by hand, and its fraction.
STAMPS_READ = {
    "1970-01-01T00:00:00Z": (0, 0),
    "1969-12-31T23:59:59.5Z": (-1, 500_000_000),
    "2000-02-29T12:34:56.000000001Z": (951_827_696, 1),
    "2026-11-22T10:00:00.250Z": (1_795_341_600, 250_000_000),
    "2026-11-22t10:00:00.250z": (1_795_341_600, 250_000_000),
    "2026-11-22 10:00:00,25Z": (1_795_341_600, 250_000_000),
    "2026-11-22T10:00Z": (1_795_341_600, 0),
    "2026-11-22T10Z": (1_795_341_600, 0),
    "20261122T100000Z": (1_795_341_600, 0),
    "20261122T10:00:00Z": (1_795_341_600, 0),
    "2026-11-22T1000-0000": (1_795_341_600, 0),
    "2026-11-22T10:00:00+01:30": (1_795_336_200, 0),
    "2026-11-22T10:00:00+0130": (1_795_336_200, 0),
    "2026-11-22T10:00:00-01": (1_795_345_200, 0),
    "2026-11-22T10:00:00+01:30:30": (1_795_336_170, 0),
    "2026-11-22T10:00:00+01:30:30.5": (1_795_336_169, 0),
    "2026-11-22T10:00:00+25:59:59": (1_795_248_001, 0),
    "2026-11-22T10:00:00+01:00[Europe/Paris]": (1_795_338_000, 0),
    "2026-11-22T10:00:00Z[+01:00][u-ca=iso8601-x]": (1_795_341_600, 0),
    "2026-11-22T23:59:60.5Z": (1_795_391_999, 500_000_000),
    "+002026-11-22T10:00:00Z": (1_795_341_600, 0),
    "0000-03-01T00:00:00Z": (-62_162_035_200, 0),
    "-000001-12-31T00:00:00Z": (-62_167_305_600, 0),
    "9999-12-30T22:00:00.999999999Z": (253_402_207_200, 999_999_999),
    "-009999-01-02T01:59:59Z": (-377_705_023_201, 0),
}
NO_STAMPS = """
2026-11-22T10:00:00.1234567891Z|2026-11-22T10:00:00|2026-11-22Z|2026-11-22|2026-1122T10:00:00Z|2026-11-22T10:0000Z
2026-11-22T24:00:00Z|2026-11-22T10:60:00Z|2026-11-22T10:00:61Z|2026-11-22T10:00:00.Z|2026-11-22T10:00.5Z|2026-13-01T00:00:00Z
2026-02-29T10:00:00Z|2026-00-10T10:00:00Z|2026-11-22T10:00:00+26:00|2026-11-22T10:00:00+25:59:59.5|2026-11-22T10:00:00+01:60
2026-11-22T10:00:00Z[!u-ca=x]|2026-11-22T10:00:00Z[|2026-11-22T10:00:00Z[U-ca=x]| 2026-11-22T10:00:00Z|2026-11-22T10:00:00Z |2026-11-22  10:00:00Z
-000000-11-22T10:00:00Z|+012026-11-22T10:00:00Z|002026-11-22T10:00:00Z|9999-12-30T22:00:01Z|-009999-01-02T01:59:58Z|1732350000000|26-11-22T10:00:00Z
""".strip()
DURATIONS_READ = {
    "5ms": 5_000_000,
    "5 ms": 5_000_000,
    "+5ms": 5_000_000,
    "5ms ": 5_000_000,
    "5 milliseconds": 5_000_000,
    "0.5ms": 500_000,
    "1,5us": 1_500,
    "5\u00b5s": 5_000,
    "1m 30s": 90 * SECOND,
    "1m30s": 90 * SECOND,
    "1 hour, 30 min": 5_400 * SECOND,
    "1s5ms": 1_005_000_000,
    "1:02:03": 3_723 * SECOND,
    "1:02:03.5": 3_723_500_000_000,
    "1.5h": 5_400 * SECOND,
    "PT0.5S": 500_000_000,
    "pt1h30m": 5_400 * SECOND,
    "PT1.5M": 90 * SECOND,
    "1ns": 1,
    "9223372036854775807s": 9_223_372_036_854_775_807 * SECOND,
}
NO_DURATIONS = "|5|ms|0ms|0s|PT0S|-5ms|5ms ago|-PT5S|1d|1w|1mo|P1D|PT|P|0.5ns|0.0000001ms|0.0000000001s|5ms 1s|5ms5ms|5ms,|5ms, |5ms,3us|1.5h 3m|PT1.5H3M|1:02|1:02:03 4ms|+-5ms| 5ms|9223372036854775808s|2562047788015216h"


DECIMALS_READ = {
    "0.0": 0,
    "0.000000001": 1,
    "1.5": 1_500_000_000,
    "1700000000.123456": 1_700_000_000_123_456_000,
    "1700000000.123456789": 1_700_000_000_123_456_789,
    "18446744073709551615.999999999": 18_446_744_073_709_551_615_999_999_999,
}
NO_DECIMALS = "|.|1|1.|.5|1.1234567890|01.5|+1.5|-1.5|1.5.5|1,5|1. 5|1.5 | 1.5|18446744073709551616.0|1e9.5|1.5e9|2026-11-22T10:00:00.250Z"
LOCALS_READ = {
    "2026-11-22 10:00:00.250": (1_795_341_600, 250_000_000),
    "2026-11-22T10:00:00.250": (1_795_341_600, 250_000_000),
    "2026-11-22t10:00:00": (1_795_341_600, 0),
    "20261122T100000": (1_795_341_600, 0),
    "2026-11-22 10:00": (1_795_341_600, 0),
    "2026-11-22 10:00:00,123456789": (1_795_341_600, 123_456_789),
    "1969-12-31T23:59:59.5": (-1, 500_000_000),
    "2026-11-22T23:59:60": (1_795_391_999, 0),
}
NO_LOCALS = "|Z|2026-11-22|2026-11-22T10:00:00Z|2026-11-22T10:00:00+01:30|2026-11-22T10:00:00[UTC]|2026-11-22T24:00:00|2026-11-22  10:00:00|2026-11-22T10:00:00 |10:00:00|1700000000|1700000000.5|9999-12-30T22:00:01"


def failures():
    """Tries the chosen texts, and returns how many were tried and what is wrong with which."""
    wanted = [(stamp, text, whole * SECOND + rest) for text, (whole, rest) in STAMPS_READ.items()]
    wanted += [(stamp, text, None) for line in NO_STAMPS.split("\n") for text in line.split("|")]
    wanted += [(decimal, text, value) for text, value in DECIMALS_READ.items()]
    wanted += [(decimal, text, None) for text in NO_DECIMALS.split("|")]
    wanted += [(local, text, whole * SECOND + rest) for text, (whole, rest) in LOCALS_READ.items()]
    wanted += [(local, text, None) for text in NO_LOCALS.split("|")]
    wanted += [(above_zero, text, value) for text, value in DURATIONS_READ.items()]
    wanted += [(above_zero, text, None) for text in NO_DURATIONS.split("|")]
    tried = [(text, value, read(text.encode())) for read, text, value in wanted]
    return len(tried), [f"{text!r} is read as {given} and not as {value}" for text, value, given in tried if given != value]
