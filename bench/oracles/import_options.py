"""The command line of `import`, for its oracle: the words, and what they give."""
from dataclasses import dataclass
from typing import Optional

from import_kinds import SECOND, Whole
from import_records import NODE_LIMIT, is_node
from import_refusals import UNTIL, Refused
from import_times import above_zero, decimal, duration, local, number, stamp

# How many nanoseconds the words of --unit are.
NODES = b"--nodes takes 2 to 64 different names with one comma between them; a name is text with no control character or semicolon, and not empty"
TIME = b" takes a time as the log has it, such as 1250, 1700000000.25 or 2026-11-22T10:00:00.250Z, or a duration such as 1m 30s"
DURATION = b"a duration fits only times of a known unit; --unit s, ms, us or ns says what whole numbers are"
UNITS = {b"s": SECOND, b"ms": 10**6, b"us": 10**3, b"ns": 1}
LENGTHS = (
    b"a number above 0 in the unit of the times (ns for decimal seconds and time stamps), or a duration above 0 such as 250us, 5ms, "
    b"1m 30s or 2h, unless the times are whole numbers without --unit"
)


@dataclass
class Options:
    """The words of the command line, None for what is left out."""

    nodes: Optional[bytes] = None
    unit: Optional[bytes] = None
    tick: Optional[bytes] = None
    until: Optional[bytes] = None
    from_: Optional[bytes] = None
    idle: Optional[bytes] = None
    spread: bool = False
    align: bool = False
    drop_lost: bool = False
    merge: bool = False
    table: bool = False
    ticks: bool = False


@dataclass
class Given:
    """What the words give, None for what is left out."""

    # The nodes in the order of their numbers, and the kind of the times.
    nodes: Optional[list]
    kind: Optional[Whole]
    # The tick's length and the longest silence that is filled, each with whether it is a duration.
    width: tuple
    idle: Optional[tuple]
    # The end and the start of the window, each with the form of its time.
    until: Optional[tuple]
    start: Optional[tuple]

    @property
    def in_nanoseconds(self):
        """Whether the words say that times are counted in nanoseconds: --unit, or a duration of --tick."""
        return self.kind is not None or self.width[1]


def read_options(options):
    """What the words of the command line give."""
    if options.ticks and (options.tick is not None or options.idle is not None or options.merge or options.table):
        raise Refused(2, b"import --ticks takes no --tick, --idle, --merge or --table")
    return Given(
        nodes=nodes_of(options.nodes),
        kind=unit_of(options.unit),
        width=(1, False) if options.tick is None else length_of(options.tick, b"--tick"),
        until=end_of(options.until, b"--until"),
        idle=None if options.idle is None else length_of(options.idle, b"--idle"),
        start=end_of(options.from_, b"--from"),
    )


def nodes_of(text):
    """The nodes that --nodes lists; None if it is left out."""
    if text is None:
        return None
    nodes = text.split(b",")
    if not 2 <= len(nodes) <= NODE_LIMIT or len({*nodes}) < len(nodes) or not all(map(is_node, nodes)):
        raise Refused(2, b"bad --nodes", NODES)
    return nodes


def unit_of(text):
    """The kind of the times that --unit gives; None if it is left out."""
    if text is None:
        return None
    if text not in UNITS:
        raise Refused(2, b"bad --unit", b"--unit takes s, ms, us or ns")
    return Whole(UNITS[text])


def end_of(text, option):
    """The time that this option gives, with its kind; None if it is left out."""
    if text is None:
        return None
    forms = [(number, "number"), (decimal, "nanoseconds"), (stamp, "stamp"), (local, "local"), (duration, "nanoseconds")]
    told = next(((read(text), form) for read, form in forms if read(text) is not None), None)
    if told is None:
        raise Refused(2, b"bad " + option, option + TIME)
    return told


def length_of(text, option):
    """The length above 0 of this option, with whether it is a duration."""
    plain, length = number(text), above_zero(text)
    told = (plain, False) if plain is not None else (length, True)
    if not told[0]:
        raise Refused(2, b"bad " + option, b'%s is "%s", and takes ' % (option, text) + LENGTHS)
    return told


def fitted(kind, width, until, idle):
    """The tick's length, the end and the longest silence as times of this kind are counted; refuses options that don't fit
    them."""
    if width[1] and not kind.has_durations:
        raise Refused(2, b"--tick does not fit the times", DURATION)
    if until is not None and until[1] not in kind.ends:
        raise Refused(2, b"--until does not fit the times", UNTIL)
    if idle is not None and idle[1] and not kind.has_durations:
        raise Refused(2, b"--idle does not fit the times", DURATION)
    width, idle = (None if it is None else it[0] * (1 if it[1] else kind.unit) for it in (width, idle))
    return width, None if until is None else until[0] * kind.ends[until[1]], idle
