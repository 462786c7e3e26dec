"""Refusals of the oracle of `import`: of a log, of one of its records, or of the command line."""


class Refused(Exception):
    """A log, or a command line, that is refused: the status, and its lines, with the bytes of names unchanged."""

    def __init__(self, status, *lines):
        super().__init__(lines)
        self.status, self.lines = status, lines


# What helps against refusals of more than one module.
UNTIL = b"--until is a time like those of the log, and not before any of its events; a duration fits decimal seconds, and whole numbers with --unit"
WINDOW = b"--from and --until read a window of a log of any length; a window has at most 67108864 bytes and 1000000 events"
EMPTY = b"the log has a header alone, or no record in the window of --from and --until, or --drop-lost leaves all out"


def refuse_log(why, *hints):
    raise Refused(3, b"log: " + why, *filter(None, hints))


def refuse_record(number_of_record, why, hint=None):
    refuse_log(b"record %d: " % number_of_record + why, hint)
