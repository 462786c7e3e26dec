"""The window of `import --from`, for its oracle."""
from import_kinds import TIMES, kind_of
from import_records import TEXT_LIMIT, row_length, rows_of
from import_refusals import UNTIL, WINDOW, Refused, refuse_log, refuse_record

FROM = b"--from is a time like those of the log, and not after --until"


def window_of(records, places, start, until, kind):
    """The header and the records whose times are in a window, the numbers of these, and the kind of the times. It refuses the
    record by which the window is too long, in its turn."""
    place, kept, numbers, first, last = places[0], records[:1], [], None, None
    length = 1 + row_length(records[0])
    for no, record in enumerate(records[1:], 2):
        time = record[place] if place < len(record) else b""
        kind = kind or kind_of(time)
        value = kind.read(time) if kind else None
        if value is None:
            refuse_record(no, b"bad time", TIMES)
        if first is None:
            first, last = bounds_of(start, until, kind)
        if first <= value and (last is None or value <= last):
            kept.append(record)
            numbers.append(no)
            length += sum(map(row_length, rows_of(record, places)))
            if length > TEXT_LIMIT:
                refuse_log(b"text too large", WINDOW)
    return kept, numbers, kind


def bounds_of(start, until, kind):
    """The first time of a window and the last one, if it has one, as times of this kind are counted."""
    if start[1] not in kind.ends:
        raise Refused(2, b"--from does not fit the times", FROM)
    if until is not None and until[1] not in kind.ends:
        raise Refused(2, b"--until does not fit the times", UNTIL)
    first, last = (None if it is None else it[0] * kind.ends[it[1]] for it in (start, until))
    if last is not None and last < first:
        raise Refused(2, b"--from does not fit the times", FROM)
    return first, last


def without_unsent(events):
    """Leaves out of receives the messages that none of these events sends to the node; returns how many."""
    sent, left = {(it.messages[0], it.to) for it in events if it.to is not None}, 0
    for it in events:
        if it.to is None:
            kept = [name for name in it.messages if (name, it.node) in sent]
            left, it.messages = left + len(it.messages) - len(kept), kept
    return left
