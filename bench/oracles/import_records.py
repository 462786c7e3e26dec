"""The records of a log, for the oracle of `import`: their fields, how long they are, and the names in them."""
import re

from import_refusals import WINDOW, refuse_log

TEXT_LIMIT = 67_108_864
NODE_LIMIT = 64
COLUMNS = (b"time", b"node", b"event", b"to", b"message")
HEADER = b"the first record names the columns, in any order, with commas and no spaces between them: time,node,event,to,message"


def read_records(log, has_window):
    """The records of a log, and whether a line that is too long ends them. Without a window no log may be too long."""
    if not has_window and len(log) > TEXT_LIMIT:
        refuse_log(b"text too large", WINDOW)
    great = great_line(log) if has_window else None
    records = records_of(log[:great])
    if great is not None and not records:
        refuse_log(b"text too large", WINDOW)
    return records, great is not None


def records_of(text):
    """The records that a reader of comma-separated fields finds: lines that are blank are none, and an open quote runs on."""
    text = text[3:] if text.startswith(b"\xef\xbb\xbf") else text
    if b'"' not in text:
        # (the same, and much quicker)
        return [line.split(b",") for line in re.split(rb"[\r\n]+", text) if line]
    at, found = 0, []
    while True:
        while text[at : at + 1] in (b"\r", b"\n"):
            at += 1
        if at >= len(text):
            return found
        record = []
        while True:
            value, at = field_at(text, at)
            record.append(value)
            if text[at : at + 1] != b",":
                break
            at += 1
        found.append(record)


FIELD_END = re.compile(rb"[,\r\n]|\Z")


def field_at(text, at):
    """The field that begins at a place, and the place of what ends it. Only a quote that begins a field opens it."""
    value = b""
    if text[at : at + 1] == b'"':
        at += 1
        while True:
            quote = text.find(b'"', at)
            if quote < 0:
                return value + text[at:], len(text)
            value += text[at:quote]
            at = quote + 1
            if text[at : at + 1] != b'"':
                break
            value += b'"'
            at += 1
    end = FIELD_END.search(text, at).start()
    return value + text[at:end], end


def is_name(text):
    try:
        text.decode()
    except UnicodeDecodeError:
        return False
    return text != b"" and all(it >= 32 and it != 127 for it in text)


def is_message(text):
    return is_name(text) and b" " not in text


def is_node(text):
    return is_name(text) and b";" not in text


def places_of(records):
    """The places of the five columns."""
    header = records[0] if records else []
    for name in COLUMNS:
        if name not in header:
            refuse_log(b"no column " + name, HEADER)
    for name in COLUMNS:
        if header.count(name) > 1:
            refuse_log(b"two columns " + name)
    return [header.index(it) for it in COLUMNS]


def spread_out_lists(records, numbers, places):
    """The records with one for each node that a send lists, and the numbers of these."""
    kept, new = records[:1], []
    for no, record in zip(numbers, records[1:]):
        for it in rows_of(record, places):
            kept.append(it)
            new.append(no)
    return kept, new


def rows_of(record, places):
    """A record with one node in `to`, or one for each node that a send lists there."""
    event, to = places[2], places[3]
    if not (event < len(record) and record[event] == b"send" and to < len(record)):
        return [record]
    return [[*record[:to], name, *record[to + 1 :]] for name in record[to].split(b";")]


def row_length(record):
    """How many bytes a record has, with quotes where they are needed."""
    fields = [len(it) + (2 + it.count(b'"') if any(c in it for c in b',"\r\n') else 0) for it in record]
    return sum(fields) + len(fields) + (2 if fields == [0] else 0)


def great_line(log):
    """Where the first line begins that is too long for a record, or None. With quotes a record may have several lines."""
    if b'"' in log:
        return None
    return next((line.start() for line in re.finditer(rb"[^\r\n]+", log) if len(line[0]) > TEXT_LIMIT), None)


def test_length(records):
    """Refuses records that are too long together."""
    if 1 + sum(map(row_length, records)) > TEXT_LIMIT:
        refuse_log(b"text too large", WINDOW)
