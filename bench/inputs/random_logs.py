"""Random logs for `compare-imports`: right ones in every form that a log may have, and wrong ones by what is aimed at.

A log is made as rows of texts with a time for each, then changed by what is aimed at, and written last. Whether it is right
after all is for the oracle to say: two faults may hide one another, and a change may change nothing.
"""
from dataclasses import dataclass, field

COLUMNS = ["time", "node", "event", "to", "message"]
NAMES = ["a", "b", "c", "node-7", "10.0.0.1:8080", "é", "a b", 'x"y', "p,q", "A", " a", "→", "send", "1"]
# The options that are words alone.
FLAGS = ("spread", "align", "drop-lost", "merge", "table", "ticks")
GREATEST = 2**64 - 1
TEXT_LIMIT = 67_108_864


@dataclass
class Log:
    """The rows have their times in units; a text in their place is unchanged."""

    rows: list
    nodes: list
    # The nanosecond at which time 0 is, None if times are whole numbers, and what is added to these.
    epoch: object
    base: int
    # The length of a unit in nanoseconds, or in numbers; and of a tick in units.
    unit: int
    width: int
    spread: bool
    # How times are written: number, whole (in the unit of --unit), decimal, stamp or local.
    form: str = "number"
    columns: list = field(default_factory=lambda: [*COLUMNS])
    options: dict = field(default_factory=dict)
    # The bytes in place of what the rows give.
    text: object = None
    is_absent: bool = False


# Right logs


def random_log(chance, scale=1):
    """A right log, or nearly so. The scale makes it longer."""
    size = chance.choice([2, 2, 2, 3, 3, 4, 5, 5, 64]) if chance.random() < 0.95 else 1
    nodes = chance.sample(NAMES, size) if size <= 5 else [f"n{it}" for it in range(size)]
    width = chance.choice([1, 1, 1, 2, 5, 10])
    is_coarse = chance.random() < 0.3
    rows = coarse_rows(chance, nodes, scale) if is_coarse else apart_rows(chance, nodes, width, scale)
    if not is_coarse and chance.random() < 0.3:
        chance.shuffle(rows)
    form = chance.choice(["number", "number", "whole", "decimal", "stamp", "stamp", "local"])
    epoch = None
    if form in ("stamp", "local"):
        epoch = chance.choice([1_795_341_600 * 10**9, -(10**9), 946_684_799_123_456_789])
    elif form == "decimal":
        epoch = chance.choice([0, 1_700_000_000 * 10**9, 1_700_000_000_123_456_789])
    base = chance.choice([0, 0, 1, 1000, 2**32]) if epoch is None else 0
    unit = chance.choice([1, 1, 1, 7] if epoch is None else [1, 1_000, 10**6, 10**6, 10**9, 60 * 10**9])
    is_apart = not is_coarse and not any(";" in it["to"] for it in rows)
    log = Log(rows, nodes, epoch, base, unit, width, chance.random() < (0.2 if is_apart else 0.7), form)
    log.options = options_of(chance, log)
    return log


def apart_rows(chance, nodes, width, scale):
    """Each node acts at most once in a tick, and what it receives was sent in an earlier one."""
    waiting, rows, serial, sent_to, again = {it: [] for it in nodes}, [], 0, {}, share_of_names(chance)
    lists = share_of_lists(chance)
    busy, sends = chance.choice([0.1, 0.3, 0.6, 1]) / (10 if len(nodes) > 5 else 1), chance.choice([0.3, 0.5, 0.7])
    for moment in range(scale * chance.choice([1, 2, 5, *range(5, 25)])):
        sent = []
        for node in nodes:
            if chance.random() >= busy:
                continue
            at = moment * width + (chance.randrange(width) if rows else 0)
            if chance.random() < sends:
                serial += 1
                receivers, message = message_for(chance, nodes, f"m{serial}", sent_to, again, lists)
                rows.append({"at": at, "node": node, "event": "send", "to": ";".join(receivers), "message": message})
                sent += [(to, message) for to in receivers]
            else:
                rows.append(receive_row(chance, at, node, waiting))
        for to, message in sent:
            waiting[to].append(message)
    return rows or [{"at": 0, "node": nodes[0], "event": "send", "to": nodes[-1], "message": "m1"}]


def coarse_rows(chance, nodes, scale):
    """Several events of a node at one time, in the order of the file."""
    waiting, rows, at, sent_to, again = {it: [] for it in nodes}, [], 0, {}, share_of_names(chance)
    lists = share_of_lists(chance)
    for serial in range(1, scale * chance.choice([2, 5, *range(5, 30)])):
        at += chance.choice([0, 0, 0, 1, 1, 2, 9])
        node = chance.choice(nodes)
        if chance.random() < 0.6:
            receivers, message = message_for(chance, nodes, f"m{serial}", sent_to, again, lists)
            rows.append({"at": at, "node": node, "event": "send", "to": ";".join(receivers), "message": message})
            for to in receivers:
                waiting[to].append(message)
        else:
            rows.append(receive_row(chance, at, node, waiting))
    return rows


def share_of_names(chance):
    """How often a message has a name that was sent to other nodes, if there is one."""
    return chance.choice([0, 0, 0.3, 0.8])


def share_of_lists(chance):
    """How often a message is sent to several nodes by one record."""
    return chance.choice([0, 0, 0, 0.2, 0.6])


def message_for(chance, nodes, new, sent_to, again, lists):
    """The nodes that a message is sent to, and its name: a new one if they are several."""
    if len(nodes) > 1 and chance.random() < lists:
        receivers = chance.sample(nodes, chance.randrange(2, min(len(nodes), 5) + 1))
        sent_to.setdefault(new, set()).update(receivers)
        return receivers, new
    to = chance.choice(nodes)
    return [to], name_for(chance, to, new, sent_to, again)


def name_for(chance, to, new, sent_to, again):
    """The name of a message to a node: a new one, or one of the last names that were sent to other nodes alone."""
    others = [name for name in [*sent_to][-20:] if to not in sent_to[name]]
    name = chance.choice(others) if others and chance.random() < again else new
    sent_to.setdefault(name, set()).add(to)
    return name


def receive_row(chance, at, node, waiting):
    taken = [it for it in waiting[node] if chance.random() < 0.6]
    waiting[node] = [it for it in waiting[node] if it not in taken]
    chance.shuffle(taken)
    return {"at": at, "node": node, "event": "receive", "to": chance.choice(["", "", "a", "nobody", "\x01"]), "message": " ".join(taken)}


def options_of(chance, log):
    options = {}
    if chance.random() < 0.5 and not any("," in it for it in log.nodes) and len(log.nodes) > 1:
        listed = [*log.nodes, *(it for it in ["silent", "z"] if len(log.nodes) < 60 and chance.random() < 0.2)]
        chance.shuffle(listed)
        options["nodes"] = ",".join(listed)
    if log.form == "whole":
        options["unit"] = chance.choice([*UNITS])
    length = log.width * log.unit
    if length > 1 or chance.random() < 0.2:
        options["tick"] = tick_text(chance, log, options, length)
    if chance.random() < 0.3:
        options["until"] = end_text(chance, log, options, max(it["at"] for it in log.rows) + chance.choice([0, 0, 1, 20]))
    if chance.random() < 0.3:
        options["from"] = end_text(chance, log, options, max(0, chance.choice(log.rows)["at"] + chance.choice([-1, 0, 0, 1])))
        if chance.random() < 0.5:
            options["until"] = end_text(chance, log, options, chance.choice(log.rows)["at"])
    if chance.random() < 0.3:
        options["idle"] = tick_text(chance, log, options, length * chance.choice([1, 1, 2, 3, 5, 20]) + chance.randrange(2))
    if log.spread:
        options["spread"] = ""
    if chance.random() < 0.2:
        options["align"] = ""
    if chance.random() < 0.3:
        options["drop-lost"] = ""
    if chance.random() < 0.3:
        options["merge"] = ""
    if chance.random() < 0.4:
        options["table"] = ""
    if chance.random() < 0.2:
        options["ticks"] = ""
        if chance.random() < 0.9:
            for it in ("tick", "idle", "merge", "table"):
                options.pop(it, None)
    return options


UNITS = {"s": 10**9, "ms": 10**6, "us": 10**3, "ns": 1}


def tick_text(chance, log, options, length):
    """A length of a tick in units of the times, in a form that fits them."""
    if log.form == "number" or (log.form == "whole" and chance.random() < 0.4):
        return str(length)
    return duration_text(chance, length * UNITS[options.get("unit", "ns")])


def end_text(chance, log, options, at):
    """A time as an end of the log, in a form that fits."""
    if log.form not in ("whole", "decimal") or chance.random() < 0.4:
        return time_text(chance, log, at)
    nanos = (log.base + at * log.unit) * UNITS[options.get("unit", "ns")] + (log.epoch or 0)
    if chance.random() < 0.5:
        return decimal_text(chance, nanos)
    length = duration_text(chance, nanos)
    return f"{length}ns" if length.isdigit() else length


def decimal_text(chance, nanos):
    """Decimal seconds in one of their forms."""
    whole, rest = divmod(nanos, 10**9)
    digits = f"{rest:09}"
    while digits.endswith("0") and len(digits) > 1 and chance.random() < 0.9:
        digits = digits[:-1]
    return f"{whole}" if rest == 0 and chance.random() < 0.2 else f"{whole}.{digits}"


def duration_text(chance, nanos):
    forms = [str(nanos), f"{nanos}ns", f"PT{nanos // 10**9}.{nanos % 10**9:09}S", f"{nanos // 10**9}.{nanos % 10**9:09} seconds"]
    for name, unit in (("us", 10**3), ("ms", 10**6), (" milliseconds", 10**6), ("s", 10**9), (" min", 60 * 10**9), ("m", 60 * 10**9)):
        if nanos % unit == 0:
            forms += [f"{nanos // unit}{name}"] * 2
    return chance.choice(forms)


def time_text(chance, log, at):
    value = log.base + at * log.unit
    if log.epoch is None:
        return str(value)
    if log.form == "decimal":
        return decimal_text(chance, log.epoch + value)
    return stamp_text(chance, log.epoch + value, log.form == "local")


def stamp_text(chance, nanos, is_local=False):
    """A time stamp in one of its forms, without an offset if it is a local one."""
    minutes = 0 if is_local else chance.choice([0, 0, 0, 90, -60, 345, -720])
    seconds, rest = divmod(nanos + minutes * 60 * 10**9, 10**9)
    days, second = divmod(seconds, 86400)
    year, month, day = civil(days)
    hour, minute, second = second // 3600, second // 60 % 60, second % 60
    dash, colon, mark = chance.choice(["-", "-", "-", ""]), chance.choice([":", ":", ":", ""]), chance.choice([":", ":", ""])
    zone = f"{'-' if minutes < 0 else '+'}{abs(minutes) // 60:02}{mark}{abs(minutes) % 60:02}" if minutes else chance.choice(["Z", "Z", "Z", "z", "+00:00", "-00:00", "+00"])
    fraction = f"{chance.choice('....,')}{rest:09}" if rest else chance.choice(["", "", ".0", ".000"])
    while fraction.endswith("000") and len(fraction) > 4:
        fraction = fraction[:-3]
    clock = f"{hour:02}{colon}{minute:02}{colon}{second:02}{fraction}"
    if is_local:
        return f"{year:04}{dash}{month:02}{dash}{day:02}{chance.choice('TTt  ')}{clock}"
    return f"{year:04}{dash}{month:02}{dash}{day:02}{chance.choice('TTTTt ')}{clock}{zone}{chance.choice(['', '', '', '[Europe/Paris]', '[u-ca=iso8601]'])}"


def civil(days):
    """The date of a day that is counted from 1970 on, by going through years and months."""
    year = 1970
    while days < 0:
        year -= 1
        days += 365 + is_leap(year)
    while days >= 365 + is_leap(year):
        days -= 365 + is_leap(year)
        year += 1
    for month, length in enumerate((31, 28 + is_leap(year), 31, 30, 31, 30, 31, 31, 30, 31, 30, 31), 1):
        if days < length:
            return year, month, days + 1
        days -= length
    raise AssertionError("a year has twelve months")


def is_leap(year):
    return year % 4 == 0 and (year % 100 != 0 or year % 400 == 0)


# Wrong logs: what each line of the table of refusals is aimed at by, in the order of the table


def bad_nodes(chance, log):
    log.options["nodes"] = chance.choice(["a", "a,a", "a,,b", "", ",a", "a,", "a,\x7f", "a;b,c", ",".join(f"n{it}" for it in range(65))])


def bad_unit(chance, log):
    log.options["unit"] = chance.choice(["", "m", "S", "MS", "sec", " s", "s ", "1s", "min", "\u00b5s"])


def unit_of_another_kind(chance, log):
    """A unit is given, and the times may be anything."""
    log.options["unit"] = chance.choice([*UNITS])


def bad_tick(chance, log):
    log.options["tick"] = chance.choice(["0", "", "x", "0ms", "1d", "P1D", "007", "1.5", str(GREATEST + 1), "5", "5 parsecs", "5ms ago", "-5ms", "0.0000001ms"])


def bad_idle(chance, log):
    log.options["idle"] = chance.choice(["0", "", "x", "0s", "1d", "007", "2.5", str(GREATEST + 1), "-5ms", "5ms ago"])


def bad_until(chance, log):
    log.options["until"] = chance.choice(["", "x", "016", "-5", "5 parsecs", "5.", ".5", "05.5", "1.1234567890", "2026-11-22", str(GREATEST + 1), "2026-11-22T24:00:00Z", "2026-11-22T10:00:00.1234567890Z"])


def bad_start(chance, log):
    log.options["from"] = chance.choice(["", "x", "016", "-5", "5 parsecs", "5.", "2026-11-22", str(GREATEST + 1), "2026-11-22T24:00:00Z"])


def start_of_another_kind(chance, log):
    log.options["from"] = chance.choice(["5", "5.25", "2026-11-22T10:00:00Z", "2026-11-22 10:00:00", "5ms", "20000000000.5"])


def no_log(chance, log):
    log.is_absent = True


def too_large(chance, log):
    # (a window is read in parts of 1 MiB, so that a record which is above the limit by less may be read)
    most = TEXT_LIMIT + (1 << 20 if "from" in log.options else 0)
    log.text = chance.choice([b"\n", b",", b"x"]) * (most + 1)


def no_column(chance, log):
    for name in chance.sample(COLUMNS, chance.choice([1, 1, 2])):
        log.columns = [chance.choice(["", name.upper(), f" {name}", "other"]) if it == name else it for it in log.columns]


def two_columns(chance, log):
    for name in chance.sample(COLUMNS, chance.choice([1, 1, 2])):
        log.columns.insert(chance.randrange(len(log.columns) + 1), name)


def bad_fields(chance, log):
    chance.choice(log.rows)["fields"] = chance.choice([-1, 1, -3, 7])


def bad_time(chance, log):
    row, kind = chance.choice([log.rows[0], *log.rows]), chance.randrange(3)
    others = {"number": "5", "decimal": "5.25", "stamp": "2026-11-22T10:00:00Z", "local": "2026-11-22 10:00:00"}
    other = chance.choice([text for form, text in others.items() if form != log.form])
    row["time"] = [other, chance.choice(["", "x", "07", "+7", "-7", "7.", ".5", "7.1234567890", str(GREATEST + 1), "2026-11-22"]), f" {row['at']}"][kind]


def bad_event(chance, log):
    chance.choice(log.rows)["event"] = chance.choice(["", "sent", "Send", "recv", " send", "RECEIVE"])


def bad_node(chance, log):
    row = chance.choice(log.rows)
    row[chance.choice(["node", "to"])] = chance.choice(["", "\x01", "a\n", "\udcff", "\x7f", "not-listed", ";", "a;", "a;;b", "a;not-listed"])


def bad_message(chance, log):
    row = chance.choice(log.rows)
    row["message"] = chance.choice(["", " ", "m ", " m", "m  n", "m n", "m\t", "\udcff", "\x7f", f"{row['message']} "])


def no_events(chance, log):
    log.rows = []


def too_many_nodes(chance, log):
    count = 66 - len(log.nodes) if chance.random() < 0.8 else 64 - len(log.nodes)
    last = max((it["at"] for it in log.rows), default=0)
    log.options.pop("nodes", None)
    for no in range(count):
        log.rows.append({"at": last + (no + 1) * log.width, "node": f"more{no}", "event": chance.choice(["send", "receive"]), "to": "a", "message": ""})
        if log.rows[-1]["event"] == "send":
            log.rows[-1].update(to=f"more{no + chance.randrange(2)}", message=f"more{no}")


def sent_before(chance, log):
    sends = sends_of(log)
    if sends:
        first = chance.choice(sends)
        chance.choice(sends)["message"] = first["message"]
        log.rows.append({**first, "at": first["at"] + chance.choice([0, 1, 500])})


def too_few_nodes(chance, log):
    log.options.pop("nodes", None)
    for row in log.rows:
        row["node"] = row["to"] = log.nodes[0]


def tick_of_another_kind(chance, log):
    log.options["tick"] = "5ms"


def idle_of_another_kind(chance, log):
    log.options["idle"] = "5ms"


def until_of_another_kind(chance, log):
    times = [it["at"] for it in log.rows] or [0]
    early = max(0, chance.choice([max(times) - 1, min(times), min(times) - 1]))
    others = ["5", "5.25", "2026-11-22T10:00:00Z", "2026-11-22 10:00:00", "5ms", "0s", "-5ms", "5ms ago", "20000000000.5", "90000000000s"]
    log.options["until"] = chance.choice([chance.choice(others), end_text(chance, log, log.options if log.options.get("unit") in UNITS else {}, early)])


def too_many_ticks(chance, log):
    far = 999_999 * log.width
    for row in chance.sample(log.rows, min(len(log.rows), chance.choice([1, 1, 2]))):
        row["at"] = far + chance.choice([-1, 0, 1, 1, log.width, log.width, 5 * far])


def never_sent(chance, log):
    add_message(chance, log, "nobody-sent-it")


def sent_again(chance, log):
    """A name is sent to another node, and maybe received there."""
    sends = sends_of(log)
    if sends:
        first, to = chance.choice(sends), chance.choice(log.nodes)
        at = chance.randrange(len(log.rows) + 1)
        log.rows.insert(at, {**first, "at": first["at"] + chance.choice([0, 1, log.width]), "to": to})
        if chance.random() < 0.6:
            log.rows.append({**log.rows[at], "at": log.rows[at]["at"] + chance.choice([1, log.width, 500]), "node": to, "event": "receive"})


def for_another(chance, log):
    sends = sends_of(log)
    if sends:
        add_message(chance, log, chance.choice(sends)["message"])


def received_before(chance, log):
    receives = [it for it in receives_of(log) if it["message"]]
    if receives:
        first = chance.choice(receives)
        row = chance.choice([first, *[it for it in receives_of(log) if it["node"] == first["node"]]])
        row["message"] = f"{row['message']} {chance.choice(first['message'].split(' '))}".strip()


def no_later(chance, log):
    """A receive goes to another time, near to that of a send or before it, or to another place in the file."""
    receives = [it for it in receives_of(log) if it["message"]]
    if not receives:
        return
    row = chance.choice(receives)
    sends = [it for it in sends_of(log) if it["message"] in row["message"].split(" ")]
    if sends:
        row["at"] = max(0, chance.choice(sends)["at"] + chance.choice([-1, 0, 0, 0, 1, log.width - 1, -log.width]))
    if chance.random() < 0.4:
        log.rows.remove(row)
        log.rows.insert(chance.randrange(len(log.rows) + 1), row)


def longer_ticks(chance, log):
    """Ticks that hold more than the log was made for."""
    length = log.width * log.unit * chance.choice([2, 2, 3, 10])
    log.options["tick"] = tick_text(chance, log, log.options if log.options.get("unit") in UNITS else {}, length)
    if chance.random() < 0.8:
        log.options.pop("spread", None)


def second_event(chance, log):
    row = chance.choice(log.rows)
    made = {"at": max(0, row["at"] + chance.choice([0, 0, 1, -1, log.width - 1])), "node": row["node"], "event": "receive", "to": "", "message": ""}
    log.rows.insert(chance.choice([len(log.rows), chance.randrange(len(log.rows) + 1)]), made)
    if chance.random() < 0.7:
        log.options.pop("spread", None)


def skewed(chance, log):
    """The clocks of some nodes are ahead of the others'."""
    log.options["spread"] = ""
    for node in log.nodes:
        ahead = chance.choice([0, 0, 1, log.width, 3 * log.width, 20 * log.width])
        for row in log.rows:
            if row["node"] == node and "at" in row:
                row["at"] += ahead
    log.options.pop("until", None)


def aligned(chance, log):
    """The same, and the clocks are to be aligned."""
    skewed(chance, log)
    log.options["align"] = ""
    if chance.random() < 0.3:
        log.options.pop("spread")


def cycle(chance, log):
    """Receives go to other times, so that some come before the sends that others wait for; or nodes in a ring do."""
    log.options["spread"] = ""
    log.options.pop("until", None)
    if chance.random() < 0.5:
        for row in chance.sample(log.rows, (len(log.rows) + 1) // chance.choice([2, 3, 6])):
            row["at"] = chance.randrange(1 + max(it["at"] for it in log.rows))
        return
    at, ring = chance.choice([0, 5]), chance.sample(log.nodes, chance.randrange(1, 1 + len(log.nodes)))
    for place, node in enumerate(ring):
        to = ring[(place + 1) % len(ring)]
        first = {"at": at, "node": node, "event": "receive", "to": "", "message": f"r{place}"}
        then = {"at": at + chance.choice([0, 0, 1, 9]), "node": node, "event": "send", "to": to, "message": f"r{(place + 1) % len(ring)}"}
        for row in [first, then]:
            log.rows.insert(len(log.rows) if chance.random() < 0.7 else chance.randrange(len(log.rows) + 1), row)


def spread_past(chance, log):
    """Some events of one node at the last tick that there may be."""
    log.options["spread"] = ""
    at = 999_999 * log.width + chance.randrange(log.width)
    for _ in range(chance.choice([1, 2, 2, 3])):
        log.rows.append({"at": at, "node": log.nodes[0], "event": "receive", "to": "", "message": ""})


AIMS = [
    bad_nodes, bad_unit, bad_tick, bad_until, bad_idle, bad_start, start_of_another_kind, no_log, no_column, two_columns, bad_fields, bad_time, bad_event, bad_node, bad_message,
    no_events, too_many_nodes, sent_before, too_few_nodes, unit_of_another_kind, tick_of_another_kind, until_of_another_kind,
    idle_of_another_kind, too_many_ticks,
    never_sent, sent_again, for_another, received_before, no_later, longer_ticks, second_event, skewed, aligned, aligned, cycle, spread_past,
]


def sends_of(log):
    return [it for it in log.rows if it["event"] == "send"]


def receives_of(log):
    return [it for it in log.rows if it["event"] == "receive"]


def add_message(chance, log, name):
    """A receive takes one message more, at some place of its list."""
    receives = receives_of(log)
    if receives:
        row = chance.choice(receives)
        names = row["message"].split(" ") if row["message"] else []
        names.insert(chance.randrange(len(names) + 1), name)
        row["message"] = " ".join(names)


def aim(chance, log):
    """Changes the log by what one line of the table is aimed at by, or by two that follow one another, or any two."""
    at = chance.randrange(len(AIMS))
    aims = [[AIMS[at]], AIMS[at : at + 2], AIMS[at : at + 2], [AIMS[at], chance.choice(AIMS)]][chance.randrange(4)]
    if no_events in aims and chance.random() < 0.7:
        aims = [no_events]
    for it in sorted(aims, key=lambda it: (it is no_events, chance.random())):
        if log.rows:
            it(chance, log)


# Texts


def text_of(chance, log):
    """The bytes of a log, in one of its forms."""
    if log.text is not None:
        return log.text
    columns = [*log.columns]
    for _ in range(chance.choice([0, 0, 0, 0, 0, 0, 1, 1, 2, 2, 14])):
        columns.insert(chance.randrange(len(columns) + 1), chance.choice(["level", "x", "x", "to what"]))
    if chance.random() < 0.4:
        chance.shuffle(columns)
    lines = [[quoted(chance, it) for it in columns]]
    for row in log.rows:
        texts = {**row, "time": row.get("time") if "time" in row else time_text(chance, log, row["at"])}
        fields = [quoted(chance, texts[it] if it in COLUMNS else chance.choice(["", "info", "a,b", 'q"', "two\nlines"])) for it in columns]
        more = row.get("fields", 0)
        lines.append(fields[:more] if more < 0 else [*fields, *[""] * more])
    end = chance.choice(["\n", "\n", "\n", "\r\n", "\r", "\n\n"])
    text = end.join(",".join(it) for it in lines) + chance.choice([end, end, ""])
    return ("\ufeff" * (chance.random() < 0.1) + text).encode(errors="surrogateescape")


def quoted(chance, text):
    if any(it in text for it in ',"\n\r') or chance.random() < 0.05:
        return '"' + text.replace('"', '""') + '"'
    return text


def words_of(chance, log):
    """The options as words of a command line, in any order."""
    words = []
    for name, value in chance.sample([*log.options.items()], len(log.options)):
        if name in FLAGS:
            words += [f"--{name}"]
        elif value.startswith("-"):
            words += [f"--{name}={value}"]
        else:
            words += [f"--{name}", value]
    return words


# One event too many, alone and next to its neighbours in the table; and as many as there may be.
PLAIN = b"time,node,event,to,message"
MANY_EVENTS = {
    4: (PLAIN, 1_000_001, b""),
    6: (PLAIN + b",to", 1_000_001, b""),
    8: (PLAIN, 1_000_000, b"1000000,a\n"),
    9: (PLAIN, 999_999, b"999999,a\n1000000,a,receive,,\n"),
    11: (PLAIN, 999_999, b"999999,a,send,b,m\n"),
}


def random_case(chance, number, scale=1):
    """The words after the log, its bytes, and whether there is a log at all."""
    log = random_log(chance, scale)
    if number == 2:
        too_large(chance, log)
    elif number in MANY_EVENTS:
        columns, count, last = MANY_EVENTS[number]
        rows = b"".join(b"%d,a,receive,,\n" % it for it in range(count))
        log.options, log.text = {}, b"%b\n%b%b" % (columns, rows, last)
    elif number % 5 > 1:
        aim(chance, log)
    return words_of(chance, log), text_of(chance, log), not log.is_absent
