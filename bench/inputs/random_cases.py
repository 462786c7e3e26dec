"""Random texts for `compare`: traces of both versions, texts that are near to one, runs, and certificates."""

GREATEST = 2**64 - 1
HEADER = "gst,delta,phi,sent,missed,proc,from,to"


def text_of(lines):
    return "".join(f"{line}\n" for line in lines).encode()


# Traces


def random_size(chance, limit):
    return chance.choice([it for it in [2, 2, 2, 3, 3, 3, 4, 4, 5, 16, 17, 64] if it <= limit])


def head(chance, version, size):
    values = (str(chance.choice([0, 5, 7, GREATEST])) for _ in range(size))
    return [f"dls-trace,{version},{size},{chance.randint(0, (size - 1) // 2)}", ",".join(["init", *values])]


def random_trace(chance, limit, scale=1):
    """Returns the lines of a trace of version 1 and how many processors it is of. The scale makes it longer."""
    size = random_size(chance, limit)
    lines = head(chance, 1, size)
    waiting = {processor: [] for processor in range(1, size + 1)}
    weights = [chance.choice([1, 1, 2, 6]) for _ in waiting]
    sends, takes = chance.choice([0.3, 0.5, 0.7]), chance.choice([0.2, 0.5, 0.9])
    length = scale * chance.choice([0, 1, 2, 3, *range(4, 15), *range(4, 15), 30])
    for no in range(1, length + 1):
        processor = chance.choices([*waiting], weights)[0]
        lines.append(f"{no},{processor},{random_act(chance, no, processor, waiting, weights, sends, takes)}")
    return [*lines, f"end,{length}"], size


def random_ticks(chance, limit, scale=1):
    """Returns the lines of a trace of version 2 and how many processors it is of: ticks of many steps, and idle ones."""
    size = random_size(chance, limit)
    lines = head(chance, 2, size)
    waiting = {processor: [] for processor in range(1, size + 1)}
    weights = [chance.choice([1, 1, 2, 6]) for _ in waiting]
    sends, takes = chance.choice([0.3, 0.5, 0.7]), chance.choice([0.2, 0.5, 0.9])
    idle, busy = chance.choice([0, 0.1, 0.4, 0.9]), chance.choice([0.1, 0.3, 0.6, 1])
    steps_limit = scale * chance.choice([0, 1, 2, *range(3, 15), *range(3, 15), 40])
    no, last = 0, scale * chance.choice([0, 1, 2, 3, *range(4, 15), *range(4, 15), 40, 150])
    for tick in range(1, last + 1):
        if chance.random() < idle:
            continue
        # (what is sent in a tick waits only after it)
        later = {processor: [] for processor in waiting}
        for processor, weight in zip(waiting, weights):
            if no < steps_limit and chance.random() < busy * weight / 6 ** (size > 5):
                no += 1
                lines.append(f"{no},{tick},{processor},{random_act(chance, no, processor, waiting, weights, sends, takes, later)}")
        for processor, ids in later.items():
            waiting[processor] += ids
    return [*lines, f"end,{last}"], size


def random_act(chance, no, processor, waiting, weights, sends, takes, later=None):
    if chance.random() < sends:
        to = chance.choices([*waiting], weights)[0]
        (waiting if later is None else later)[to].append(no)
        return f"S,{to}"
    taken = [it for it in waiting[processor] if chance.random() < takes]
    waiting[processor] = [it for it in waiting[processor] if it not in taken]
    return f"{chance.choice('RE')},{' '.join(map(str, taken))}"


def random_set(chance, size):
    members = [it for it in range(1, size + 1) if chance.random() < 0.7]
    if size > 5 and chance.random() < 0.7:
        # (of many processors only a few step in a short trace)
        members = chance.sample(members, min(len(members), 3))
    if size < 64 and chance.random() < 0.02:
        members.append(chance.randint(size + 1, 64))
    chance.shuffle(members)
    return ",".join(map(str, members)) or "none"


# Texts that are near to one


def broken(chance, lines):
    """Returns the bytes of a text that is near these lines."""
    text = bytearray(text_of(lines))
    for _ in range(chance.choice([1, 1, 1, 2, 3])):
        at = chance.randrange(len(text) + 1)
        kind = chance.randrange(8)
        piece = bytes([chance.choice(b"0123456789,,\n\r\"\" SREend\xff+-")])
        if kind == 0:
            text[at:at] = piece
        elif kind == 1:
            text[at : at + 1] = b""
        elif kind == 2:
            text[at : at + 1] = piece
        elif kind == 3:
            # a line twice, away, or in another place
            rows = text.split(b"\n")
            row = rows[chance.randrange(len(rows))]
            if chance.random() < 0.5:
                rows.remove(row)
            if chance.random() < 0.7:
                rows.insert(chance.randrange(len(rows) + 1), row)
            text = bytearray(b"\n".join(rows))
        elif kind == 4:
            text = text.replace(b"\n", chance.choice([b"\r\n", b"\r", b"\n\n", b"\n\r"]))
        elif kind == 5:
            text = text[:at]
        elif kind == 6:
            # a field in quotes
            rows = [row.split(b",") for row in text.split(b"\n")]
            row = chance.choice(rows)
            place = chance.randrange(len(row))
            row[place] = b'"' + row[place] + b'"'
            text = bytearray(b"\n".join(map(b",".join, rows)))
        else:
            # a number of another size
            rows = [row.split(b",") for row in text.split(b"\n")]
            row = chance.choice(rows)
            row[chance.randrange(len(row))] = chance.choice([b"0", b"1", b"2", b"3", b"17", b"65", b"01", b"18446744073709551615", b"18446744073709551616", b"1 2", b"2 1", b"1 1"])
            text = bytearray(b"\n".join(map(b",".join, rows)))
    if chance.random() < 0.1:
        text[:0] = b"\xef\xbb\xbf"
    return bytes(text)


def aimed(chance, lines, size):
    """Returns the lines of a trace with one record changed, such that some refusal is near."""
    rows = [line.split(",") for line in lines]
    receives = [place for place, row in enumerate(rows) if place > 2 and row[-2] in ("R", "E")]
    place = chance.choice([0, 1, len(rows) - 1, *[chance.randrange(2, len(rows)) for _ in range(9)]])
    row = rows[place]
    if receives and chance.random() < 0.4:
        aimed_ids(chance, rows, chance.choice(receives))
    elif chance.random() < 0.05:
        # a field too many, or too few
        row[:] = [*row, "1"] if chance.random() < 0.5 else row[:-1] or ["x"]
    elif place == 0:
        row[chance.choice([0, 1, 1, 2, 3])] = chance.choice(["1", "2", "3", "0", "01", "x", "", "16", "17", "64", "65", str(GREATEST), str(size // 2), str((size + 1) // 2)])
    elif place == 1:
        row[chance.randrange(len(row))] = chance.choice(["x", "", "01", str(GREATEST + 1), "init"])
    elif row[0] == "end":
        ticks = [int(it[1]) for it in rows[2:-1]]
        least = ticks[-1] if ticks else 0
        row[1] = chance.choice(["x", "", f"0{row[1]}", str(least), str(max(0, least - 1)), "0", "1000001", str(GREATEST), str(GREATEST + 1), str(int(row[1]) + 1)])
        if chance.random() < 0.2:
            rows.append(chance.choice([row, ["end"], ["x"]]))
    else:
        for _ in range(chance.choice([1, 1, 2])):
            aimed_step(chance, rows, place, size)
    return [",".join(it) for it in rows]


def aimed_step(chance, rows, place, size):
    """Changes one field of the record of a step."""
    row, before = rows[place], rows[place - 1] if place > 2 else None
    field = chance.choice([0, *range(1, len(row)), len(row) - 1])
    if field == 0:
        row[0] = chance.choice(["0", "x", "", f"0{row[0]}", str(place), str(place - 2), "end"])
    elif field == len(row) - 2:
        row[-2] = chance.choice(["S", "R", "E", "X", "", "s", "SR"])
    elif field == len(row) - 3:
        row[-3] = chance.choice(["0", "1", str(size), str(size + 1), "x", "", str(GREATEST), *([before[-3]] if before else [])])
    elif field == 1 and len(row) == 5:
        near = [int(before[1]) + it for it in (-1, 0, 1)] if before else []
        row[1] = chance.choice(["0", "x", "", "01", "1000001", str(GREATEST), str(GREATEST + 1), *[str(max(it, 0)) for it in near] * 3])
    elif row[-2] == "S":
        row[-1] = chance.choice(["0", "1", str(size), str(size + 1), "x", "", "1 1", str(GREATEST)])
    else:
        aimed_ids(chance, rows, place)


def aimed_ids(chance, rows, place):
    """Changes the ids of a Receive: most are those of messages to its processor, from this tick or taken before too."""
    row = rows[place]
    sends = [it for it in rows[2:place] if it[-2] == "S"]
    to_it = [it[0] for it in sends if it[-1] == row[-3]]
    same_tick = [it[0] for it in sends if it[1] == row[1]] if len(row) == 5 else []
    ids = [it for it in row[-1].split(" ") if it.isdigit()]
    for _ in range(chance.choice([1, 1, 2])):
        ids.append(chance.choice([*to_it * 3, *same_tick * 3, *[it[0] for it in sends], str(chance.randint(0, len(rows))), str(GREATEST)]))
    if chance.random() < 0.9:
        ids = sorted({*ids}, key=int)
    row[-1] = " ".join(ids) if chance.random() < 0.95 else chance.choice(["x", " ", "1  2", "1,2", "1 "])


def another(chance, lines, size):
    """Returns the lines of a run with one step changed."""
    at = chance.randrange(2, len(lines) - 1)
    number, processor, operation, argument = lines[at].split(",")
    kind = chance.randrange(3)
    if kind == 0:
        processor = chance.randint(1, size)
    elif operation == "S":
        argument = chance.randint(1, size)
    elif kind == 1 and argument:
        argument = argument.partition(" ")[2]
    else:
        operation = "R" if operation == "E" else "E"
    return [*lines[:at], f"{number},{processor},{operation},{argument}", *lines[at + 1 :]]


# Certificates


def changed_rows(chance, lines, rows):
    """Returns the rows of a certificate that are near these ones, which are lists of eight fields."""
    rows = [[*row] for row in rows]
    if chance.random() < 0.15:
        return rows
    for _ in range(chance.choice([1, 1, 1, 2, 3])):
        if not rows:
            rows.append(["1", "1", "1", "", "", "", "", ""])
        chance.choice([changed_field, changed_field, changed_witness, changed_list, lowered, lowered, lowered, weakened, aimed_row, hostile_row])(chance, lines, rows)
    return rows


def changed_field(chance, lines, rows):
    row, field = chance.choice(rows), chance.randrange(8)
    value = int(row[field] or 0)
    others = [it[field] for it in rows]
    row[field] = chance.choice(["0", "1", "2", str(value + 1), str(value + 1), str(max(value - 1, 0)), str(max(value - 1, 0)), str(GREATEST), *others[:2], *others[-2:], str(len(lines))])
    row[:] = whole(row)


def whole(row):
    """Returns a row whose witnesses have no empty field, or only those."""
    row = [*row]
    for part in (slice(3, 5), slice(5, 8)):
        if any(row[part]):
            row[part] = [it or "1" for it in row[part]]
    return row


def changed_witness(chance, lines, rows):
    row, part = chance.choice(rows), chance.choice([slice(3, 5), slice(5, 8)])
    row[part] = chance.choice([[""] * len(row[part]), chance.choice(rows)[part], [str(chance.randint(0, len(lines))) for _ in row[part]]])


def changed_list(chance, lines, rows):
    """A row twice, away, or in another place."""
    row = chance.choice(rows)
    kind = chance.randrange(4)
    if kind == 0:
        rows.remove(row)
    elif kind == 1:
        rows.insert(chance.randrange(len(rows) + 1), [*row])
    elif kind == 2:
        other = chance.choice(rows)
        row[0], other[0] = other[0], row[0]
    else:
        # the row goes on as two, of which the second has one bound of the next
        at = rows.index(row)
        new, after = [*row], rows[min(at + 1, len(rows) - 1)]
        new[0] = str(int(row[0]) + 1)
        part = chance.choice([slice(0, 0), slice(1, 2), slice(2, 3)])
        new[part] = after[part]
        rows.insert(at + 1, new)


def lowered(chance, lines, rows):
    """Rows whose bounds don't hold, though their witnesses are true: some rows have a bound of a later one."""
    field, part = chance.choice([(1, slice(3, 5)), (1, slice(3, 5)), (2, slice(5, 8))])
    at = chance.choice([chance.randrange(len(rows)), len(rows) - 1])
    first = chance.choice([0, chance.randint(0, at)])
    for row in rows[first:at]:
        row[field], row[part] = rows[at][field], rows[at][part]
    if chance.random() < 0.8:
        rows[:] = [row for before, row in zip([None, *rows], rows) if before is None or row[1:3] != before[1:3]]


def weakened(chance, lines, rows):
    """Rows whose bounds hold and fall, though smaller ones hold as well: some rows have a bound of an earlier one."""
    field, part = chance.choice([(1, slice(3, 5)), (2, slice(5, 8))])
    at = chance.randrange(len(rows))
    for row in rows[at + 1 : chance.randint(at + 1, len(rows))]:
        row[field], row[part] = rows[at][field], rows[at][part]
    rows[:] = [row for before, row in zip([None, *rows], rows) if before is None or row[1:3] != before[1:3]]


def aimed_row(chance, lines, rows):
    """A row with any message and Receive as its miss, also one that finds it delivered or is of another processor; or
    with any interval. Most are such that only this is wrong with the row."""
    at = chance.choice([0, chance.randrange(len(rows))])
    row, last = rows[at], int(lines[-1].split(",")[1])
    end = int(rows[at + 1][0]) - 1 if at + 1 < len(rows) else last
    fits = lambda field, bound: (at == 0 or bound <= int(rows[at - 1][field])) and (at + 1 == len(rows) or bound >= int(rows[at + 1][field]))
    if chance.random() < 0.6:
        steps = [it.split(",") for it in lines[2:-1]]
        tick = {it[0]: int(it[1] if len(it) == 5 else it[0]) for it in steps}
        is_strange = chance.random() < 0.3
        pairs = [(send, it) for send in steps if send[-2] == "S" for it in steps if it[-2] != "S" and (is_strange or it[-3] == send[-1]) and tick[it[0]] > tick[send[0]]]
        bound = lambda send, receive: tick[receive[0]] - tick[send[0]] + 1
        good = [(send, it) for send, it in pairs if tick[send[0]] >= end and fits(1, bound(send, it))]
        if pairs:
            send, receive = chance.choice(good or pairs)
            row[1], row[3:5] = str(bound(send, receive)), [send[0], receive[0]]
    else:
        pairs = [(start, to) for start in range(max(1, last - 30), last + 1) for to in range(start, min(start + 30, last + 2))]
        good = [(start, to) for start, to in pairs if start >= end and fits(2, to - start + 2)]
        start, to = chance.choice(good or pairs or [(0, 1)])
        row[2], row[5:] = str(to - start + chance.choice([2, 2, 2, 1])), [str(chance.randint(0, 5)), str(start), str(to)]


def hostile_row(chance, lines, rows):
    """A row with numbers at both ends."""
    row = chance.choice(rows)
    for field in chance.sample(range(8), chance.randint(1, 4)):
        row[field] = str(chance.choice([0, 1, 2, 63, 64, 65, 2**32, 2**63, GREATEST - 1, GREATEST]))
    row[:] = whole(row)
