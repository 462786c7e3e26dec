"""Texts that are meant to be slow or greedy to read, for `hostile`: families of traces by how many steps they have, of
certificates by how many rows, and of bytes that are hardly a text by how many of them.

Each family is a function that writes the text of a size to a file that is open for bytes. The traces are of the
processors 1 and 2, but for `of_all_processors`.
"""
import random

HEADER = b"gst,delta,phi,sent,missed,proc,from,to\n"
OPENING = b"dls-trace,1,2,0\ninit,5,7\n"


# Traces


def write_trace(file, acts, last=None, version=1, processors=2):
    """Writes a trace whose steps are given by what follows their numbers."""
    file.write(f"dls-trace,{version},{processors},{(processors - 1) // 2}\ninit{',7' * processors}\n".encode())
    no = 0
    for no, act in enumerate(acts, 1):
        file.write(f"{no},{act}\n".encode())
    file.write(f"end,{no if last is None else last}\n".encode())


def ids_of(numbers):
    return " ".join(map(str, numbers))


def sends(number):
    return ["1,S,2"] * number


def one_receive(file, steps):
    """One Receive takes all messages at the end."""
    write_trace(file, [*sends(steps - 1), f"2,R,{ids_of(range(1, steps))}"])


def never_delivered(file, steps):
    write_trace(file, [*sends(steps // 2), *["2,R,"] * (steps // 2)])


def alternating(file, steps):
    write_trace(file, ["1,S,2", "2,R,"] * (steps // 2))


def late(file, steps):
    """Half of the steps are Sends, and what they sent is taken in the last step."""
    write_trace(file, [*sends(steps // 2), *["2,R,"] * (steps // 2 - 1), f"2,R,{ids_of(range(1, steps // 2 + 1))}"])


def alternating_and_late(file, steps):
    half = steps // 2
    write_trace(file, [*["1,S,2", "2,R,"] * (half - 1), "1,S,2", f"2,R,{ids_of(range(1, steps, 2))}"])


def newest_first(file, steps):
    write_trace(file, [*sends(steps // 2), *(f"2,R,{no}" for no in range(steps // 2, 0, -1))])


def misses_between(file, steps):
    """The messages are taken one by one, the newest first, and before each comes a Receive that takes none."""
    third = steps // 3
    write_trace(file, [*sends(third), *(act for no in range(third, 0, -1) for act in ("2,R,", f"2,R,{no}"))])


def idle_ticks(file, steps):
    """Three steps, in so many ticks."""
    write_trace(file, ["1,1,S,2", f"{steps - 1},2,R,", f"{steps},2,R,1"], last=steps, version=2)


def one_steps(file, steps):
    """The first processor alone steps: a row in each tick."""
    write_trace(file, ["1,R,"] * steps)


def of_all_processors(file, steps):
    """64 processors send and receive by chance, and take some of what waits."""
    chance, waiting, acts = random.Random(2), [[] for _ in range(65)], []
    for no in range(1, steps + 1):
        processor = chance.randint(1, 64)
        if chance.random() < 0.6:
            to = chance.randint(1, 64)
            waiting[to].append(no)
            acts.append(f"{processor},S,{to}")
        else:
            taken = [waiting[processor].pop() for _ in range(min(chance.randrange(4), len(waiting[processor])))]
            acts.append(f"{processor},R,{ids_of(reversed(taken))}")
    write_trace(file, acts, processors=64)


TRACES = [one_receive, never_delivered, alternating, late, alternating_and_late, newest_first, misses_between, idle_ticks, one_steps, of_all_processors]


# Certificates, for the trace of `one_steps`


def true_rows(file, rows):
    """The report of a trace of so many ticks, in which processor 2 makes no step."""
    file.write(HEADER)
    file.writelines(b"%d,1,%d,,,2,%d,%d\n" % (gst, rows - gst + 2, gst, rows) for gst in range(1, rows + 1))


def far_gaps(file, ticks):
    """Rows whose gaps are true, and alternately near the beginning and the end of a trace of so many ticks: they are
    refuted only when all have been scanned."""
    file.write(HEADER)
    middle = ticks // 2
    for gst in range(1, middle + 1):
        phi = middle - gst + 2
        start = gst if gst % 2 and gst < middle else ticks - phi + 2
        file.write(b"%d,1,%d,,,2,%d,%d\n" % (gst, phi, start, start + phi - 2))


def false_rows(file, rows):
    """Rows that don't rise."""
    file.write(HEADER + b"1,2,3,1,2,1,2,3\n" * rows)


CERTIFICATES = [true_rows, far_gaps, false_rows]


# Bytes


def filled(opening, piece, closing=b""):
    """Returns the family of texts that begin in one way, end in one way, and have pieces between, up to so many bytes."""

    def write(file, size):
        pieces = (size - len(opening) - len(closing)) // len(piece)
        file.write(opening)
        file.write(piece * pieces)
        file.write(closing)

    return write


def rising_ids(file, size):
    """A Receive whose ids rise and fill the text."""
    file.write(OPENING + b"1,2,R,1")
    left = size - 60
    no = 2
    while left > 10:
        left -= file.write(b" %d" % no)
        no += 1
    file.write(b"\nend,1\n")


BYTES = {
    "commas": filled(b"", b","),
    "quotes": filled(b"", b'"'),
    "zero bytes": filled(b"", b"\0"),
    "line feeds": filled(b"", b"\n"),
    "carriage returns": filled(b"", b"\r"),
    "one line": filled(b"dls-trace,1,2,0", b"0"),
    "init and commas": filled(b"dls-trace,1,64,31\ninit", b",", b"\nend,0\n"),
    "init and values": filled(b"dls-trace,1,64,31\ninit", b",7", b"\nend,0\n"),
    "a step and commas": filled(OPENING + b"1,1,S,2\n", b","),
    "a step and quotes": filled(OPENING + b"1,1,S,2\n", b'"'),
    "a step and empty quotes": filled(OPENING + b"1,1,S,2\n", b'"",'),
    "a step and line feeds": filled(OPENING + b"1,1,S,2\n", b"\n", b"end,1\n"),
    "a long number": filled(OPENING + b"1,", b"9", b",S,2\nend,1\n"),
    "an id again and again": filled(OPENING + b"1,2,R,", b"1 ", b"1\nend,1\n"),
    "ids and spaces": filled(OPENING + b"1,2,R,", b" ", b"\nend,1\n"),
    "rising ids": rising_ids,
    "commas after the end": filled(OPENING + b"end,0\n", b","),
}

# Of certificates, besides those.
CERTIFICATE_BYTES = {
    "rows": filled(HEADER, b"1,2,3,1,2,1,2,3\n"),
    "rows without witnesses": filled(HEADER, b"1,1,1,,,,,\n"),
    "a header and commas": filled(HEADER, b","),
    "a header and quotes": filled(HEADER, b'"'),
    "rows and commas": filled(HEADER + b"1,2,3,1,2,1,2,3\n", b","),
}
