"""Writes the archives that the programs archivecases, pack and unpack are run on, and what they must answer.

The answers come from this file alone: an implementation of the format's rules written without looking at the Rattle code, with `check`
from cases.py. Run it from the repository's root. With the word `large` it writes no file, but to standard output the text of one plan of
4,000 rows.
"""
import ast
import random
import struct
import sys
from functools import cmp_to_key
from pathlib import Path
from types import SimpleNamespace


def definitions(path):
    """What a script defines. Its bare calls, as that of main() which writes the script's own files, are left out."""
    tree = ast.parse(path.read_text())
    tree.body = [s for s in tree.body if not isinstance(s, ast.Expr)]
    names = {"__name__": path.stem}
    exec(compile(tree, str(path), "exec"), names)
    return SimpleNamespace(**names)


cases = definitions(Path(__file__).with_name("cases.py"))

# ---------------------------------------------------------------------------------------------------------------------------------
# Writing: a date is (year, month, day), a plan is (title as bytes, list of rows), a row is (corner, far point).


def field(tag, content=b"", length=None):
    """A field; `length` is what it claims to hold, if that is not the truth."""
    return struct.pack(">BH", tag, len(content) if length is None else length) + content


def date_field(year, month, day):
    return field(0x01, struct.pack(">HBB", year, month, day))


def title_field(title):
    return field(0x21, title)


def rows_field(rows):
    return field(0x22, b"".join(struct.pack(">iiii", *corner, *far) for corner, far in rows))


def plan_field(title, rows):
    return field(0x20, title_field(title) + rows_field(rows))


def last_field(count):
    return field(0x7F, struct.pack(">H", count))


def encode(date, plans):
    return date_field(*date) + b"".join(plan_field(*p) for p in plans) + last_field(len(plans))


def to_text(date, plans):
    lines = [b"date %04d-%02d-%02d" % date]
    for title, rows in plans:
        lines.append(b"plan " + title)
        lines += [b"%d %d %d %d" % (*corner, *far) for corner, far in rows]
    return b"".join(line + b"\n" for line in lines)


# ---------------------------------------------------------------------------------------------------------------------------------
# Reading.


class Refusal(Exception):
    def __init__(self, number, place, plan, detail=""):
        super().__init__(refused(number, place, plan, detail))


def refused(number, place, plan=0, detail=""):
    return f"refused {number} place {place} plan {plan}" + (" " + detail if detail else "")


def due(data, place, end, tags, plan):
    """Read the field due at a place, where no byte from `end` on exists: its tag, and where its content begins and ends."""
    if place >= end:
        raise Refusal(12, place, plan)
    tag = data[place]
    if tag not in tags:
        raise Refusal(13, place, plan)
    start = place + 3
    if start > end:
        raise Refusal(12, place, plan)
    stop = start + number(data[place + 1:start])
    if stop > end:
        raise Refusal(12, place, plan)
    return tag, start, stop


def number(content):
    return int.from_bytes(content, "big")


def coordinate(content):
    return int.from_bytes(content, "big", signed=True)


def is_date(year, month, day):
    if not 1950 <= year <= 2199 or not 1 <= month <= 12:
        return False
    february = 29 if year % 4 == 0 else 28
    return 1 <= day <= [31, february, 31, 30, 31, 30, 31, 31, 30, 31, 30, 31][month - 1]


def read_date(data):
    _, start, stop = due(data, 0, len(data), [0x01], 0)
    if stop - start != 4:
        raise Refusal(13, 0, 0)
    date = (number(data[start:start + 2]), data[start + 2], data[start + 3])
    if not is_date(*date):
        raise Refusal(17, 0, 0)
    return date, stop


def read_plan(data, tag_place, start, stop, plan):
    """Read a plan field's content, which reaches from start to stop, and check its rows."""
    _, title_start, title_stop = due(data, start, stop, [0x21], plan)
    title = data[title_start:title_stop]
    if len(title) > 40 or any(not 0x20 <= byte <= 0x7E for byte in title):
        raise Refusal(15, start, plan)
    _, rows_start, rows_stop = due(data, title_stop, stop, [0x22], plan)
    size = rows_stop - rows_start
    if size > 64_000 or size % 16 != 0:
        raise Refusal(13, title_stop, plan)
    if rows_stop != stop:
        raise Refusal(13, rows_stop, plan)
    rows = []
    for p in range(rows_start, rows_stop, 16):
        x, y, far_x, far_y = (coordinate(data[q:q + 4]) for q in range(p, p + 16, 4))
        rows.append(((x, y), (far_x, far_y)))
    word, *rest = cases.check(rows).split(" ", 2)  # `closed N`, `refused N row R` or `refused 9 at X Y`
    if word == "refused":
        raise Refusal(rest[0], tag_place, plan, rest[1])
    return title, rows


def decode(data):
    """The date and the plans of an archive, or a Refusal."""
    date, place = read_date(data)
    plans = []
    while True:
        tag, start, stop = due(data, place, len(data), [0x20, 0x7F], 0)
        if tag == 0x7F:
            break
        plans.append(read_plan(data, place, start, stop, len(plans) + 1))
        place = stop
    if stop - start != 2 or number(data[start:stop]) != len(plans):
        raise Refusal(13, place, 0)
    if stop != len(data):
        raise Refusal(13, stop, 0)
    return date, plans


def answer(data):
    try:
        date, plans = decode(data)
    except Refusal as refusal:
        return str(refusal)
    return "accepted %04d-%02d-%02d plans %d" % (*date, len(plans))


def from_text(text):
    first, *lines = text.split(b"\n")[:-1]
    plans = []
    for line in lines:
        if line.startswith(b"plan "):
            plans.append((line[5:], []))
        else:
            x, y, far_x, far_y = map(int, line.split(b" "))
            plans[-1][1].append(((x, y), (far_x, far_y)))
    return tuple(map(int, first.removeprefix(b"date ").split(b"-"))), plans


# ---------------------------------------------------------------------------------------------------------------------------------
# Good archives.


def rows_of(lines):
    """Both rows of each line, in order; cases.rows_of, but fast enough for thousands."""
    rows = [row for a, b in lines for row in ((a, b), (b, a))]
    return sorted(rows, key=cmp_to_key(lambda g, h: -1 if cases.before(g, h) else int(g != h)))


M = cases.LIMIT
DAY = (2026, 5, 17)
TRIANGLE = rows_of(cases.TRIANGLE)
SQUARE = rows_of(cases.SQUARE)
HOLED = rows_of(cases.HOLED)
WESTERN = rows_of(cases.ring((-300, -7), (-1, 260), (-70000, 5)))

# The archive that is cut and spoilt at every place.
TWO = (DAY, [(b"A", TRIANGLE), (b"Cell 2", WESTERN)])
# The plans that pack and unpack are shown.
SAMPLE = (DAY, [(b"Cell 7, northern triangle", TRIANGLE), (b"", []), (b"Square with a hole at its corner", HOLED)])

PLAN_LISTS = [
    [],
    [(b"Triangle", TRIANGLE)],
    [(b"", TRIANGLE)],
    [(b"", [])],
    [(b"no rows", [])],
    [(b"", []), (b"", []), (b"", [])],
    [(b"x" * 39, [])],
    [(b"Forty bytes, as many as a title may have", SQUARE)],
    [(b" " * 40, TRIANGLE)],
    [(b"~" * 40, TRIANGLE), (b" ", SQUARE), (b"!~", [])],
    [(b'!"#$%&\'()*+,-./0123456789:;<=>?@', []), (b"[\\]^_`{|}~", WESTERN)],
    [(b'"  "', TRIANGLE)],
    [(b"the same", TRIANGLE), (b"the same", TRIANGLE)],
    [(b"plan plan", HOLED), (b"date 2026-05-17", []), (b"0 0 4 0", SQUARE), (b" 1", WESTERN)],
    [(b"", [])] * 255,
    [(b"", [])] * 256,
    [(b"", [])] * 300,
]

GOOD_DATES = [(1950, 1, 1), (1950, 12, 31), (2199, 1, 1), (2199, 12, 31), (1952, 2, 29), (2000, 2, 29), (2100, 2, 29), (2196, 2, 29)]
GOOD_DATES += [(2001, 2, 28), (2048, 8, 8), (2047, 9, 10), (1999, 12, 31), (2000, 1, 1)]
GOOD_DATES += [(2023, month, 30) for month in (4, 6, 9, 11)] + [(2023, month, 31) for month in (1, 3, 5, 7, 8, 10, 12)]

BAD_DATES = [(2001, 2, 29), (2000, 2, 30), (2000, 2, 31), (2100, 2, 30), (1950, 2, 29), (2199, 2, 29), (2198, 2, 29)]
BAD_DATES += [(2023, month, 31) for month in (4, 6, 9, 11)] + [(2023, month, 32) for month in (1, 3, 5, 7, 8, 10, 12)]
BAD_DATES += [(2026, 0, 17), (2026, 13, 17), (2026, 255, 17), (2026, 5, 0), (2026, 5, 32), (2026, 5, 255), (2026, 0, 0), (2026, 2, 0)]
BAD_DATES += [(1948, 2, 29), (1949, 12, 31), (1949, 5, 17), (2200, 1, 1), (2200, 5, 17)]
BAD_DATES += [(0, 1, 1), (26, 5, 17), (65535, 12, 31), (0x9E07, 1, 1)]


def good_archives():
    yield from ((DAY, plans) for plans in PLAN_LISTS)
    yield TWO
    yield SAMPLE
    yield from ((date, []) for date in GOOD_DATES)
    for rows in cases.CASES.values():
        if cases.check(rows).startswith("closed"):
            yield DAY, [(b"one", rows)]
            yield DAY, [(b"first", rows), (b"second", rows)]


# ---------------------------------------------------------------------------------------------------------------------------------
# Spoilt archives. Each group yields pairs of an archive and what it must answer, where that is plain by hand, or None.

DATE = date_field(*DAY)  # seven bytes, so what follows it is at place 7, and the content of a first plan at place 10
TITLE = title_field(b"Cell")  # seven bytes too
ROWS = rows_field(TRIANGLE)


def archive(*fields):
    return DATE + b"".join(fields)


def patched(data, place, new):
    return data[:place] + bytes(new) + data[place + len(new):]


def field_places(plans):
    """Where the fields of an archive with these plans begin: the date, then for each plan itself, its title and its rows, then the last."""
    places, place = [0], 7
    for title, rows in plans:
        places += [place, place + 3, place + 6 + len(title)]
        place += 9 + len(title) + 16 * len(rows)
    return places + [place]


def prefixes():
    good, places = encode(*TWO), field_places(TWO[1])
    tops = [places[0], places[1], places[4], places[7]]
    for n in range(len(good)):
        yield good[:n], refused(12, max(p for p in tops if p <= n))


def other_tags():
    good = encode(*TWO)
    for i, place in enumerate(field_places(TWO[1])):
        for tag in (0x00, 0x01, 0x02, 0x20, 0x21, 0x22, 0x23, 0x7E, 0x7F, 0x80, 0xA0, 0xFF):
            if tag != good[place]:
                between = good[place] in (0x20, 0x7F) and tag in (0x20, 0x7F)  # the other field that may stand here
                yield patched(good, place, [tag]), None if between else refused(13, place, [0, 0, 1, 1, 0, 2, 2, 0][i])


def other_lengths():
    good = encode(*TWO)
    for place in field_places(TWO[1]):
        for p in (place + 1, place + 2):
            for value in ((good[p] - 1) % 256, (good[p] + 1) % 256, 0, 255):
                if value != good[p]:
                    yield patched(good, p, [value]), None


def other_counts():
    good, place = encode(*TWO), field_places(TWO[1])[-1]
    for count in (0, 1, 3, 0x0100, 0x0102, 0x0200, 0xFF02, 0xFFFF):
        yield patched(good, place, last_field(count)), refused(13, place)
    for count in (1, 2, 0x0100, 0xFFFF):
        yield archive(last_field(count)), refused(13, 7)
    for plans, count in ((255, 0), (256, 0), (256, 1), (256, 255), (256, 257), (300, 44), (300, 0x2C01)):
        yield archive(plan_field(b"", []) * plans, last_field(count)), refused(13, 7 + 9 * plans)


def single_fields():
    """One field at a time: no byte left, a wrong tag alone, heads that are cut off, wrong lengths of content."""
    yield b"", refused(12, 0)
    for data in (b"\x05", b"\x00", b"\x20", b"\x7f", b"\x05\x00\x00", b"\x7f\x00\x02\x00\x00", plan_field(b"", []), ROWS):
        yield data, refused(13, 0)
    for data in (b"\x01", b"\x01\x00", b"\x01\x00\x04", b"\x01\x00\x05", b"\x01\xff", b"\x01\xff\xff" + DATE[3:]):
        yield data, refused(12, 0)
    yield DATE, refused(12, 7)
    for data in (b"\x05", b"\x01", b"\x21", b"\x22\x00", b"\xff", DATE, TITLE, ROWS):
        yield archive(data), refused(13, 7)
    for tag in (b"\x20", b"\x7f"):
        for rest in (b"", b"\x00", b"\x00\x02", b"\x00\x02\x00", b"\x00\x03\x00\x00", b"\xff\xff\x00\x00"):
            yield archive(tag, rest), refused(12, 7)
    for size in (0, 1, 3, 4, 512):
        yield archive(field(0x7F, bytes(size))), refused(13, 7)
    for content in (b"", DATE[3:6], DATE[3:] + b"\x00", DATE[3:] * 2, bytes(1024)):
        yield field(0x01, content) + last_field(0), refused(13, 0)
    yield plan_field(b"", []) + DATE + last_field(1), refused(13, 0)
    yield archive(last_field(0), plan_field(b"", [])), refused(13, 12)
    yield archive(plan_field(b"", [])), refused(12, 16)


def plan_contents():
    """One plan before the last field, its content wrong: (content, number, place)."""
    inside = [
        (b"", 12, 10), (b"\x05", 13, 10), (b"\x21", 12, 10), (b"\x21\x00", 12, 10), (b"\x21\x00\x01", 12, 10), (b"\x21\xff\xff", 12, 10),
        (b"\x22", 13, 10), (b"\x20", 13, 10), (b"\x7f\x00\x02\x00\x01", 13, 10), (ROWS, 13, 10), (ROWS + TITLE, 13, 10),
        (TITLE, 12, 17), (TITLE + b"\x05", 13, 17), (TITLE + b"\x21", 13, 17), (TITLE + TITLE + ROWS, 13, 17), (TITLE + b"\x7f", 13, 17),
        (TITLE + b"\x22", 12, 17), (TITLE + b"\x22\x00", 12, 17), (TITLE + b"\x22\x00\x10", 12, 17),
        (TITLE + b"\x22\x00\x10" + bytes(15), 12, 17),
        (title_field(b""), 12, 13), (title_field(b"") + b"\x22\x00", 12, 13), (plan_field(b"", []), 13, 10),
    ]
    for size in (1, 8, 15, 17, 31, 33, 95, 97, 255):  # no whole number of rows
        inside.append((TITLE + field(0x22, bytes(size)), 13, 17))
        inside.append((TITLE + field(0x22, ROWS[3:] + bytes(size)), 13, 17))
    for rest in (b"\x00", b"\x22", b"\x7f", b"\xff" * 16, TITLE, ROWS, last_field(1), plan_field(b"", [])):
        inside.append((TITLE + ROWS + rest, 13, 17 + len(ROWS)))
        inside.append((TITLE + rows_field([]) + rest, 13, 20))
    for content, n, place in inside:
        yield archive(field(0x20, content), last_field(1)), refused(n, place, 1)
        yield archive(plan_field(b"", []), field(0x20, content), last_field(2)), refused(n, place + 9, 2)


def long_rows():
    """The two long cases: as many rows as may be, and one more."""
    yield archive(field(0x20, TITLE + field(0x22, bytes(64_000))), last_field(1)), refused(2, 7, 1, "row 0")
    yield archive(field(0x20, TITLE + field(0x22, bytes(64_016))), last_field(1)), refused(13, 17, 1)


def left_over():
    for good in (archive(last_field(0)), encode(*TWO)):
        for rest in (b"\x00", b"\x0a", b"\x7f", b"\xff", bytes(5), last_field(0), last_field(2), plan_field(b"", []), DATE, good):
            yield good + rest, refused(13, len(good))


def overruns():
    """Lengths that pass the end of what the field is in, or stop short of it, with all bytes in their places."""
    good = encode(*TWO)
    _, plan_1, title_1, rows_1, plan_2, title_2, rows_2, last = field_places(TWO[1])

    def with_length(place, length):
        return patched(good, place + 1, struct.pack(">H", length))

    size = last - plan_2 - 3
    for length in range(size + 8):  # each length of the second plan, up to two past the archive's end
        end = plan_2 + 3 + length
        if end < last:
            yield with_length(plan_2, length), refused(12, title_2 if end < rows_2 else rows_2, 2)
        elif last < end <= len(good):  # it swallows the last field, or some of it
            yield with_length(plan_2, length), refused(13, last, 2)
        elif end > len(good):
            yield with_length(plan_2, length), refused(12, plan_2)
    for length in (plan_2 - plan_1 - 3 + 1, last - plan_1 - 3, len(good) - plan_1 - 3):  # the first plan swallows the second
        yield with_length(plan_1, length), refused(13, plan_2, 1)
    for length in (0, 1, 2, 3, 4, 5, 6, 7, 22, 23, 102):  # the first plan stops early
        yield with_length(plan_1, length), refused(12, title_1 if length < 4 else rows_1, 1)
    for length in (len(good) - plan_1 - 2, 0x0200, 0xFFFF):
        yield with_length(plan_1, length), refused(12, plan_1)
    for place, end, plan in ((title_1, plan_2, 1), (rows_1, plan_2, 1), (title_2, last, 2), (rows_2, last, 2)):
        room = end - place - 3
        # one past the plan's end; to the end of what follows; one byte short of the archive's end, to it, and past it
        for length in (room + 1, room + 5, room + 16, len(good) - place - 4, len(good) - place - 3, len(good) - place - 2, 0xFFFF):
            yield with_length(place, length), refused(12, place, plan)
    for place, plan in ((title_1, 1), (title_2, 2)):
        # the title takes the head of the rows too, or the whole plan: no such title
        for length in (len(TWO[1][plan - 1][0]) + 2, 40, 41, 42, 64, (plan_2 if plan == 1 else last) - place - 3):
            yield with_length(place, length), refused(15, place, plan)
    for length in range(6):  # the second title stops early, and what follows is no field of rows
        yield with_length(title_2, length), refused(13, title_2 + 3 + length, 2)
    for place, plan in ((rows_1, 1), (rows_2, 2)):
        for length in (1, 15, 17, 90, 95):
            yield with_length(place, length), refused(13, place, plan)
        for length in (0, 16, 32, 48, 64, 80):  # whole rows, so the others are left over
            yield with_length(place, length), refused(13, place + 3 + length, plan)
    # a title that looks like fields of rows once it is cut short
    for title, length in ((b'a"  b', 1), (b'"' * 5, 0), (b'"', 0), (b'a"', 1)):
        yield archive(field(0x20, field(0x21, title, length) + ROWS), last_field(1)), refused(12, 13 + length, 1)


def titles():
    for title in (b"x" * 41, b" " * 41, b"x" * 42, b"~" * 255, b"x" * 256, b"x" * 296, bytes(40), bytes(41), b"caf\xc3\xa9"):
        yield archive(plan_field(title, TRIANGLE), last_field(1)), refused(15, 10, 1)
        yield archive(plan_field(b"", TRIANGLE), plan_field(title, []), last_field(2)), refused(15, 10 + 9 + 96, 2)
    for byte in (0x00, 0x09, 0x0A, 0x0D, 0x1F, 0x7F, 0x80, 0xA0, 0xFF):
        bad = bytes([byte])
        for title in (bad, bad + b"after", b"before" + bad, b"on " + bad + b" both", bad + b"x" * 39, b"x" * 39 + bad):
            yield archive(plan_field(title, []), last_field(1)), refused(15, 10, 1)
        yield archive(plan_field(b"", []), plan_field(b"north" + bad, TRIANGLE), last_field(2)), refused(15, 19, 2)
    for byte in (0x20, 0x21, 0x22, 0x7D, 0x7E):
        yield archive(plan_field(bytes([byte]) + b"x" * 38 + bytes([byte]), []), last_field(1)), "accepted 2026-05-17 plans 1"


def dates():
    for date in BAD_DATES:
        yield date_field(*date) + last_field(0), refused(17, 0)


def bad_rows():
    """Lists of rows that check refuses."""
    lists = [rows for rows in cases.CASES.values() if cases.check(rows).startswith("refused")]
    for value in (M + 1, -M - 1, 2**31 - 1, -(2**31)):
        for k in range(4):  # each coordinate of the third row
            flat = [z for point in TRIANGLE[2] for z in point]
            flat[k] = value
            lists.append(TRIANGLE[:2] + [(tuple(flat[:2]), tuple(flat[2:]))] + TRIANGLE[3:])
    lists.append(rows_of([((-M, -M), (M, M))]))  # unclosed at the least corner there can be
    lists.append(rows_of([((M, M), (M, M - 1))]))
    lists.append(rows_of(cases.TRIANGLE + [((4, 0), (9, -256)), ((-1, -256), (-1, 255))]))
    lists.append(TRIANGLE + TRIANGLE)
    lists.append(TRIANGLE[::-1])
    lists.append([TRIANGLE[0], *TRIANGLE])
    lists.append([*TRIANGLE, TRIANGLE[-1]])
    lists.append(rows_of(cases.SQUARE + cases.ring((2, 0), (3, -5), (1, -5))))  # touches inside
    lists.append(rows_of(cases.SQUARE + cases.move(cases.SQUARE, 2, 2)))  # crosses
    lists.append(rows_of(cases.SQUARE + cases.ring((4, 1), (8, 1), (8, 3), (4, 3))))  # overlaps
    lists.append(rows_of(cases.SQUARE + cases.ring((4, 0), (8, 0), (8, 8), (4, 8))))  # overlaps from one corner
    lists.append([((-1, -1), (-1, -1))])
    lists.append([((0, 0), (0, 0))] * 2)
    return lists


def check_refusals():
    for rows in bad_rows():
        _, n, detail = cases.check(rows).split(" ", 2)
        yield archive(plan_field(b"Cell", rows), last_field(1)), refused(n, 7, 1, detail)
        yield archive(plan_field(b"", TRIANGLE), plan_field(b"Cell", rows), last_field(2)), refused(n, 7 + 9 + 96, 2, detail)
    late = plan_field(b"", []) * 299 + plan_field(b"the three hundredth", TRIANGLE[:5])
    yield archive(late, last_field(300)), refused(8, 7 + 9 * 299, 300, "row 0")
    yield archive(plan_field(b"", []) * 256, field(0x20), last_field(257)), refused(12, 7 + 9 * 256 + 3, 257)


def two_faults():
    twinless = rows_field(TRIANGLE[:1])
    crossing = rows_field(cases.CASES["diagonals of a square"])
    unclosed = rows_field(cases.CASES["one line"])
    bad_title, long_title, uneven = title_field(b"tab\t"), title_field(b"x" * 41), field(0x22, bytes(15))
    bad_plan = field(0x20, TITLE + twinless)
    # a wrong tag, and too short: the tag
    yield b"\x05\x00", refused(13, 0)
    yield b"\x02\xff\xff\x00", refused(13, 0)
    yield archive(b"\x21\xff\xff"), refused(13, 7)
    yield archive(field(0x20, b"\x22\xff"), last_field(1)), refused(13, 10, 1)
    yield archive(field(0x20, TITLE + b"\x21\xff\xff"), last_field(1)), refused(13, 17, 1)
    # does not fit, and a wrong length or content: does not fit
    yield field(0x01, bytes(4), 5), refused(12, 0)
    yield field(0x01, bytes(3), 4), refused(12, 0)
    yield archive(field(0x7F, b"\x00", 3)), refused(12, 7)
    yield archive(field(0x20, field(0x21, b"\t" * 40, 41)), last_field(1)), refused(12, 10, 1)
    yield archive(field(0x20, TITLE + field(0x22, bytes(14), 15)), last_field(1)), refused(12, 17, 1)
    yield archive(field(0x20, TITLE + field(0x22, bytes(14), 0xFFFF)), last_field(1)), refused(12, 17, 1)
    yield archive(field(0x20, bad_title + uneven, 0x1000), last_field(9)), refused(12, 7)
    # the date: its length, then its content, then all that follows
    yield field(0x01, bytes(3)) + last_field(0), refused(13, 0)
    yield field(0x01, bytes(5)) + last_field(0), refused(13, 0)
    yield date_field(2001, 2, 29), refused(17, 0)
    yield date_field(2001, 2, 29) + b"\x05", refused(17, 0)
    yield date_field(2001, 2, 29) + bad_plan + last_field(0), refused(17, 0)
    yield date_field(1949, 13, 32) + last_field(7) + b"\x00", refused(17, 0)
    # a title, then rows: their length, what is left over, check
    yield archive(field(0x20, bad_title + twinless), last_field(1)), refused(15, 10, 1)
    yield archive(field(0x20, bad_title + uneven), last_field(1)), refused(15, 10, 1)
    yield archive(field(0x20, bad_title), last_field(1)), refused(15, 10, 1)
    yield archive(field(0x20, long_title + b"\x05"), last_field(1)), refused(15, 10, 1)
    yield archive(field(0x20, long_title + ROWS + b"\x00"), last_field(1)), refused(15, 10, 1)
    yield archive(field(0x20, TITLE + uneven + b"\x00"), last_field(1)), refused(13, 17, 1)
    yield archive(field(0x20, TITLE + twinless + b"\x00"), last_field(1)), refused(13, 17 + len(twinless), 1)
    yield archive(field(0x20, TITLE + crossing + crossing), last_field(1)), refused(13, 17 + len(crossing), 1)
    # a plan's rows before the next plan's bytes, and before the last field's
    for rows, n, detail in ((twinless, 8, "row 0"), (crossing, 4, "row 0"), (unclosed, 9, "at 0 0")):
        plan = field(0x20, TITLE + rows)
        following = (
            b"", b"\x05", b"\x20", b"\x20\xff\xff", field(0x20), field(0x20, bad_title + ROWS), field(0x20, TITLE + uneven), bad_plan,
            last_field(0), last_field(1) + b"\x00", b"\x7f", field(0x7F, b"\x01"),
        )
        for rest in following:
            yield archive(plan, rest), refused(n, 7, 1, detail)
    # a fault in the second plan before one in the third, or in the last field
    good = plan_field(b"", TRIANGLE)  # 105 bytes, so the second plan is at 112
    yield archive(good, field(0x20, bad_title + ROWS), bad_plan, last_field(3)), refused(15, 115, 2)
    yield archive(good, bad_plan, field(0x20, bad_title + ROWS), last_field(9)), refused(8, 112, 2, "row 0")
    yield archive(good, field(0x20, TITLE + uneven), last_field(9), b"\x00"), refused(13, 122, 2)
    yield archive(good, good[:-1]), refused(12, 112)
    # the last field: its length, then the count, then what is left over
    yield archive(good, last_field(2), b"\x00"), refused(13, 112)
    yield archive(good, last_field(0), good), refused(13, 112)
    yield archive(good, last_field(1), good), refused(13, 117)
    yield archive(good, last_field(1), last_field(1)), refused(13, 117)
    yield archive(field(0x7F, b"\x00"), b"\x00"), refused(13, 7)
    yield archive(field(0x7F, b"\x00\x00\x00"), b"\x00"), refused(13, 7)
    # two faults within one list of rows
    yield archive(plan_field(b"", [((1, 1), (1, 1)), ((M + 1, 0), (0, 0))]), last_field(1)), refused(2, 7, 1, "row 0")
    yield archive(plan_field(b"", [((M + 1, 1), (M + 1, 1))]), last_field(1)), refused(1, 7, 1, "row 0")
    yield archive(plan_field(b"", TRIANGLE[::-1] + [((0, 0), (0, 0))]), last_field(1)), refused(2, 7, 1, "row 6")


def random_mutations():
    """Only random() is used, as its sequence for a seed is the same in all versions of Python."""
    source = random.Random(20260517)

    def pick(n):
        return int(source.random() * n)

    plan_lists = [[(b"b", [])], TWO[1], SAMPLE[1], [(b"", []), (b"b", []), (b"cc", TRIANGLE)]]
    for i in range(80):
        plans = plan_lists[i % 4]
        data, places = encode(DAY, plans), field_places(plans)
        for _ in range(1 + pick(3)):
            # half of them in the fields' heads, which otherwise the rows would outweigh
            place = places[pick(len(places))] + pick(3) if pick(2) else pick(len(data))
            kind = pick(6)
            if kind == 0:
                data = patched(data, min(place, len(data) - 1), [pick(256)])
            elif kind == 1:
                place = min(place, len(data) - 1)
                data = patched(data, place, [data[place] ^ 1 << pick(8)])
            elif kind == 2:
                data = data[:place] + data[place + 1:]
            elif kind == 3:
                data = data[:place] + bytes([pick(256)]) + data[place:]
            elif kind == 4:  # a piece is doubled
                data = data[:place + 1 + pick(16)] + data[place:]
            else:  # a piece is lost
                data = data[:place] + data[place + 1 + pick(16):]
        yield data, None


GROUPS = [
    prefixes, other_tags, other_lengths, other_counts, single_fields, plan_contents, long_rows, left_over, overruns, titles, dates,
    check_refusals, two_faults, random_mutations,
]


def all_cases():
    """The archives, each once, with their answers."""
    table = {}
    for date, plans in good_archives():
        data = encode(date, plans)
        assert decode(data) == (date, plans)
        assert from_text(to_text(date, plans)) == (date, plans)
        table[data] = answer(data)
        assert table[data] == "accepted %04d-%02d-%02d plans %d" % (*date, len(plans))
    for group in GROUPS:
        for data, expected in group():
            table[data] = answer(data)
            assert expected in (None, table[data]), f"{group.__name__}: {data.hex()} should be {expected}, is {table[data]}"
    assert len(table) >= 300
    assert {line.split()[1] for line in table.values() if line.startswith("refused")} == set("1 2 4 7 8 9 12 13 15 17".split())
    return table


def large():
    """500 separate squares on a grid over the whole range, 25 columns of 20."""
    lines = []
    for column in range(25):
        for row in range(20):
            lines += cases.move(cases.SQUARE, column * 800_000 - M, row * 1_000_000 - M, 150_000)
    rows = rows_of(lines)
    assert len(rows) == 4000
    assert all(cases.before(g, h) for g, h in zip(rows, rows[1:]))
    return DAY, [(b"500 squares", rows)]


def main():
    if sys.argv[1:] == ["large"]:
        sys.stdout.buffer.write(to_text(*large()))
        return
    table = all_cases()
    written = {
        "archivecases/stdin": "".join(data.hex() + "\n" for data in table).encode(),
        "archivecases/stdout": "".join(line + "\n" for line in table.values()).encode(),
        "pack/stdin": to_text(*SAMPLE),
        "pack/stdout": encode(*SAMPLE),
        "unpack/stdin": encode(*SAMPLE),
        "unpack/stdout": to_text(*SAMPLE),
    }
    for name, content in written.items():
        path = Path("crates", name)
        path.parent.mkdir(exist_ok=True)
        path.write_bytes(content)


if __name__ == "__main__":
    main()
