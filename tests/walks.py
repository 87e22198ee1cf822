"""The cases of the walk over one line of a log, document 02's ticket 2: every place of a few logs, the limits of a line, drawn lines."""
from bench_cases import BENCH
from frames import Draw, case, word
from listing import DIGITS, Refused, encode, own, walk
from read_write import LOGS

DRAWN = 400
OTHERS = b"\n\r .:/@G`ag\0\x7f\xff"  # what is no digit, the neighbours of digits among it


def walked(data, at):
    """The case of the line at a place, and what is printed for it."""
    try:
        found, total, looks = walk(data, at)
        printed = f"L {len(found)} {total} {looks} {found.hex()} kept\n"
    except Refused:
        printed = "L malformed\n"
    return case("L", data, cut=word(at) + word(own(data, at)), size=100), printed.encode()


def around(line):
    """A line between two others, so that a look past its ends would see digits, and where it starts."""
    return encode([0x10, 1, 0, 0]) + line + encode([0x20, 0, 0, 5, 1]), len(encode([0x10, 1, 0, 0]))


def limits():
    """Lines of every number of digits up to 8 and about 200, ended by 0A, by something else and by the log's end."""
    for k in [*range(9), *range(196, 205)]:
        digits = (b"0F" * 102)[:k]
        yield around(digits + b"\n")
        yield around(digits + b"G\n")
        yield around(digits + b"\r\n")
        yield digits or b"0", 0
        yield b"0F\n" + (digits or b"0"), 3


def drawn(d):
    """A line of digits, three in four of them of an even number, and one in two with something else at some place."""
    k = d.pick([d.below(12), d.below(202), 198 + d.below(8)])
    k -= k % 2 if d.below(4) else 0
    line = bytearray(d.pick(DIGITS) for _ in range(k)) + b"\n"
    if d.below(2):
        line[d.below(len(line))] = d.pick(OTHERS)
    return around(bytes(line))


def cases(seed):
    d = Draw(seed)
    places = [(BENCH, at) for at in range(len(BENCH))]
    places += [(data, at) for data in LOGS if 0 < len(data) < 300 for at in sorted({0, 1, 2, len(data) // 2, len(data) - 1}) if at < len(data)]
    places += [(b"0" * 8192, at) for at in (0, 7990, 7991, 8191)]
    places += [*limits(), *(drawn(d) for _ in range(DRAWN))]
    return [walked(data, at) for data, at in places]
