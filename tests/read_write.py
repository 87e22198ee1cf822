"""The cases of Read and Write about document 01's limits and refusals, and what is to come of each."""
from frames import ONE, atom, case, clear, exactly, in_turn, log_of, long_question, message, padded, panel, panelled, wrong_check
from listing import LIST, OPERATIONS, Refused, encode, read, read_frames

OLD_LIST, OLD_LOG = 4096, 8192  # the longest list and log, and the least outputs, before document 02's ticket 4
HEADER = [0x10, 2, 0, 0, 0, 0]
EVENT = [0x20, 0, 0, 5, 1, 0]
QUESTION = [0x30] + atom()
OR2, OR3 = [4] + atom() * 2, [4, 4] + atom() * 3


def chain(k):
    """k events of station 0 of one."""
    return in_turn(1, k, lambda i: i % 4)


EIGHT = [0x10, 8] + [0, 7] * 8


def largest(events, messages=0, second=atom):
    """The longest accepted log of so many events and messages: eight stations, 16 questions of 32 tokens, 12 of them 01, or every second
    of these another one."""
    question = [0x30] + [2] * 9 + [3] * 11 + (atom(7, 1, 65535) + second(7, 1, 65535)) * 6
    return [EIGHT] + in_turn(8, events, lambda i: 256) + [message(6, 1, 7, 1)] * messages + [question] * 16


def largest_with_panels(events):
    """The longest accepted log of so many events, messages and panels among them."""
    return panelled(largest(events, OPERATIONS.messages, panel), lambda s: 256 * s)


def entries(fs):
    return [b for f in fs for b in [len(f)] + f]


def padded_list(l, length):
    """The frame list with further entries in order, up to a length."""
    left = length - len(l)
    while left > 93:
        l = l + entries([long_question(42)])
        left -= 43
    return exactly(length, l + entries([long_question(left - 1)]))


# The most events, of eight stations.
FULL = [EIGHT] + in_turn(8, OPERATIONS.events, lambda i: i % 4)


def long_questions(k, size):
    """k questions, whose frames have so many bytes in all."""
    return [long_question((size + i) // k) for i in range(k)]


def full_log(length, k):
    """An accepted log of so many bytes, with k questions."""
    return exactly(length, log_of(FULL + long_questions(k, (length - len(log_of(FULL)) - 3 * k) // 2)))


def full_list(length, k):
    """An accepted list of so many bytes, with k questions."""
    return exactly(length, entries(FULL + long_questions(k, length - len(entries(FULL)) - k)))


# 253 events of one station of two.
MANY = [HEADER] + [e + [0] for e in chain(253)]

# Frames that are refused at their last one, and some that are accepted.
FRAMES = {
    "bench": [HEADER, EVENT, [0x20, 1, 0, 1, 0, 1], [0x20, 1, 0, 2, 1, 2], [0x30, 3] + atom(0, 5, 5) + atom(1, 1, 1)],
    "header alone": [HEADER],
    "nothing": [],
    "unknown kind": [HEADER, [0x60, 1]],
    "second header": [HEADER, HEADER],
    "event first": [EVENT],
    "question first": [QUESTION],
    "event after a question": [HEADER, QUESTION, EVENT],
    "no stations": [[0x10, 0]],
    "nine stations": [[0x10, 9] + [0, 0] * 9],
    "eight stations": [EIGHT],
    "header of one byte": [[0x10]],
    "header too short": [HEADER[:-1]],
    "header too long": [HEADER + [0]],
    "event of one byte": [HEADER, [0x20]],
    "event too short": [HEADER, EVENT[:-1]],
    "event too long": [HEADER, EVENT + [0]],
    "station not there": [HEADER, [0x20, 2, 0, 5, 1, 0]],
    "own entry 0": [HEADER, [0x20, 0, 0, 5, 0, 0]],
    "own entry 2": [HEADER, [0x20, 0, 0, 5, 2, 0]],
    "other entry too high": [HEADER, [0x20, 0, 0, 5, 1, 1]],
    "clock below the one before": [HEADER, [0x20, 1, 0, 1, 0, 1], [0x20, 0, 0, 1, 1, 1], [0x20, 0, 0, 1, 2, 0]],
    "clock below one that it counts": [[0x10, 3] + [0] * 6, [0x20, 0, 0, 1, 1, 0, 0], [0x20, 1, 0, 1, 1, 1, 0], [0x20, 2, 0, 1, 0, 1, 1]],
    "clock good": [[0x10, 3] + [0] * 6, [0x20, 0, 0, 1, 1, 0, 0], [0x20, 1, 0, 1, 1, 1, 0], [0x20, 2, 0, 1, 1, 1, 1]],
    "question of one byte": [HEADER, [0x30]],
    "unknown token": [HEADER, [0x30, 9]],
    "short operand": [HEADER, [0x30] + atom()[:-1]],
    "trailing byte": [HEADER, QUESTION + [0]],
    "one operand for and": [HEADER, [0x30, 3] + atom()],
    "station of 01 not there": [HEADER, [0x30] + atom(2)],
    "lo one above hi": [HEADER, [0x30] + atom(0, 2, 1)],
    "lo above hi by its low byte": [HEADER, [0x30] + atom(0, 257, 256)],
    "lo above hi by its high byte": [HEADER, [0x30] + atom(0, 512, 257)],
    "lo above hi, the most": [HEADER, [0x30] + atom(0, 65535, 0)],
    "lo above hi, station not there": [HEADER, [0x30] + atom(2, 2, 1)],
    "lo equal to hi": [HEADER, [0x30] + atom(1, 256, 256)],
    "32 tokens": [HEADER, [0x30] + [2] * 31 + atom()],
    "33 tokens": [HEADER, [0x30] + [2] * 32 + atom()],
    "40 nots and a bad token": [HEADER, [0x30] + [2] * 40 + [9]],
    "12 tokens 01": [HEADER, [0x30] + [4] * 11 + atom() * 12],
    "13 tokens 01": [HEADER, [0x30] + [4] * 12 + atom() * 13],
    "width 16": [HEADER, [0x30, 3, 3] + OR2 + OR2 + [3] + OR2 + OR2],
    "width 18": [HEADER, [0x30, 3, 3] + OR3 + OR3 + OR2],
    "width 18 as false": [HEADER, [0x30, 2, 4, 4, 3, 3] + atom() * 3 + [3, 3] + atom() * 3 + [3] + atom() * 2],
    "width 18 below possibly": [HEADER, [0x30, 5, 3, 3] + OR3 + OR3 + OR2],
    "width 18 of the other sign": [HEADER, [0x30, 2, 3, 3] + OR3 + OR3 + OR2],
    "bars 12": [HEADER, [0x30, 3, 6, 2] + [4] * 5 + atom() * 6 + [6, 2] + [4] * 5 + atom() * 6],
    "bars 18": [HEADER, [0x30, 3, 6, 2, 3] + OR3 + OR3 + [6, 2, 3] + OR3 + OR3],
    "127 events": [ONE] + chain(127),
    "128 events": [ONE] + chain(128),
    "128th event malformed": [ONE] + chain(127) + [[0x20]],
    "254 events": [ONE] + chain(254),
    "255 events": [ONE] + chain(255),
    "255th event malformed": [ONE] + chain(254) + [[0x20]],
    "own entry 255 for 254": [ONE] + chain(253) + [[0x20, 0, 0, 5, 255]],
    "other entry 253": MANY + [[0x20, 1, 0, 5, 253, 1]],
    "other entry 254 for 253": MANY + [[0x20, 1, 0, 5, 254, 1]],
    "16 questions": [HEADER] + [QUESTION] * 16,
    "17 questions": [HEADER] + [QUESTION] * 17,
    "17th question malformed": [HEADER] + [QUESTION] * 16 + [[0x30]],
    "the longest of 127 events": largest(127),
    "the longest": largest(254),
    "the longest of 127 events with messages": largest(127, 64),
    "the longest with messages": largest(254, 64),
}

# Stations 0 and 1: one event that event 2 of station 1 has seen and event 1 has not; two, the second seen by event 2 alone.
BENCH = FRAMES["bench"][:-1]
TWO = [HEADER, EVENT, [0x20, 0, 0, 6, 2, 0], [0x20, 1, 0, 1, 1, 1], [0x20, 1, 0, 2, 2, 2]]
MESSAGE = message(0, 1, 1, 2)
FULL64 = BENCH + [MESSAGE] * 64

# The same about messages: frames in place and not, message frames, and questions with 07 behind one.
FRAMES |= {
    "message": BENCH + [MESSAGE],
    "message never received": BENCH + [message(0, 1, 1)],
    "message whose receiver has no event": [HEADER, EVENT, message(0, 1, 1)],
    "message the other way never received": BENCH + [message(1, 2, 0)],
    "message named twice": BENCH + [MESSAGE] * 2,
    "messages and questions": TWO + [message(0, 2, 1, 2), message(0, 1, 1), message(1, 1, 0), [0x30] + clear(), QUESTION],
    "receiving clock counts just the sending": TWO + [message(0, 2, 1, 2), message(0, 1, 1, 1)],
    "receiving clock counts more": TWO + [message(0, 1, 1, 2)],
    "receiving clock counts one less": TWO + [message(0, 2, 1, 1)],
    "receiving clock counts none": BENCH + [message(0, 1, 1, 1)],
    "receiving clock of the other station": BENCH + [message(1, 2, 0, 1)],
    "message of one byte": BENCH + [[0x25]],
    "message of two bytes": BENCH + [[0x25, 0]],
    "message too short": BENCH + [MESSAGE[:-1]],
    "message too long": BENCH + [MESSAGE + [0]],
    "message of 99 bytes": BENCH + [[0x25] + [0] * 98],
    "sender not there": BENCH + [message(2, 1, 1, 2)],
    "sender not there, never received": BENCH + [message(2, 1, 1)],
    "receiver not there": BENCH + [message(0, 1, 2, 1)],
    "receiver not there, never received": BENCH + [message(0, 1, 2)],
    "stations 255": BENCH + [message(255, 1, 255, 1)],
    "sender's event 0": BENCH + [message(0, 0, 1, 2)],
    "sender's event 0, never received": BENCH + [message(0, 0, 1)],
    "sender's event too large": BENCH + [message(0, 2, 1, 2)],
    "sender's event too large, never received": BENCH + [message(0, 2, 1)],
    "receiver's event too large": BENCH + [message(0, 1, 1, 3)],
    "receiver's event 255": BENCH + [message(0, 1, 1, 255)],
    "sender equal to receiver": BENCH + [message(1, 1, 1, 2)],
    "sender equal to receiver, never received": BENCH + [message(1, 1, 1)],
    "no event to send": [HEADER, message(0, 1, 1)],
    "message of the only station": [ONE] + chain(2) + [message(0, 1, 0, 2)],
    "message of event 254": [HEADER] + [e + [0] for e in chain(254)] + [message(0, 254, 1)],
    "message of event 255": [HEADER] + [e + [0] for e in chain(254)] + [message(0, 255, 1)],
    "message first": [MESSAGE],
    "message first, of one byte": [[0x25]],
    "message after a question": BENCH + [QUESTION, MESSAGE],
    "message after a question, of one byte": BENCH + [QUESTION, [0x25]],
    "event after a message": BENCH + [MESSAGE, [0x20, 1, 0, 3, 1, 3]],
    "event after a message, of one byte": BENCH + [MESSAGE, [0x20]],
    "header after a message": BENCH + [MESSAGE, HEADER],
    "64 messages": FULL64 + [QUESTION],
    "64th message at fault": FULL64[:-1] + [message(0, 1, 1, 1)],
    "65 messages": FULL64 + [MESSAGE],
    "65th message of one byte": FULL64 + [[0x25]],
    "65th message too long": FULL64 + [MESSAGE + [0]],
    "65th message, sender not there": FULL64 + [message(2, 1, 1, 2)],
    "65th message, receiver not there": FULL64 + [message(0, 1, 2, 2)],
    "65th message, sender's event 0": FULL64 + [message(0, 0, 1, 2)],
    "65th message, receiver's event too large": FULL64 + [message(0, 1, 1, 3)],
    "65th message, sender equal to receiver": FULL64 + [message(1, 1, 1, 2)],
    "65th message, receiving clock lacks the sending": FULL64 + [message(0, 1, 1, 1)],
    "07 alone": [HEADER, [0x30, 7]],
    "07 without messages": [HEADER, [0x30] + clear()],
    **{name: BENCH + [MESSAGE, [0x30] + q] for name, q in {
        "07": clear(),
        "07 of one station": clear(1, 1),
        "07 not received by anyone": clear(1, 0),
        "07 and no more": [7],
        "07 with one operand": clear()[:-1],
        "07 with one operand under and": [3] + atom() + clear()[:-1],
        "07 with a trailing byte": clear() + [0],
        "07, station of the sender not there": clear(2, 1),
        "07, station of the receiver not there": clear(0, 2),
        "07, station not there, as false": [2] + clear(0, 2),
        "07 with one operand as false": [2, 7, 0],
        "not not 07": [2, 2] + clear(),
        "always not 07": [6, 2] + clear(),
        "possibly 07": [5] + clear(),
        "not possibly 07": [2, 5] + clear(),
        "always possibly 07": [6, 5] + clear(),
        "not always not 07": [2, 6, 2] + clear(),
        "07 under and, or": [3, 4] + clear() + atom() + clear(1, 0),
        "07 under and, or as false twice": [2, 3, 4, 2] + clear() + atom() + [2] + clear(1, 0),
        "not 07": [2] + clear(),
        "not 07 of one station": [2] + clear(1, 1),
        "always 07": [6] + clear(),
        "not always 07": [2, 6] + clear(),
        "possibly not 07": [5, 2] + clear(),
        "possibly always 07": [5, 6] + clear(),
        "not not not 07": [2, 2, 2] + clear(),
        "not 07 left of and": [3, 2] + clear() + atom(),
        "not 07 right of or": [4] + atom() + [2] + clear(),
        "not of and with 07 left": [2, 3] + clear() + atom(),
        "not of or with 07 right": [2, 4] + atom() + clear(),
        "always of and with 07 right": [6, 3] + atom() + clear(),
        "always of or with 07 left": [6, 4] + clear() + atom(),
        "07 as true and as false": [3] + clear() + [2] + clear(),
        "12 tokens 07": [4] * 11 + clear() * 12,
        "13 tokens 07": [4] * 12 + clear() * 13,
        "12 tokens 01 and 07": [4] * 11 + atom() * 6 + clear() * 6,
        "13 tokens 01 and 07, the last 07": [4] * 12 + atom() * 12 + clear(),
        "13 tokens 01 and 07, the last 01": [4] * 12 + clear() * 12 + atom(),
        "32 tokens with 07": [2] * 30 + [5] + clear(),
        "33 tokens with 07": [2] * 32 + clear(),
        "32 tokens, 07 as false": [2] * 31 + clear(),
        "34 tokens, 07 as false": [2] * 33 + clear(),
        "12 tokens 07 as false": [2] + [4] * 11 + clear() * 12,
        "13 tokens 07 as false": [2] + [4] * 12 + clear() * 13,
        "width 16 with 07": [3, 3] + OR2 + OR2 + [3] + OR2 + [4] + atom() + clear(),
        "width 18 with 07": [3, 3] + OR3 + OR3 + [4] + clear() * 2,
        "width 18, 07 as false": [3, 2] + clear() + [3, 3] + OR3 + OR3 + OR2,
        "bars 18, 07 as false": [3, 6, 2, 3] + OR3 + OR3 + [6, 2, 3] + OR3 + [4, 4] + atom() * 2 + [2] + clear(),
        "34 tokens, 07 with one operand": [2] * 33 + clear()[:-1],
        "13 tokens 07, the last one's station not there": [4] * 12 + clear() * 12 + clear(2, 0),
    }.items()},
}

# Header and events of the bench with panels, and with a message.
PANELS = panelled(BENCH, lambda s: s + 1)
HEADER11, EVENT11, LAST11 = PANELS[0], PANELS[1], PANELS[-1]
ONE11 = [0x11] + ONE[1:] + [0, 0]
CHAIN11 = panelled([ONE] + chain(255), lambda s: 255)
MESSAGES11 = PANELS + [MESSAGE]

# The same about panels: headers, events and messages under header 11, both headers in each place, and questions with 08 under both.
FRAMES |= {
    "bench with panels": PANELS + [[0x30, 3] + panel(0, 1, 1) + panel(1, 2, 2)],
    "header 11 alone": [HEADER11],
    "header 11 of one station": [ONE11],
    "header 11 of eight stations": [[0x11, 8] + [0, 7] * 16],
    "header 11, no stations": [[0x11, 0]],
    "header 11, nine stations": [[0x11, 9] + [0, 0] * 18],
    "header 11 of one byte": [[0x11]],
    "header 11 of two bytes": [[0x11, 2]],
    "header 11 of the length of 10": [[0x11] + HEADER[1:]],
    "header 10 of the length of 11": [[0x10] + HEADER11[1:]],
    "header 11 of eight stations, of the length of 10": [[0x11] + EIGHT[1:]],
    "header 11 of one station, as long as 10 of two": [[0x11, 1] + HEADER[2:]],
    "header 10 of four stations, as long as 11 of two": [[0x10, 4] + HEADER11[2:]],
    "header 11 too short": [HEADER11[:-1]],
    "header 11 too long": [HEADER11 + [0]],
    "header 11 without its last panel": [HEADER11[:-2]],
    "header 11 with a value more": [HEADER11 + [0, 0]],
    "header 11 of 99 bytes": [[0x11, 2] + [0] * 97],
    **{f"header {again[0]:X} after header {fs[0][0]:X}{name}": fs[:k] + [again]
       for name, k in {"": 1, " and an event": 2, " and a message": 5, " and a question": 6}.items()
       for fs, again in [(BENCH + [MESSAGE, QUESTION], HEADER11), (MESSAGES11 + [QUESTION], HEADER), (MESSAGES11 + [QUESTION], HEADER11)]},
    "second header 11 of one byte": [HEADER, [0x11]],
    "second header 11 of the length of 10": [HEADER11, [0x11] + HEADER[1:]],
    "event with a panel first": [EVENT11],
    "question with 08 first": [[0x30] + panel()],
    "event of header 10 under header 11": [HEADER11, EVENT],
    "event of header 11 under header 10": [HEADER, EVENT11],
    "second event of header 10 under header 11": PANELS[:2] + [BENCH[2]],
    "second event of header 11 under header 10": BENCH[:2] + [PANELS[2]],
    "event under header 11, of one byte": [HEADER11, [0x20]],
    "event under header 11 too short": [HEADER11, EVENT11[:-1]],
    "event under header 11 too long": [HEADER11, EVENT11 + [0]],
    "event under header 11, station not there": [HEADER11, [0x20, 2] + EVENT11[2:]],
    "event under header 11, too short and station not there": [HEADER11, [0x20, 2] + EVENT11[2:-1]],
    "event under header 11, panel behind the clock": [HEADER11, EVENT11[:4] + EVENT11[6:] + EVENT11[4:6]],
    "event under header 11, panel 65535": [HEADER11, EVENT11[:4] + [255, 255] + EVENT11[6:]],
    "event under header 11, own entry 0": [HEADER11, EVENT11[:6] + [0, 0]],
    "event under header 11, own entry 2": [HEADER11, EVENT11[:6] + [2, 0]],
    "event under header 11, other entry too high": [HEADER11, EVENT11[:6] + [1, 1]],
    "event under header 11, clock below the one before": PANELS + [LAST11[:6] + [0, 3]],
    "event under header 11, clock good": PANELS + [LAST11[:6] + [1, 3]],
    "event under header 11 after a message": MESSAGES11 + [LAST11[:6] + [1, 3]],
    "254 events with panels": CHAIN11[:-1],
    "255 events with panels": CHAIN11,
    "255th event with panels malformed": CHAIN11[:-1] + [CHAIN11[-1][:-2]],
    "message under header 11": MESSAGES11,
    "message under header 11, receiving clock counts none": PANELS + [message(0, 1, 1, 1)],
    "message under header 11, receiver's event too large": PANELS + [message(0, 1, 1, 3)],
    "65 messages under header 11": PANELS + [MESSAGE] * 65,
    "08 alone": [HEADER11, [0x30, 8]],
    "08 without events": [HEADER11, [0x30] + panel()],
    **{name + under: fs + [[0x30] + q] for under, fs in {"": MESSAGES11, ", under header 10": BENCH + [MESSAGE]}.items() for name, q in {
        "08": panel(),
        "08 cut short by a byte": panel()[:-1],
        "08 cut short by two bytes": panel()[:-2],
        "08 with its station alone": panel()[:2],
        "08 and no more": [8],
        "08 cut short under and": [3] + atom() + panel()[:-1],
        "08 with a trailing byte": panel() + [0],
        "08, station not there": panel(2),
        "08, station not there, as false": [2] + panel(2),
        "08, lo above hi": panel(1, 2, 1),
        "08, lo above hi, the most": panel(0, 65535, 0),
        "08, lo above hi, station not there": panel(2, 2, 1),
        "not 08": [2] + panel(),
        "always 08": [6] + panel(),
        "not always 08": [2, 6] + panel(),
        "possibly not 08": [5, 2] + panel(),
        "08 as false, 07 as true": [3, 2] + panel() + clear(),
        "08 as true, 07 as false": [3] + panel() + [2] + clear(),
        "12 tokens 08": [4] * 11 + panel() * 12,
        "13 tokens 08": [4] * 12 + panel() * 13,
        "12 tokens 01, 07 and 08": [4] * 11 + (atom() + clear() + panel()) * 4,
        "13 tokens 01, 07 and 08": [4] * 12 + (atom() + clear() + panel()) * 4 + panel(),
        "13 tokens 01 and 08, the last 08": [4] * 12 + atom() * 12 + panel(),
        "13 tokens 01 and 08, the last 01": [4] * 12 + panel() * 12 + atom(),
        "13 tokens 07 and 08, the last 07": [4] * 12 + panel() * 12 + clear(),
        "12 tokens 01 and 08 as false": [2] + [4] * 11 + (atom() + panel()) * 6,
        "13 tokens 01 and 08 as false": [2] + [4] * 12 + (atom() + panel()) * 6 + panel(),
        "12 tokens 01, 07 and 08 as false": [2] + [4] * 11 + (atom() + clear() + panel()) * 4,
        "13 tokens 01, 07 and 08 as false": [2] + [4] * 12 + (atom() + clear() + panel()) * 4 + panel(),
        "32 tokens with 08": [2] * 31 + panel(),
        "33 tokens with 08": [2] * 32 + panel(),
        "34 tokens, 08 cut short": [2] * 33 + panel()[:-1],
        "13 tokens 08, the last one's station not there": [4] * 12 + panel() * 12 + panel(2),
        "width 16 with 08": [3, 3] + OR2 + OR2 + [3] + OR2 + [4] + atom() + panel(),
        "width 18 with 08": [3, 3] + OR3 + OR3 + [4] + panel() * 2,
        "bars 18 with 08": [3, 6, 2, 3] + OR3 + OR3 + [6, 2, 3] + OR3 + [4, 4] + panel() * 3,
    }.items()},
    "the longest of 127 events with panels": largest_with_panels(127),
    "the longest with panels": largest_with_panels(254),
}

GOOD = log_of(FRAMES["bench"])
LONGEST, LONGEST_LIST = log_of(FRAMES["the longest"]), entries(FRAMES["the longest"])

# Logs whose bytes are at fault, and some at the limits of their length.
LOGS = [
    b"", b"\n", b"\n\n", GOOD[:-1], GOOD + b"\n", GOOD + b"0", GOOD.lower(), GOOD.replace(b"\n", b"\r\n", 1), GOOD + b"\0\n",
    GOOD.replace(b"EE\n", b"EF\n", 1), GOOD.replace(b"DA\n", b"DB\n", 1), b"60A1\n", b"10F0\n", b"1\n", b"10\n", b"1 F0\n", b"10F\n",
    b"0" * 200 + b"\n", b"0" * 202 + b"\n", b"0" * 201 + b"\n", b"0" * 8192, b"0" * 8193, b"G" * 8193, b"00\n" * 2730 + b"00",
    log_of([HEADER] + [[0x30] + atom()] * 16 + [[0x30]]), GOOD.replace(b"0A", b"0B"),
    encode(HEADER) + encode(HEADER)[:-3] + b"00\n", encode([0x60])[:-3] + b"00\n",
    log_of([ONE] + chain(255))[:-3] + b"00\n", full_log(OLD_LOG, 7), full_log(OLD_LOG + 1, 8),
    padded(LONGEST, OPERATIONS.log), padded(LONGEST, OPERATIONS.log + 1), b"0" * OPERATIONS.log, b"0" * (OPERATIONS.log + 1),
    log_of(BENCH) + wrong_check(message(0, 1, 1, 1)), log_of(FULL64) + wrong_check([0x25]), wrong_check(MESSAGE),
    log_of(BENCH + [MESSAGE])[:-1], log_of(BENCH + [MESSAGE, [0x30, 2] + clear()])[:-1],
    log_of(PANELS)[:-1], encode(HEADER11)[:-1], wrong_check(HEADER11), wrong_check(HEADER11[:-4]), encode(HEADER) + wrong_check(HEADER11),
    encode(HEADER11) + wrong_check(EVENT), encode(HEADER11).lower(),
]

# Frame lists at fault, and some at the limits of their length.
LISTS = [
    [], [0], [100] + [0] * 100, [5, 0x10, 1], [1, 0x10], [1], [4, 0x10, 1, 0, 0, 0], [4, 0x10, 1, 0, 0, 99] + [0] * 99, [6] + HEADER + [255],
    [1, 0] * 2048, [1, 0] * 2048 + [1], [4, 0x10, 1, 0, 0] + [99] + [0x30] * 99,
    full_list(OLD_LIST, 9), full_list(OLD_LIST + 1, 9), padded_list(LONGEST_LIST, LIST), padded_list(LONGEST_LIST, LIST + 1),
    entries(BENCH) + [5] + MESSAGE[:-1], entries(BENCH) + [5] + message(0, 1, 1, 1) + [0], entries(BENCH) + [100] + MESSAGE,
    [6] + HEADER11, [11] + HEADER11, entries([HEADER11]) + [6] + EVENT11, entries([HEADER11]) + [9] + EVENT11, entries(PANELS) + [0],
]


def read_list(l):
    """Write's reading of a list."""
    fs, at = [], 0
    if len(l) > LIST:
        raise Refused(14)
    while at < len(l):
        k = l[at]
        if not 1 <= k <= 99 or at + 1 + k > len(l):
            raise Refused(14)
        fs.append(l[at + 1:at + 1 + k])
        at += 1 + k
    return read_frames(fs, bytes, OPERATIONS)


def outcome(letter, size, data):
    """The line printed for a case."""
    try:
        if letter == "R":
            log = read(bytes(data), OPERATIONS)
            written = bytes(entries([list(f) for f in log.frames]))
            values, need = [len(log.initial), log.events(), len(log.questions), len(written)], LIST
        else:
            log = read_list(list(data))
            written = log_of(log.frames)
            values, need = [len(written)], OPERATIONS.log
        if size < need:
            raise Refused(12)
    except Refused as r:
        return f"{letter} refused {r.number} {r.line}  kept\n"
    return f"{letter} {' '.join(map(str, values))} {written.hex()} kept\n"


def around(old, least):
    """Sizes of an output about the least one, which all other cases have, and about that of once."""
    return 0, old - 1, old, old + 1, old + 8, least - 1, least + 1, least + 8


def cases():
    made = [("R", LIST, log_of(fs)) for fs in FRAMES.values()]
    made += [("W", OPERATIONS.log, entries(fs)) for fs in FRAMES.values()]
    made += [("R", LIST, log) for log in LOGS] + [("W", OPERATIONS.log, l) for l in LISTS]
    made += [("R", size, GOOD) for size in around(OLD_LIST, LIST)] + [("R", 0, GOOD[:-1])]
    made += [("W", size, entries(FRAMES["bench"])) for size in around(OLD_LOG, OPERATIONS.log)] + [("W", 0, [0])]
    made += [("R", len(LONGEST_LIST), LONGEST), ("W", len(LONGEST), LONGEST_LIST)]
    for letter, size, data in made:
        yield case(letter, data, size=size), outcome(letter, size, data).encode()
