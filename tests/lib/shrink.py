"""Makes a script that shows a fault shorter, as long as it still shows it."""

import time

import paper

ROUND_LAPSES = (0, 1, paper.CARRIER_HOLD - 1, paper.CARRIER_HOLD, paper.SECOND - 1, paper.SECOND, paper.SECOND + 1)


def shrink(lines, still_shows, seconds=60):
    """`lines` is a list; `still_shows` says of a list whether the fault is there."""
    until = time.monotonic() + seconds
    shows = lambda candidate: time.monotonic() < until and still_shows(candidate)
    lines = lines[:smallest(len(lines), lambda count: shows(lines[:count]))]
    while True:
        before = list(lines)
        for step in (drop_lines, join_neighbours, simplify_lines, shorten_fills):
            lines = step(lines, shows)
        if lines == before:
            return split_last_fill(lines, shows)


def smallest(number, good):
    """The smallest good number up to a good one, if those above a good one are good."""
    low, high = -1, number
    while high - low > 1:
        middle = (low + high) // 2
        if good(middle):
            high = middle
        else:
            low = middle
    return high


def drop_lines(lines, shows):
    size = max(1, len(lines) // 2)
    while size >= 1:
        at = 0
        while at < len(lines):
            candidate = lines[:at] + lines[at + size:]
            if candidate and shows(candidate):
                lines = candidate
            else:
                at += size
        size //= 2
    return lines


def join_neighbours(lines, shows):
    """Two fills in a row as one, where `wall` takes it; two lapses with one flag likewise."""
    at = 0
    while at + 1 < len(lines):
        joined = joined_line(paper.parsed(lines[at]), paper.parsed(lines[at + 1]))
        if joined and paper.parsed(joined) and shows(lines[:at] + [joined] + lines[at + 2:]):
            lines = lines[:at] + [joined] + lines[at + 2:]
        else:
            at += 1
    return lines


def joined_line(first, second):
    if first is None or second is None or first[0] != second[0] or first[1][1:] != second[1][1:]:
        return None
    if first[0] == "F":
        return b"F,%d" % (first[1][0] + second[1][0])
    if first[0] == "W":
        return b"W,%d,%d" % (first[1][0] + second[1][0], first[1][1])
    return None


def simplify_lines(lines, shows):
    for at in range(len(lines)):
        for simpler in simpler_lines(lines[at]):
            candidate = lines[:at] + [simpler] + lines[at + 1:]
            if shows(candidate):
                lines = candidate
                break
    return lines


def simpler_lines(line):
    """Simpler lines of the same kind, the simplest first."""
    call = paper.parsed(line, extended=True)
    if call is None:
        return
    letter, numbers = call
    if letter == "R" and numbers[0] != 8_000:
        yield b"R,8000"
    if letter == "W" and numbers[0] not in ROUND_LAPSES:
        for lapse in ROUND_LAPSES:
            yield b"W,%d,%d" % (lapse, numbers[1])
    if letter in "TW" and numbers[1] == 1:
        yield b"%s,%d,0" % (letter.encode(), numbers[0])
    if letter == "T" and len(numbers) == 3:
        yield b"T,%d,%d" % (numbers[0], numbers[1])
    plain = ",".join([letter] + [str(n) for n in numbers]).encode()
    if plain != line:
        yield plain


def shorten_fills(lines, shows):
    for at in range(len(lines)):
        call = paper.parsed(lines[at], extended=True)
        if call and call[0] == "F":
            with_fill = lambda length: lines[:at] + [b"F,%d" % length] + lines[at + 1:]
            lines = with_fill(smallest(call[1][0], lambda length: shows(with_fill(length))))
    return lines


def split_last_fill(lines, shows):
    """A long last fill as two, so that its last sample is printed and not only hashed."""
    call = paper.parsed(lines[-1], extended=True)
    if call and call[0] == "F" and call[1][0] > 8:
        candidate = lines[:-1] + [b"F,%d" % (call[1][0] - 1), b"F,1"]
        if shows(candidate):
            return candidate
    return lines
