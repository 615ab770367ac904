"""Counts which of 01's rules a script reached, from its lines and the oracle's answers.

01 in Python (paper.py) is stepped beside the answers: it tells what stood before a call,
and it has to give the same answers.
"""

import copy
from collections import Counter

import paper
from paper import (
    ANSWERING, CARRIER_HOLD, CONNECTED, CR, DIALLING, IDLE, LARGEST_U64, LF, LINE_LIMIT, PLUS, SECOND,
)

STATE_NAMES = ("Idle", "Dialling", "Answering", "Connected")

# 02's E10: so many samples after the line went up are held against 01 in Python, which is slow.
HEARD = 1_500


class Disagreement(Exception):
    """The oracle's answer is not 01's."""


class Spread:
    """Over which rates and digit counts the calls of many scripts were spread."""

    def __init__(self):
        self.samples, self.calls = 0, 0
        self.played, self.heard_out = set(), set()

    def note(self, before, call, after, refusal):
        if call[0] == "F" and refusal == "0" and before.state == DIALLING and call[1][0] > 0:
            self.samples += call[1][0]
            self.played.add((before.rate, len(before.digits)))
        if before.state == DIALLING and after.state == CONNECTED:
            self.calls += 1
            self.heard_out.add((before.rate, len(before.digits)))

    def text(self):
        lines = [f"{self.samples} samples of overtures"]
        for what, pairs in (("played", self.played), (f"heard until the line was up, {self.calls} times", self.heard_out)):
            rates, counts = {r for r, _ in pairs}, {d for _, d in pairs}
            lines.append(f"{what}: {len(rates)} rates, {len(counts)} of the 77 digit counts")
        return "\n".join(lines)


def count(script, answers, extended=False, spread=None):
    """The counts for a script and what the oracle printed for it with --bits."""
    reached = Counter()
    wall = paper.Wall()
    rows = answers.decode("ascii").splitlines()
    at = 0
    for number, line in enumerate(paper.lines_of(script), 1):
        call = paper.parsed(line, extended)
        if call is None:
            reached["other line"] += 1
            continue
        if call[0] == "M":
            reached["byte passed over" if len(wall.kept) == paper.KEPT else "byte kept"] += 1
            wall.answer(call)
            continue
        if call[0] == "U" and len(wall.kept) != 10:
            reached["frame of nine bits" if len(wall.kept) == 9 else "frame of eleven bits" if len(wall.kept) == 11 else "frame of no bits" if not wall.kept else "frame of other than ten bits"] += 1
            wall.answer(call)
            continue
        if at + 2 > len(rows):
            raise Disagreement(f"line {number} {line!r}: no answer")
        before = Before(wall.set, wall.kept, wall.place)
        expected, facts = wall.answer(call), wall.facts(call)
        row, second = rows[at], rows[at + 1]
        at += 2
        if call[0] == "F" and before.state == CONNECTED and row[0] == "0":
            facts += samples_heard(wall.set, call[1][0])
        if row != expected or not (second == facts or second.startswith(facts + " n=")):
            raise Disagreement(f"line {number} {line!r}: {row} / {second}, by 01 {expected} / {facts}")
        note_answer(reached, call, row.split(","), wall.set)
        if call[0] == "R" and before.place:
            reached["place set back by a fresh set" if row[0] == "0" else "place set back by a declined one"] += 1
        note_emptied(reached, before, call, wall.set)
        if call[0] in "BU":
            note_bits(reached, before, call, wall)
        else:
            NOTES[call[0]](reached, before, call[1], wall.set, row.split(","))
        if spread:
            spread.note(before, call, wall.set, row.split(",")[0])
    if at != len(rows):
        raise Disagreement(f"{len(rows) - at} lines too many")
    return reached


def samples_heard(s, length):
    """02's E10: what the second line tells of a fill's samples in Connected; nothing for those too late to be held against 01."""
    if s.played > HEARD:
        return ""
    return paper.shown_samples([paper.narrowed_bits(next(s.wave)) for _ in range(length)])


class Before:
    """What a call found."""

    guard = paper.Set.guard

    def __init__(self, s, kept=b"", place=""):
        self.place = place
        self.__dict__.update(vars(s))
        self.set, self.kept = copy.copy(s), kept
        self.begun = len(s.bits)
        self.next_stage = 0
        self.ends = ()
        if s.state == DIALLING:
            self.ends = paper.stage_ends(len(s.digits), s.rate)
            self.next_stage = paper.stage_of(s.m + 1, len(s.digits), s.rate)


def note_answer(reached, call, row, after):
    refusal, mode, state, stage, _, first, second = row
    reached[f"refusal {refusal}"] += 1
    reached[f"mode {mode}"] += 1
    reached[f"state {state}"] += 1
    reached[f"stage {stage}"] += 1
    reached[f"codes {first},{second} on {call[0]}"] += 1
    reached[f"ring {after.ring()}"] += 1


def note_create(reached, before, numbers, after, row):
    rate = numbers[0]
    if rate < paper.LOWEST_RATE:
        reached["rate too low"] += 1
    elif rate > LARGEST_U64:
        reached["rate too long"] += 1
    elif rate > paper.HIGHEST_RATE:
        reached["rate too high"] += 1
    elif rate in (8_000, 11_025, 44_100, 48_000, 96_000, 192_000):
        reached[f"rate {rate}"] += 1
    else:
        reached["odd rate"] += 1
    if before.state != IDLE:
        reached["fresh set during a call"] += 1


def note_typed(reached, before, numbers, after, row):
    byte, carrier = numbers[:2]
    where = "command" if before.command_mode else "data"
    if row[0] == "2":
        reached[f"outbox too short in {where} mode"] += 1
        reached[f"outbox of {numbers[2]}"] += 1
    elif not before.command_mode:
        note_data_byte(reached, before, byte, after)
    elif byte == LF:
        reached["LF inside a line" if before.line else "LF before a line"] += 1
        if len(before.line) == LINE_LIMIT:
            reached["LF after a line that ran over" if before.over else "LF after a full line"] += 1
    elif byte == CR:
        note_command(reached, before, carrier, after, row)
    elif len(before.line) == LINE_LIMIT:
        reached["byte after a line that ran over" if before.over else "byte after a full line"] += 1


def note_data_byte(reached, before, byte, after):
    if not after.sent:
        reached[f"plus {after.pluses} withheld"] += 1
        reached[f"plus {after.pluses} withheld at an S12 of its own"] += before.s12 != paper.FRESH_S12 and before.idle == before.guard()
        reached["plus withheld at S12 0"] += before.s12 == 0
        if before.idle == SECOND and before.s12 == paper.FRESH_S12:
            reached[f"plus {after.pluses} withheld at 1 s"] += 1
        return
    reached[f"byte sent in {STATE_NAMES[before.state]}"] += 1
    if byte == LF:
        reached["LF sent"] += 1
    if before.pluses:
        reached[f"{before.pluses} held pluses sent"] += 1
    if byte == PLUS:
        reached[f"{len(after.sent)} pluses sent"] += 1
        if before.s12 != paper.FRESH_S12:
            reached["plus sent 1 ns early at an S12 of its own"] += before.pluses == 0 and before.idle == before.guard() - 1
            reached["plus sent 1 ns late at an S12 of its own"] += before.pluses in (1, 2) and before.idle == before.guard() + 1
            return
        if before.pluses == 0 and before.idle == SECOND - 1:
            reached["plus sent 1 ns early"] += 1
        if before.pluses in (1, 2) and before.idle == SECOND + 1:
            reached[f"plus {before.pluses + 1} sent 1 ns late"] += 1
        if before.pluses and before.idle >= SECOND:
            reached["plus that broke an escape after a second"] += 1


def note_command(reached, before, carrier, after, row):
    if not before.line:
        reached["CR on an empty line"] += 1
        return
    line = before.line.upper()
    if before.over:
        reached["dial line that ran over" if line.startswith(b"ATDT") else "other line that ran over"] += 1
        return
    reached["lower case line"] += line != before.line
    if len(line) >= LINE_LIMIT - 1:
        reached[f"line of {len(line)} bytes"] += 1
    known = (b"AT", b"ATZ", b"ATI", b"ATA", b"ATH", b"ATH0", b"ATO", b"ATO0", b"ATDP1", b"AT DT1", b"ATX")
    name = STATE_NAMES[before.state]
    note_s12(reached, before, line, after)
    if line in known:
        reached[line.decode()] += 1
    if line in (b"ATO", b"ATO0"):
        reached[f"{line.decode()} {'online' if row[5] == '2' else 'ERROR'} in {name}"] += 1
        if before.state == IDLE and carrier:
            reached["ATO with the flag up in Idle"] += 1
    if line == b"ATA":
        reached[f"answer in {name}"] += 1
    if line in (b"ATH", b"ATH0"):
        reached[f"hang-up in {name}"] += 1
    if not line.startswith(b"AT"):
        reached["line without AT"] += 1
    if line.startswith(b"ATDT"):
        note_dial(reached, before, line, after)
    elif before.seen and not after.seen:
        reached["mark cleared by a command"] += 1


def note_s12(reached, before, line, after):
    """02's E6."""
    if line == b"ATS12?":
        reached["ATS12?"] += 1
    elif paper.sets_s12(line):
        reached[f"S12 set to {after.s12}" if after.s12 in (0, 1, 49, 50, 51, 255) else "S12 set to another"] += 1
        reached["S12 with leading zeros"] += line[6:] != str(after.s12).encode()
    elif line.startswith(b"ATS12"):
        reached["other form of an S12 line"] += 1
        reached["S12 of 256"] += line == b"ATS12=256"
        reached["S12 of four digits"] += line in (b"ATS12=0050", b"ATS12=1000")
        reached["S12 of none"] += line == b"ATS12="
    elif before.s12 != paper.FRESH_S12 and line in (b"ATZ", b"ATH", b"ATH0", b"ATA"):
        reached[f"{line.decode()} at an S12 of its own"] += 1


def note_dial(reached, before, line, after):
    reached["dial line"] += 1
    reached[f"dial in {STATE_NAMES[before.state]}"] += 1
    count = len(after.digits)
    reached[f"{count} digits" if count in (0, 1, 2, 3, 76) else "other count of digits"] += 1
    reached["byte that is no key"] += count < len(line) - 4
    reached["lower case key"] += any(97 <= b <= 100 for b in before.line[4:])
    for digit in after.digits:
        reached[f"key {chr(digit)}"] += 1
    if before.seen and before.down:
        reached["dial line with the carrier down"] += 1


def note_lapse(reached, before, numbers, after, row):
    lapse, carrier = numbers
    name = STATE_NAMES[before.state]
    where = "command" if before.command_mode else "data"
    if not before.command_mode and before.idle + lapse > LARGEST_U64:
        reached["idle at its largest"] += 1
    if before.pluses == 3:
        idle, guard = before.idle + lapse, before.guard()
        at = "1 s" if before.s12 == paper.FRESH_S12 else "an S12 of its own"
        if row[1] == "C" and row[5] != "3":
            reached[f"escape in {name}"] += 1
            reached[f"escape at {at}"] += idle == guard
            reached["escape by a lapse of 0 ns"] += before.s12 == 0 and lapse == 0
        reached[f"escape 1 ns short of {at}"] += idle == guard - 1
    if carrier and before.state == IDLE:
        reached["carrier up in Idle"] += 1
    elif carrier and not before.seen:
        reached[f"carrier seen in {'command' if after.command_mode else 'data'} mode"] += 1
        if where == "data" and after.command_mode:
            reached["carrier seen as an escape ends"] += 1
    elif carrier and before.down:
        reached["down time zeroed"] += 1
    elif before.seen and not carrier:
        down = before.down + lapse
        if row[5] == "3":
            reached[f"carrier lost in {name}"] += 1
            reached[f"carrier lost in {where} mode"] += 1
            reached["carrier lost at 700 ms"] += down == CARRIER_HOLD
            reached["carrier lost with pluses held"] += before.pluses > 0
            reached["carrier lost with part of a line"] += len(before.line) > 0
            reached["carrier lost with a line that ran over"] += before.over
            reached["down time at its largest"] += down > LARGEST_U64
        else:
            reached["carrier kept at 699,999,999 ns"] += down == CARRIER_HOLD - 1
            reached["down time in pieces"] += before.down > 0


def note_fill(reached, before, numbers, after, row):
    length = numbers[0]
    name = STATE_NAMES[before.state]
    note_lit(reached, before, length, row, after)
    if row[0] == "3":
        reached[f"fill too long in {name}"] += 1
        return
    reached[f"{'empty fill' if length == 0 else 'fill'} in {name}"] += 1
    reached["fill of 65,536"] += length == 65_536
    if before.state == DIALLING:
        note_overture(reached, before, length, after)
    if before.state == CONNECTED:
        note_sending(reached, before, length, after)


def note_overture(reached, before, length, after):
    reached["first fill empty"] += before.m == 0 and length == 0
    end = before.ends[-1]
    if after.state == CONNECTED:
        if length == 0:
            reached["line up by an empty fill at T"] += 1
        elif before.m == end:
            reached["line up by a fill from T"] += 1
        else:
            reached["line up by a fill over T"] += 1
        reached["line up one past T"] += after.m == end + 1
        reached["line up with bytes waiting"] += len(after.waiting) > 0
        reached["line up after a frame that was cut off"] += len(before.rest) > 0
        return
    if length == 0:
        if before.m in before.ends:
            reached[f"empty fill at the end of stage {before.ends.index(before.m) + 1}"] += 1
        return
    for stage, stage_end in enumerate(before.ends, 1):
        for name, apart in (("one short of", -1), ("at", 0), ("one past", 1)):
            if after.m == stage_end + apart:
                reached[f"fill ends {name} the end of stage {stage}"] += 1
    reached["fill over two stage ends"] += after.shown >= before.next_stage + 2


def note_forced(reached, before, numbers, after, row):
    reached["data mode forced"] += 1
    reached["data mode forced inside a line"] += before.command_mode and len(before.line) > 0
    reached["data mode forced with a line that ran over"] += before.command_mode and before.over
    reached["data mode forced with pluses held"] += before.pluses > 0


def note_cue(reached, before, numbers, after, row):
    position, name = numbers[0], STATE_NAMES[before.state]
    if row[0] == "7":
        why = "no such digit" if before.state == DIALLING else name
        reached[f"cue declined: {why}"] += 1
        reached["cue at position d"] += before.state == DIALLING and position == len(before.digits)
        reached["cue with no digits"] += before.state == DIALLING and not before.digits
        return
    reached["cue"] += 1
    reached["cue of the first digit"] += position == 0
    reached["cue of the last digit"] += position == len(before.digits) - 1
    reached["cue of the 76th digit"] += position == 75
    reached["cue of a digit that was heard"] += before.m >= after.cued
    whole, rest = divmod(position * before.rate, 5)
    place = after.cued - before.ends[1] - 1
    if position and rest == 0:
        reached["cue on a whole place" if place == whole else "cue one after a whole place"] += 1
    elif position:
        reached["cue off a whole place"] += 1


def note_string(reached, before, numbers, after, row):
    carrier, outbox, places = numbers
    string, size, state = before.kept, len(before.kept), STATE_NAMES[before.state]
    wanted, wanted_places = 4 * size, 3 * size
    if row[0] == "8":
        reached[f"string of {size} bytes declined" if size in (257, 300) else "longer string declined"] += 1
        reached["string too long and without room"] += outbox < wanted or places < wanted_places
        return
    if row[0] == "9":
        reached["string with its outbox a byte short"] += outbox == wanted - 1 and places >= wanted_places
        reached["string with its codes a place short"] += outbox >= wanted and places == wanted_places - 1
        reached["string with both buffers short"] += outbox < wanted and places < wanted_places
        reached["declined string that would dial"] += b"ATDT" in string.upper()
        return
    reached[f"string of {size} bytes" if size in (0, 1, 256) else "string of other length"] += 1
    reached["string with just enough room"] += size > 0 and outbox == wanted and places == wanted_places
    reached["string with more room than that"] += outbox > wanted and places > wanted_places
    reached[f"string in {state}"] += size > 0
    reached["string with two codes of a byte"] += any(after.codes[1::3])
    reached["string with codes of several bytes"] += sum(map(bool, after.codes[::3])) > 1
    reached["string that sends"] += len(after.sent) > 1
    # The single bytes, each noted as a typed one is.
    one, moves, modes = before.set, [], set()
    for byte in string:
        found = Before(one)
        modes.add(found.command_mode)
        line = b"" if byte != CR or found.over or not found.command_mode else found.line.upper()
        _, codes = one.feed(byte, carrier == 1)
        single = [row[0]] + row[1:5] + [str(code) for code in (tuple(codes) + (0, 0))[:2]]
        note_typed(reached, found, [byte, carrier], one, single)
        moves += [name for name, is_it in (("dials", line.startswith(b"ATDT")), ("answers", line == b"ATA"),
                                           ("hangs up", line in (b"ATH", b"ATH0"))) if is_it]
        reached["string that lets pluses go"] += len(one.sent) > 1
        reached["string that withholds a plus"] += one.pluses > found.pluses
        reached["string that runs over a line"] += one.over and not found.over
    for move in set(moves):
        reached[f"string that {move}"] += 1
    reached["string that hangs up and dials"] += "hangs up" in moves and moves[-1] == "dials"
    reached["string in both modes"] += len(modes) == 2
    reached["string whose carrier flag is heard"] += carrier == 1 and 2 in after.codes[::3]
    reached["string with several S12"] += len(set(after.codes[2::3])) > 1


def note_bits(reached, before, call, wall):
    """02's E7: how the reader was found and left, and what stopped it."""
    if call[0] == "U":
        string = before.kept
        reached[f"frame with start bit {int(string[0] != 0)} and stop bit {int(string[9] != 0)}"] += 1
        reached["frame whose byte reads otherwise backwards"] += string[1:9] != string[8:0:-1]
        return
    (room,), bits, place = call[1], before.kept, before.place
    taken, given = wall.bits[2:].split()
    taken, given = int(taken[6:]), 0 if given == "given=-" else len(given[6:]) // 2
    kind = lambda p: "skipping" if p == "skip" else "idle" if not p else "in a frame"
    reached[f"bits found {kind(place)}"] += 1
    reached[f"bits left {kind(wall.place)}"] += 1
    reached["bits in a frame of nine"] += len(place) == 9
    reached["bits stopped by a full buffer"] += taken < len(bits)
    reached["bits stopped with no room"] += taken < len(bits) and room == 0
    reached["all bits taken with a full buffer"] += bool(bits) and taken == len(bits) and given == room
    reached["bit that is neither 0 nor 1"] += any(bit > 1 for bit in bits)
    reached["no bits"] += not bits
    reached[f"{len(bits)} bits"] += len(bits) in (299, 300)
    reached[f"room of {room}"] += room in (0, 1, 64)
    for bit in bits[:taken]:
        frame = place + "01"[bit != 0]
        if place == "skip":
            reached["zero while skipping"] += not bit
            place = "" if bit else "skip"
        elif frame == "1":
            place = ""
        elif len(frame) < 10:
            place = frame
        else:
            reached["zero stop bit"] += not bit
            place = "" if bit else "skip"


def note_key(reached, before, numbers, after, row):
    """02's E8: the key that the last fill answered, and what that fill was."""
    reached["key asked" if after.lit else "no key asked"] += 1


def note_lit(reached, before, length, row, after):
    """What a fill answered as its key."""
    if row[0] != "0":
        reached["no key after a declined fill"] += 1
        return
    if length == 0:
        reached["no key after an empty fill"] += 1
        reached["no key after an empty fill in a tone"] += before.lit is not None
        return
    if after.state != DIALLING:
        reached[f"no key in {STATE_NAMES[after.state]}"] += 1
        return
    if after.shown != 3:
        reached["no key in another stage"] += 1
        return
    if not after.digits:
        reached["no key with no digits"] += 1
        return
    around = paper.key_of_sample(after.m - 1, after.digits, before.rate), paper.key_of_sample(after.m + 1, after.digits, before.rate)
    first = after.m == before.ends[1] + 1
    if after.lit:
        reached["key %d%d" % after.lit] += 1
        reached["key of a tone's first sample"] += first or around[0] is None
        reached["key of a tone's last sample"] += around[1] is None
    else:
        reached["no key in a gap"] += 1
        reached["no key in a gap's first sample"] += around[0] is not None
        reached["no key in a gap's last sample"] += around[1] is not None


def to_edge(s):
    return paper.symbol_clock(s.rate).to_edge(s.played)


def note_sending(reached, before, length, after):
    """02's E10: which frames a fill in Connected began, and where it ended."""
    if length == 0:
        reached["empty fill at an edge with a byte waiting"] += bool(before.waiting) and not before.rest and to_edge(before) == 0
        return
    reached["fill of one sample in Connected"] += length == 1
    reached["fill of one sample at an edge"] += length == 1 and to_edge(before) == 0
    reached["fill that ends one short of an edge"] += to_edge(after) == 1
    reached["fill that ends before an edge"] += to_edge(after) == 0
    reached["fill that ends with an edge"] += after.played - 1 in paper.symbol_clock(after.rate).edges
    begun = len(before.waiting) - len(after.waiting)
    reached["no frame begun before the edge"] += bool(before.waiting) and not before.rest and begun == 0
    reached["fill inside a frame"] += bool(before.rest) and bool(after.rest) and begun == 0
    reached["fill that ends a frame"] += bool(before.rest) and not after.rest
    reached["fill of mark alone"] += not before.rest and not begun and not before.waiting and len(after.bits) > before.begun
    reached["several frames in a fill"] += begun > 1
    reached["frame after a frame"] += begun > 1 or (begun == 1 and len(before.rest) > 0)
    if begun and not before.rest:
        reached["frame begun by the first sample after the line went up"] += before.played == 0
        reached["frame begun by a fill's first sample"] += before.played > 0 and to_edge(before) == 0
        reached["frame begun inside a fill"] += to_edge(before) > 0
        reached["frame begun by a fill's last sample"] += len(after.rest) == 9 and after.played - 1 in paper.symbol_clock(after.rate).edges
        reached["frame begun after mark"] += before.begun > 0


def note_queued(reached, before, numbers, after, row):
    """02's E10: where a byte was queued."""
    state, waiting = STATE_NAMES[before.state], len(before.waiting)
    if row[0] == "12":
        reached[f"queue full in {state}"] += 1
        return
    reached[f"byte queued in {state}"] += 1
    reached["byte queued behind others"] += waiting > 0
    reached["byte queued in the last place"] += waiting == paper.QUEUE_LIMIT - 1
    reached[f"byte {numbers[0]} queued"] += numbers[0] in (0, 255)
    if before.state == CONNECTED:
        edge = "at an edge" if to_edge(before) == 0 else "inside a symbol"
        reached[f"byte queued {edge}, {'in' if before.rest else 'outside'} a frame"] += 1
        reached["byte queued before the first sample"] += before.played == 0
        reached["byte queued in the place of one that is being sent"] += len(before.rest) > 0 and waiting == paper.QUEUE_LIMIT - 1
    reached["byte queued at an S12 of its own"] += before.s12 != paper.FRESH_S12


def note_emptied(reached, before, call, after):
    """02's E10: what emptied the queue."""
    if not before.waiting or after.waiting or call[0] == "F":
        return
    state = STATE_NAMES[before.state]
    move = {"R": "a fresh set", "W": "a lost carrier", "S": "a string"}.get(call[0])
    if move is None:
        move = {IDLE: "a hang-up", DIALLING: "a dial line", ANSWERING: "an answer"}[after.state]
    reached[f"queue emptied by {move} in {state}"] += 1
    reached["queue emptied inside a frame"] += before.state == CONNECTED and len(before.rest) > 0
    reached["queue emptied at an S12 of its own"] += before.s12 != paper.FRESH_S12
    reached["full queue emptied"] += len(before.waiting) == paper.QUEUE_LIMIT


NOTES = {"Q": note_queued, "K": note_key, "R": note_create, "T": note_typed, "W": note_lapse, "F": note_fill, "D": note_forced, "C": note_cue, "S": note_string}


# ---------------------------------------------------------------- what must be reached

def must(extended):
    """The names that have to be counted; those of --ext only where it is on."""
    names = [f"refusal {n}" for n in (0, 1)]
    names += ["mode C", "mode D", "other line"]
    names += [f"state {n}" for n in range(4)] + [f"stage {n}" for n in range(10)] + [f"ring {n}" for n in range(3)]
    names += [f"codes {c} on T" for c in ("0,0", "1,0", "2,0", "4,0", "5,1", "1,3")]
    names += [f"codes {c} on W" for c in ("0,0", "2,0", "3,0")]
    names += ["rate too low", "rate too high", "rate too long", "odd rate", "fresh set during a call"]
    names += [f"rate {r}" for r in (8_000, 11_025, 44_100, 48_000, 96_000, 192_000)]
    names += ["AT", "ATZ", "ATI", "ATA", "ATH", "ATH0", "ATO", "ATO0", "ATDP1", "AT DT1", "ATX", "line without AT"]
    names += ["CR on an empty line", "LF inside a line", "LF before a line", "lower case line"]
    names += ["line of 79 bytes", "line of 80 bytes", "byte after a full line", "LF after a full line"]
    names += ["dial line that ran over", "other line that ran over", "byte after a line that ran over"]
    names += ["LF after a line that ran over", "carrier lost with a line that ran over", "data mode forced with a line that ran over"]
    for state in STATE_NAMES:
        names += [f"{what} in {state}" for what in ("answer", "hang-up", "dial", "byte sent", "empty fill", "escape")]
        names += [f"{ato} ERROR in {state}" for ato in ("ATO", "ATO0")]
    for state in STATE_NAMES[1:]:
        names += [f"{what} in {state}" for what in ("ATO online", "ATO0 online", "carrier lost")]
    names += ["ATO with the flag up in Idle", "mark cleared by a command"]
    names += ["dial line", "byte that is no key", "lower case key", "dial line with the carrier down"]
    names += [f"{n} digits" for n in (0, 1, 2, 3, 76)] + ["other count of digits"]
    names += [f"key {k}" for k in "123A456B789C*0#D"]
    names += [f"plus {n} withheld" for n in (1, 2, 3)] + [f"plus {n} withheld at 1 s" for n in (1, 2, 3)]
    names += [f"{n} pluses sent" for n in (1, 2, 3, 4)] + [f"{n} held pluses sent" for n in (1, 2, 3)]
    names += ["plus sent 1 ns early", "plus 2 sent 1 ns late", "plus 3 sent 1 ns late", "LF sent"]
    names += ["plus that broke an escape after a second"]
    names += ["escape at 1 s", "escape 1 ns short of 1 s", "idle at its largest"]
    names += [f"S12 set to {n}" for n in (0, 1, 49, 50, 51, 255)] + ["S12 set to another", "S12 with leading zeros", "ATS12?", "codes 6,1 on T"]
    names += ["other form of an S12 line", "S12 of 256", "S12 of four digits", "S12 of none", "ATZ at an S12 of its own", "ATH at an S12 of its own"]
    names += [f"plus {n} withheld at an S12 of its own" for n in (1, 2, 3)] + ["plus withheld at S12 0"]
    names += [f"plus sent 1 ns {when} at an S12 of its own" for when in ("early", "late")]
    names += ["escape at an S12 of its own", "escape 1 ns short of an S12 of its own", "escape by a lapse of 0 ns"]
    names += ["carrier up in Idle", "carrier seen in command mode", "carrier seen in data mode"]
    names += ["carrier seen as an escape ends", "down time zeroed", "down time in pieces", "down time at its largest"]
    names += ["carrier kept at 699,999,999 ns", "carrier lost at 700 ms", "carrier lost in command mode"]
    names += ["carrier lost in data mode", "carrier lost with pluses held", "carrier lost with part of a line"]
    names += ["fill in Idle", "fill in Dialling", "fill in Answering", "fill in Connected", "first fill empty"]
    names += [f"empty fill at the end of stage {n}" for n in range(1, 9)]
    names += [f"fill ends at the end of stage {n}" for n in range(1, 10)]
    names += [f"fill ends one short of the end of stage {n}" for n in range(1, 10)]
    names += [f"fill ends one past the end of stage {n}" for n in range(1, 9)]
    names += ["line up by an empty fill at T", "line up by a fill from T", "line up by a fill over T"]
    names += ["line up one past T", "fill over two stage ends", "fill of mark alone"]
    names += ["data mode forced", "data mode forced inside a line", "data mode forced with pluses held"]
    if extended:
        names += ["refusal 2", "refusal 3", "outbox too short in command mode", "outbox too short in data mode"]
        names += [f"outbox of {n}" for n in range(4)]
        names += [f"fill too long in {state}" for state in STATE_NAMES] + ["fill of 65,536"]
        names += ["refusal 7", "cue of the first digit", "cue of the last digit", "cue of the 76th digit"]
        names += ["cue of a digit that was heard", "cue on a whole place", "cue one after a whole place", "cue off a whole place"]
        names += [f"cue declined: {why}" for why in ("no such digit", "Idle", "Answering", "Connected")]
        names += ["cue at position d", "cue with no digits"]
        names += ["key asked", "no key asked"] + ["key %d%d" % (row, column) for row in range(4) for column in range(4)]
        names += ["key of a tone's first sample", "key of a tone's last sample"]
        names += ["no key in a gap", "no key in a gap's first sample", "no key in a gap's last sample", "no key in another stage"]
        names += ["no key with no digits", "no key after an empty fill", "no key after an empty fill in a tone", "no key after a declined fill"]
        names += [f"no key in {state}" for state in STATE_NAMES if state != "Dialling"]
        names += ["refusal 8", "refusal 9", "byte kept", "byte passed over", "string of 257 bytes declined", "string of 300 bytes declined"]
        names += ["string too long and without room", "string with its outbox a byte short", "string with its codes a place short"]
        names += ["string with both buffers short", "declined string that would dial", "string with just enough room"]
        names += [f"string of {n} bytes" for n in (0, 1, 256)] + ["string of other length", "string with more room than that"]
        names += [f"string in {state}" for state in STATE_NAMES] + ["string in both modes", "string whose carrier flag is heard"]
        names += ["string with several S12", "string with two codes of a byte", "string with codes of several bytes", "string that sends"]
        names += ["string that lets pluses go", "string that withholds a plus", "string that runs over a line"]
        names += ["refusal 11", "frame of nine bits", "frame of eleven bits", "frame of no bits"]
        names += [f"frame with start bit {a} and stop bit {b}" for a in (0, 1) for b in (0, 1)] + ["frame whose byte reads otherwise backwards"]
        names += [f"bits {how} {kind}" for how in ("found", "left") for kind in ("idle", "in a frame", "skipping")] + ["bits in a frame of nine"]
        names += ["bits stopped by a full buffer", "bits stopped with no room", "all bits taken with a full buffer", "bit that is neither 0 nor 1"]
        names += ["no bits", "299 bits", "300 bits", "room of 0", "room of 1", "room of 64", "zero stop bit", "zero while skipping"]
        names += ["place set back by a fresh set", "place set back by a declined one"]
        names += [f"string that {what}" for what in ("dials", "answers", "hangs up", "hangs up and dials")]
        names += ["refusal 12"] + [f"{what} in {state}" for what in ("byte queued", "queue full") for state in STATE_NAMES]
        names += ["byte queued behind others", "byte queued in the last place", "byte queued in the place of one that is being sent"]
        names += [f"byte queued {where}, {how} a frame" for where in ("at an edge", "inside a symbol") for how in ("in", "outside")]
        names += ["byte 0 queued", "byte 255 queued", "byte queued before the first sample", "byte queued at an S12 of its own"]
        names += ["line up with bytes waiting", "line up after a frame that was cut off"]
        names += ["empty fill at an edge with a byte waiting", "fill of one sample in Connected", "fill of one sample at an edge"]
        names += ["fill that ends one short of an edge", "fill that ends before an edge", "fill that ends with an edge"]
        names += ["no frame begun before the edge", "fill inside a frame", "fill that ends a frame", "several frames in a fill", "frame after a frame"]
        names += [f"frame begun {where}" for where in ("by the first sample after the line went up", "by a fill's first sample", "inside a fill", "by a fill's last sample", "after mark")]
        names += [f"queue emptied by {what} in {state}" for what in ("a hang-up", "a dial line", "an answer", "a fresh set", "a string") for state in STATE_NAMES]
        names += [f"queue emptied by a lost carrier in {state}" for state in STATE_NAMES if state != "Idle"]
        names += ["queue emptied inside a frame", "queue emptied at an S12 of its own", "full queue emptied"]
    return names


def missing(reached, extended):
    return [name for name in must(extended) if not reached[name]]


def table(reached):
    """The counts as text, in the order in which `must` names them, then the rest."""
    named = must(True)
    rest = sorted(name for name in reached if name not in set(named) and reached[name])
    return "\n".join(f"{reached[name]:>8}  {name}" for name in named + rest)
