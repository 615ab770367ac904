"""Document 01 in plain Python, and what has landed of 02, written from the papers and not from the Rust.

Python's floats are binary64 and each operation rounds once, so lengths and samples come
out exactly. The generator steers by it, the counter of what a script reached reads lines
by it, and tests/oracle/check holds the oracle against it.
"""

import bisect
import functools
import itertools
import math
import struct

LOWEST_RATE, HIGHEST_RATE = 8_000, 192_000
LARGEST_U64 = 2**64 - 1
SECOND = 1_000_000_000
CARRIER_HOLD = 700_000_000
FRESH_S12, S12_UNIT = 50, 20_000_000
LINE_LIMIT = 80
FILL_LIMIT = 65_536
OUTBOX_NEEDED = 4
STRING_LIMIT = 256
QUEUE_LIMIT = 256
KEPT = 300
CR, LF, PLUS = 13, 10, 43

IDLE, DIALLING, ANSWERING, CONNECTED = range(4)
OK, CONNECT, NO_CARRIER, ERROR, IDENTIFICATION, TELL_S12 = range(1, 7)

# ---------------------------------------------------------------- Floats

TAU, H, Q = 6.283185307179586, 3.141592653589793, 1.5707963267948966


def sine(x):
    """S(x)."""
    if not 0 <= x < TAU:
        return 0.0
    y = x - H if x >= H else x
    if y > Q:
        y = H - y
    z = y * y
    p = 1.0
    for c in (210, 156, 110, 72, 42, 20, 6):
        p = 1 - (z / c) * p
    return -(y * p) if x >= H else y * p


def decay(u):
    """E(u)."""
    if not 0 <= u < 8:
        return 0.0
    w = u / 256
    p = 1.0
    for c in (4, 3, 2, 1):
        p = 1 - (w / c) * p
    for _ in range(8):
        p = p * p
    return p


def half_away(x):
    whole = math.floor(x)
    return whole + 1 if x - whole >= 0.5 else whole


def narrowed_bits(sample):
    """The f32's bits; `struct` rounds to nearest, ties to even."""
    if not abs(sample) < 2:
        sample = 0.0
    return struct.unpack("<I", struct.pack("<f", sample))[0]


class Oscillator:
    def __init__(self, frequency, rate):
        self.phase, self.rate = 0.0, float(rate)
        self.tune(frequency)

    def tune(self, frequency):
        self.step = (TAU * frequency) / self.rate

    def next(self):
        sample = sine(self.phase)
        self.phase = self.phase + self.step
        if self.phase >= TAU:
            self.phase = self.phase - TAU
        return sample


# ---------------------------------------------------------------- Keys and frames

ROWS = {697: "123A", 770: "456B", 852: "789C", 941: "*0#D"}
COLUMNS = (1209, 1336, 1477, 1633)
KEYS = {ord(k): (row, col) for row, keys in ROWS.items() for k, col in zip(keys, COLUMNS)}


def sets_s12(line):
    """02's E6: one to three decimal digits up to 255."""
    number = line[6:]
    return line.startswith(b"ATS12=") and 1 <= len(number) <= 3 and all(48 <= b <= 57 for b in number) and int(number) <= 255


def digits_of(line_after_atdt):
    return bytes(b for b in bytes(line_after_atdt).upper() if b in KEYS)


def frame(byte):
    return [0] + [byte >> i & 1 for i in range(8)] + [1]


def bits_of(payload):
    return [bit for byte in payload for bit in frame(byte)]


# ---------------------------------------------------------------- Stages

PAYLOADS = {5: b"CICICI", 7: b"CMJMCMJM", 8: b"CJCJCJ", 9: bytes([0x55] * 30)}


def seconds(s, rate):
    """R(s)."""
    return half_away(s * rate)


def digit_at(n, rate):
    """Digit position and whether in tone, once n samples of Dialling are written."""
    t = n / rate
    i = math.floor(t / 0.2)
    return i, t - i * 0.2 < 0.1


def dialling_length(count, rate):
    if count == 0:
        return 1
    # The clock never runs backwards, so the search may start a little early.
    n = max(1, count * rate // 5 - 2)
    while digit_at(n, rate)[0] < count:
        n += 1
    return n


def first_sample(position, rate):
    """02's E2: the first sample of a digit's tone, numbered from 1 in the whole overture."""
    # The clock never runs backwards, so the search may start a little early.
    n = max(0, position * rate // 5 - 2)
    while digit_at(n, rate) != (position, True):
        n += 1
    return seconds(0.05, rate) + seconds(1, rate) + n + 1


KEYPAD = b"123A456B789C*0#D"


def key_of(digit):
    """02's E8: a digit's row and column."""
    return divmod(KEYPAD.index(digit), 4)


def key_of_sample(m, digits, rate):
    """02's E8: the key in whose tone sample m of the overture is, which is one of Dialling's; None in a gap."""
    position, tone = digit_at(m - 1 - seconds(0.05, rate) - seconds(1, rate), rate)
    return key_of(digits[position]) if tone and position < len(digits) else None


@functools.lru_cache(maxsize=4096)
def bits_length(count, rate):
    """Samples until `count` bits are done, by the symbol phase."""
    phase, step, done, n = 0.0, 300 / rate, 0, 0
    while done < count:
        phase += step
        n += 1
        if phase >= 1:
            phase -= 1
            done += 1
    return n


@functools.lru_cache(maxsize=4096)
def stage_ends(digit_count, rate):
    """The overture's sample counts at which stages 1 to 9 end; the last is T."""
    lengths = [
        seconds(0.05, rate),
        seconds(1, rate),
        dialling_length(digit_count, rate),
        seconds(4, rate),
        bits_length(60, rate),
        seconds(3, rate),
        bits_length(80, rate),
        bits_length(60, rate) + seconds(0.075, rate),
        bits_length(300, rate),
    ]
    ends, total = [], 0
    for length in lengths:
        total += length
        ends.append(total)
    return tuple(ends)


def stage_of(sample, digit_count, rate):
    """The stage of a sample, numbered from 1."""
    return bisect.bisect_left(stage_ends(digit_count, rate), sample) + 1


def ring_after(count, digit_count, rate):
    """The ring reported once `count` samples are written."""
    if stage_of(count + 1, digit_count, rate) != 4:
        return 0
    written = count - stage_ends(digit_count, rate)[2]
    return 2 if written > 0 and (written - 1) / rate >= 3 else 1


def mixed(a, b):
    return a.next() * 0.45 + b.next() * 0.45


def off_hook(rate):
    seed, wide = 0x2545F4914F6CDD1D, 2**64
    for n in range(seconds(0.05, rate)):
        seed ^= (seed << 13) % wide
        seed ^= seed >> 7
        seed ^= (seed << 17) % wide
        yield ((seed >> 40) / 8388608 - 1) * 0.4 * decay(n / rate / 0.008)


def dial_tone(rate):
    a, b = Oscillator(350, rate), Oscillator(450, rate)
    for _ in range(seconds(1, rate)):
        yield mixed(a, b)


def dialling(digits, rate):
    if not digits:
        yield 0.0
        return
    pair, n = (0, True), 0
    a, b = (Oscillator(f, rate) for f in KEYS[digits[0]])
    while True:
        yield mixed(a, b) if pair[1] else 0.0
        n += 1
        now = digit_at(n, rate)
        if now[0] >= len(digits):
            return
        if now != pair:
            pair = now
            if pair[1]:
                a, b = (Oscillator(f, rate) for f in KEYS[digits[pair[0]]])


def ringback(rate):
    a, b = Oscillator(400, rate), Oscillator(450, rate)
    for n in range(seconds(4, rate)):
        t = n / rate
        if t >= 3:
            t = t - 3
        yield mixed(a, b) if t < 0.4 or 0.4 + 0.2 <= t < 1 else 0.0


def keyed(payload, rate):
    bits = bits_of(payload)
    tone = lambda bit: 980 if bit else 1180
    oscillator, phase, step, done = Oscillator(tone(bits[0]), rate), 0.0, 300 / rate, 0
    while done < len(bits):
        yield oscillator.next() * 0.7
        phase += step
        if phase >= 1:
            phase -= 1
            done += 1
            if done < len(bits):
                oscillator.tune(tone(bits[done]))


def ansam(rate):
    carrier, swing = Oscillator(2100, rate), Oscillator(15, rate)
    for n in range(seconds(3, rate)):
        sign = 1.0 if math.floor(n / rate / 0.45) % 2 == 0 else -1.0
        yield ((carrier.next() * sign) * (1 + 0.3 * swing.next())) * 0.7


def overture(digits, rate):
    """The samples of stages 1 to 9, before narrowing."""
    yield from off_hook(rate)
    yield from dial_tone(rate)
    yield from dialling(digits, rate)
    yield from ringback(rate)
    yield from keyed(PAYLOADS[5], rate)
    yield from ansam(rate)
    yield from keyed(PAYLOADS[7], rate)
    yield from keyed(PAYLOADS[8], rate)
    yield from (0.0 for _ in range(seconds(0.075, rate)))
    yield from keyed(PAYLOADS[9], rate)


# ---------------------------------------------------------------- 02's E10, sound after Connected

class SymbolClock:
    """Which of the sender's samples, from 0, are edges, by the symbol phase; worked out as far as was asked."""

    def __init__(self, rate):
        self.step, self.phase, self.n, self.edges = 300 / rate, 0.0, 0, [0]

    def begun(self, count):
        """How many symbols have begun once `count` samples are made."""
        while self.n <= count:
            self.phase += self.step
            self.n += 1
            if self.phase >= 1:
                self.phase -= 1
                self.edges.append(self.n)
        return bisect.bisect_left(self.edges, count)

    def to_edge(self, count):
        """How many samples are made before the next edge's; none where that is the next."""
        while self.edges[-1] < count:
            self.begun(self.n + 1)
        return self.edges[bisect.bisect_left(self.edges, count)] - count


symbol_clock = functools.lru_cache(maxsize=None)(SymbolClock)


def sent_wave(bits, rate):
    """The samples since the line went up, before narrowing. `bits` grows as symbols begin."""
    oscillator, phase, step = Oscillator(1270, rate), 0.0, 300 / rate
    for symbol in itertools.count():
        oscillator.tune(1270 if bits[symbol] else 1070)
        while phase < 1:
            yield oscillator.next() * 0.7
            phase += step
        phase -= 1


# ---------------------------------------------------------------- The set

class Set:
    """01's set without its sound: what every call answers, and the book behind it."""

    def __init__(self, rate=LOWEST_RATE):
        self.rate = rate
        self.state, self.digits, self.m, self.shown = IDLE, b"", 0, 0
        self.command_mode, self.line, self.over = True, b"", False
        self.pluses, self.idle, self.s12 = 0, 0, FRESH_S12
        self.seen, self.down = False, 0
        self.sent, self.cued, self.codes = b"", 0, b""
        self.lit, self.cued_key = None, None
        self.waiting = b""
        self.line_goes_up()

    # Each call gives (refusal, codes); `sent` holds what the last one sent.

    def feed(self, byte, carrier, outbox=16):
        self.sent = b""
        if outbox < OUTBOX_NEEDED:
            return 2, ()
        if not self.command_mode:
            self.data_byte(byte)
            return 0, ()
        if byte == LF:
            return 0, ()
        if byte == CR:
            line, over, self.line, self.over = self.line, self.over, b"", False
            if over:
                return 0, (ERROR,)
            return 0, self.execute(line.upper(), carrier and self.state != IDLE) if line else ()
        if len(self.line) == LINE_LIMIT:
            self.over = True
            return 0, ()
        self.line += bytes([byte])
        return 0, ()

    def feed_all(self, string, carrier, outbox, places):
        """02's E3 and E6; `codes` holds two of them and S12 a byte."""
        self.sent, self.codes = b"", b""
        if len(string) > STRING_LIMIT:
            return 8, ()
        if outbox < OUTBOX_NEEDED * len(string) or places < 3 * len(string):
            return 9, ()
        sent, all_codes = b"", b""
        for byte in string:
            _, codes = self.feed(byte, carrier)
            sent += self.sent
            all_codes += bytes((tuple(codes) + (0, 0))[:2]) + bytes([self.s12])
        self.sent, self.codes = sent, all_codes
        return 0, ()

    def advance_time(self, lapse, carrier):
        self.sent = b""
        if not self.command_mode:
            self.idle = min(self.idle + lapse, LARGEST_U64)
            if self.pluses == 3 and self.idle >= self.guard():
                self.pluses, self.idle, self.command_mode = 0, 0, True
        if carrier and self.state != IDLE:
            self.down = 0
            if not self.seen:
                self.seen = True
                if not self.command_mode:
                    return 0, (CONNECT,)
        elif self.seen:
            self.down = min(self.down + lapse, LARGEST_U64)
            if self.down >= CARRIER_HOLD:
                self.move(IDLE)
                self.command_mode, self.pluses, self.idle, self.down = True, 0, 0, 0
                return 0, (NO_CARRIER,)
        return 0, ()

    def force_data_mode(self):
        self.sent = b""
        self.online()
        return 0, ()

    def process_out(self, length):
        self.sent, self.lit = b"", None
        if length > FILL_LIMIT:
            return 3, ()
        if self.state == CONNECTED:
            self.play(length)
        if self.state == DIALLING:
            self.m += length
            sample = self.m if length > 0 else self.m + 1
            self.shown = stage_of(sample, len(self.digits), self.rate)
            if self.shown == 3 and length > 0:
                self.lit = key_of_sample(self.m, self.digits, self.rate)
            if self.shown == 10:
                self.state, self.shown = CONNECTED, 0
                self.line_goes_up()
        return 0, ()

    def line_goes_up(self):
        """02's E10: the sender is fresh: samples made, bits of the symbols begun, bits of a frame not begun."""
        self.played, self.bits, self.rest = 0, [], ()
        self.wave = sent_wave(self.bits, self.rate)

    def play(self, length):
        self.played += length
        while len(self.bits) < symbol_clock(self.rate).begun(self.played):
            if not self.rest and self.waiting:
                self.rest, self.waiting = tuple(frame(self.waiting[0])), self.waiting[1:]
            self.bits.append(self.rest[0] if self.rest else 1)
            self.rest = self.rest[1:]

    def queue_byte(self, byte):
        self.sent = b""
        if len(self.waiting) == QUEUE_LIMIT:
            return 12, ()
        self.waiting += bytes([byte])
        return 0, ()

    def ring(self):
        if self.state != DIALLING:
            return 0
        return ring_after(self.m, len(self.digits), self.rate)

    def cue(self, position):
        """02's E2; `cued` holds the sample, and `cued_key` 02's E8."""
        self.sent, self.cued, self.cued_key = b"", 0, None
        if self.state != DIALLING or position >= len(self.digits):
            return 7, ()
        self.cued, self.cued_key = first_sample(position, self.rate), key_of(self.digits[position])
        return 0, ()

    def length(self):
        """T for the digits dialled."""
        return stage_ends(len(self.digits), self.rate)[-1]

    # What the calls are made of.

    def guard(self):
        return self.s12 * S12_UNIT

    def online(self):
        self.command_mode, self.pluses, self.idle = False, 0, 0

    def move(self, state):
        """Dial, answer and hang-up: count and shown stage to 0, the mark cleared, nothing waits."""
        self.state, self.m, self.shown, self.seen, self.waiting = state, 0, 0, False, b""

    def execute(self, line, carrier):
        if line == b"AT":
            return (OK,)
        if line == b"ATZ":
            self.pluses, self.idle, self.s12 = 0, 0, FRESH_S12
            return (OK,)
        if line == b"ATI":
            return IDENTIFICATION, OK
        if line == b"ATA":
            self.move(ANSWERING)
            self.online()
            return (OK,)
        if line in (b"ATH", b"ATH0"):
            self.move(IDLE)
            return OK, NO_CARRIER
        if line in (b"ATO", b"ATO0"):
            if not carrier:
                return (ERROR,)
            self.online()
            return (CONNECT,)
        if line.startswith(b"ATDT"):
            self.move(DIALLING)
            self.digits = digits_of(line[4:])
            self.online()
            return (OK,)
        if line == b"ATS12?":
            return TELL_S12, OK
        if sets_s12(line):
            self.s12 = int(line[6:])
            return (OK,)
        return (ERROR,)

    def data_byte(self, byte):
        opens = self.pluses == 0 and self.idle >= self.guard()
        extends = self.pluses in (1, 2) and self.idle <= self.guard()
        if byte == PLUS and (opens or extends):
            self.pluses += 1
        else:
            self.sent = b"+" * self.pluses + bytes([byte])
            self.pluses = 0
        self.idle = 0


# ---------------------------------------------------------------- The lines of `wall`

def parsed(line, extended=False):
    """A line's letter and numbers, or None for an other line. `line` is bytes without LF."""
    letter, *fields = line.split(b",")
    if not all(field and all(48 <= b <= 57 for b in field) for field in fields):
        return None
    # Python refuses to read thousands of digits; zeros in front are what makes them.
    numbers = [int(field.lstrip(b"0")[:40] or b"0") for field in fields]
    limits = {
        (b"R", 1): (None,),
        (b"T", 2): (255, 1),
        (b"W", 2): (LARGEST_U64, 1),
        (b"F", 1): (70_000 if extended else 16_384,),
        (b"D", 0): (),
    }
    if extended:
        limits[b"T", 3] = (255, 1, 16)
        limits[b"C", 1] = (255,)
        limits[b"M", 1] = (255,)
        limits[b"S", 3] = (1, 1_200, 1_200)
        limits[b"B", 1] = (64,)
        limits[b"U", 0] = ()
        limits[b"K", 0] = ()
        limits[b"Q", 1] = (255,)
    limit = limits.get((letter, len(numbers)))
    if limit is None or any(most is not None and n > most for n, most in zip(numbers, limit)):
        return None
    return letter.decode(), numbers


def byte_of(frame):
    """The byte of a frame's bits, which are text."""
    return bytes([int(frame[8:0:-1], 2)])


def shown_samples(bits):
    """A fill's samples as the second line tells them."""
    if len(bits) <= 8:
        return f" n={len(bits)}" + "".join(f" {word:08X}" for word in bits)
    value = 0xCBF29CE484222325
    for byte in b"".join(word.to_bytes(4, "little") for word in bits):
        value = (value ^ byte) * 0x100000001B3 % 2**64
    return f" n={len(bits)} fnv={value:016X}"


def shown_key(key):
    return "%d%d" % key if key else "-"


class Wall:
    """The program `wall`: lines in, answers out."""

    def __init__(self):
        self.set, self.kept = Set(), b""
        # 02's E7: the bits of an unfinished frame, "skip" after a bad stop bit, and what the last call told
        self.place, self.bits = "", ""

    def perform(self, call):
        letter, numbers = call
        if letter == "R":
            rate = numbers[0]
            refused = not LOWEST_RATE <= rate <= HIGHEST_RATE
            self.set, self.place = Set(LOWEST_RATE if refused else rate), ""
            return (1 if refused else 0), ()
        if letter == "T":
            return self.set.feed(numbers[0], numbers[1] == 1, *numbers[2:])
        if letter == "W":
            return self.set.advance_time(numbers[0], numbers[1] == 1)
        if letter == "F":
            return self.set.process_out(numbers[0])
        if letter == "C":
            return self.set.cue(numbers[0])
        if letter == "B":
            return self.read_bits(numbers[0])
        if letter == "U":
            return self.take_frame()
        if letter == "K":
            return 0, ()
        if letter == "Q":
            return self.set.queue_byte(numbers[0])
        if letter == "S":
            string, self.kept = self.kept, b""
            return self.set.feed_all(string, numbers[0] == 1, *numbers[1:])
        return self.set.force_data_mode()

    def read_bits(self, room):
        """02's E7: the string as bits; a frame's bits are kept as text."""
        string, self.kept, given, taken = self.kept, b"", b"", 0
        for bit in string:
            frame = self.place + "01"[bit != 0]
            if self.place == "skip":
                self.place = "" if bit else "skip"
            elif frame == "1":
                self.place = ""
            elif len(frame) < 10:
                self.place = frame
            elif not bit:
                self.place = "skip"
            elif len(given) == room:
                break
            else:
                given, self.place = given + byte_of(frame), ""
            taken += 1
        self.bits = f"# taken={taken} given={given.hex().upper() or '-'}"
        return 0, ()

    def take_frame(self):
        frame, self.kept = "".join("01"[bit != 0] for bit in self.kept), b""
        good = frame[0] == "0" and frame[9] == "1"
        self.bits = f"# byte={byte_of(frame).hex().upper() if good else '-'}"
        return (0 if good else 11), ()

    def answer(self, call):
        """The line printed; None for M, and for U with other than ten bytes, which print nothing."""
        if call[0] == "M":
            self.kept = (self.kept + bytes(call[1]))[:KEPT]
            return None
        if call[0] == "U" and len(self.kept) != 10:
            self.kept = b""
            return None
        refusal, codes = self.perform(call)
        first, second = (tuple(codes) + (0, 0))[:2]
        s = self.set
        mode = "C" if s.command_mode else "D"
        return f"{refusal},{mode},{s.state},{s.shown},{s.m},{first},{second}"

    def facts(self, call):
        """The part of the oracle's second line that needs no samples."""
        if call[0] == "C":
            return f"# cue={self.set.cued} key={shown_key(self.set.cued_key)}"
        if call[0] == "K":
            return f"# key={shown_key(self.set.lit)}"
        if call[0] in "BU":
            return self.bits
        sent = f"# ring={self.set.ring()} sent={self.set.sent.hex().upper() or '-'}"
        return f"{sent} codes={self.set.codes.hex().upper() or '-'}" if call[0] == "S" else sent


def lines_of(script):
    """A script's lines, as `wall` splits them: by LF, the last one with or without."""
    lines = script.split(b"\n")
    return lines[:-1] if lines[-1] == b"" else lines
