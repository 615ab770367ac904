"""Random scripts: lines of `wall`, decided by a seed.

A script is a row of scenes, each about one rule of 01; 01 in Python (paper.py) is stepped
along so that a scene can aim at the edge of a rule.
"""

import random

import paper
from paper import CARRIER_HOLD, CONNECTED, CR, DIALLING, IDLE, LARGEST_U64, LF, PLUS, SECOND

USUAL_RATES = (8_000, 11_025, 44_100, 48_000, 96_000, 192_000)
BAD_RATES = (0, 1, 7_999, 192_001, 4_294_967_296 + 8_000, 2**64 + 8_000, 10**30)
GUARDS = (SECOND - 1, SECOND, SECOND + 1)
COMMANDS = (
    b"AT", b"ATZ", b"ATI", b"ATA", b"ATH", b"ATH0", b"ATO", b"ATO0",
    b"ATDP1", b"AT DT1", b"ATX", b"ATDX", b"ATD", b"ATDT", b"ATDT12", b"ATDTABCDEF", b"A", b"T",
    b"TA", b" AT", b"AT ", b"ATZ0", b"ATH1", b"ATH00", b"ATO1", b"ATI0", b"ATAA", b"ATAT", b"+++ATH0",
)
STRINGS = (b"ATH\rATDT12", b"ATDT5551234", b"ATA", b"ATI", b"ATO", b"ATH0\rATA", b"ATDT1\rabc")
BLOCKS = (64, 128, 160, 256, 441, 480, 512, 1_024, 2_048, 4_096, 8_192, 16_383, 16_384)
KEYS = b"0123456789*#ABCDabcd"
S12S = (0, 1, 2, 49, 50, 51, 127, 255)
S12_FORMS = (
    b"ATS12", b"ATS12=", b"ATS12=256", b"ATS12=300", b"ATS12=999", b"ATS12=0050", b"ATS12=1000", b"ATS12=5X", b"ATS12=X5", b"ATS12= 5",
    b"ATS12=5 ", b"ATS12=+5", b"ATS12=-1", b"ATS12:5", b"ATS12==5", b"ATS12??", b"ATS12 ?", b"ATS125", b"ATS012=5", b"ATS1=5", b"ATS2=43",
)
NO_KEYS = b" -()EFGZefgz,.+\x00\x7f\x80\xc3\xff"
OTHER_LINES = (
    b"", b" ", b"R", b"R,", b"R,8000,", b"R,8000,1", b"R,8000 ", b"R 8000", b"R,-8000", b"R,+8000",
    b"R,8e3", b"r,8000", b"T", b"T,65", b"T,65,", b"T,,0", b"T,256,0", b"T,65,2", b"T,65,0,99", b"T,65,0,4,4",
    b"T,A,0", b"t,65,0", b"W", b"W,1", b"W,1,2", b"W,18446744073709551616,0", b"W,1,0,0", b"W,,0", b"W,1.5,0",
    b"F", b"F,", b"F,-1", b"F,70001", b"F,18446744073709551617", b"F,1,1", b"F,0x10", b"D,", b"D,0", b"D ",
    b"d", b"DD", b"X", b"X,1", b"0", b",", b",,", b"R,8000\r", b"D\r", b"F,1\r", b"\xff\xfe", b"T,65,0\x00",
    b"# ring=0", b"0,C,0,0,0,0,0", b"C", b"C,", b"C,256", b"C,0,0", b"c,0", b"C,-1", b"C,18446744073709551616", b"# cue=0",
    b"M", b"M,", b"M,256", b"M,65,0", b"m,65", b"S", b"S,0", b"S,0,4", b"S,2,4,2", b"S,0,1201,2", b"S,0,4,1201", b"S,0,4,2,0", b"s,0,4,2",
    b"B", b"B,", b"B,65", b"B,64,0", b"b,64", b"B,-1", b"U,", b"U,0", b"u", b"UU",
    b"K,", b"K,0", b"KK", b"k", b"K ", b"K\r", b"# key=00",
    b"Q", b"Q,", b"Q,256", b"Q,65,0", b"q,65", b"Q,-1", b"Q,18446744073709551616", b"QQ", b"Q 65", b"Q,65\r",
)


class Script:
    def __init__(self, seed, extended):
        self.random = random.Random(seed)
        self.extended = extended
        self.longest_fill = 65_536 if extended else 16_384
        self.wall = paper.Wall()
        self.lines = []

    # ------------------------------------------------------------ single lines

    @property
    def set(self):
        return self.wall.set

    def put(self, line):
        self.lines.append(line)
        call = paper.parsed(line, self.extended)
        if call:
            self.wall.answer(call)

    def number(self, n):
        """Decimal, now and then with zeros in front."""
        zeros = self.random.choice((1, 2, 30)) if self.random.random() < 0.01 else 0
        return b"0" * zeros + str(n).encode()

    def create(self, rate):
        self.put(b"R," + self.number(rate))

    def type_byte(self, byte, carrier=None):
        line = b"T," + self.number(byte) + b"," + self.flag(carrier)
        if self.extended and self.random.random() < 0.1:
            line += b"," + self.number(self.random.choice((0, 3, 4, 4, 5, 16)))
        self.put(line)

    def type_text(self, text, carrier=None):
        for byte in text:
            self.type_byte(byte, carrier)

    def lapse(self, nanos, carrier=None):
        self.put(b"W," + self.number(nanos) + b"," + self.flag(carrier))

    def fill(self, length):
        self.put(b"F," + self.number(length))

    def flag(self, carrier):
        if carrier is None:
            carrier = self.random.random() < 0.3
        return b"1" if carrier else b"0"

    def chance(self, p):
        return self.random.random() < p

    # ------------------------------------------------------------ ways to a state

    def lapse_in_pieces(self, nanos, carrier):
        """The same time in one lapse or several, empty ones too."""
        pieces = self.random.choice((1, 1, 2, 3))
        cuts = sorted(self.random.randint(0, nanos) for _ in range(pieces - 1))
        for start, end in zip([0] + cuts, cuts + [nanos]):
            self.lapse(end - start, carrier)

    def to_command_mode(self):
        if self.set.command_mode:
            return
        if self.set.seen and self.chance(0.2):
            self.lapse_in_pieces(CARRIER_HOLD, False)
            return
        carrier = self.set.seen or self.chance(0.2)
        if self.set.pluses in (1, 2):
            self.put(b"T,120,0")
        self.lapse(self.set.guard(), carrier)
        while not self.set.command_mode and self.set.pluses < 3:
            self.put(b"T,43,0")
        self.lapse(self.set.guard(), carrier)

    def to_data_mode(self):
        if self.set.command_mode:
            self.put(b"D")

    def enter(self, text, carrier=None):
        """A command line: any case, an LF here and there, CR."""
        self.to_command_mode()
        if self.set.line and self.chance(0.8):
            self.put(b"T,13,0")
            self.to_command_mode()
        if self.extended and self.chance(0.15):
            self.type_string(text + b"\r", carrier)
            return
        for byte in text:
            if self.chance(0.03):
                self.type_byte(LF, carrier)
            self.type_byte(ord(chr(byte).lower()) if self.chance(0.2) and byte < 128 else byte, carrier)
        self.type_byte(CR, carrier)

    def dial_line(self):
        count = self.random.choice((0, 0, 1, 2, 2, 3, 3, 4, 7, 11, 40, 76, self.random.randint(0, 76)))
        text = bytes(self.random.choice(KEYS) for _ in range(count))
        for _ in range(self.random.choice((0, 0, 1, 3))):
            if len(text) < 76:
                at = self.random.randint(0, len(text))
                text = text[:at] + bytes([self.random.choice(NO_KEYS)]) + text[at:]
        self.enter(b"ATDT" + text)

    def to_call(self):
        """Any state but Idle."""
        if self.set.state == IDLE:
            if self.chance(0.3):
                self.enter(b"ATA")
            else:
                self.dial_line()

    def go_to(self, target):
        """Fills until `target` samples are written, where that is not too far."""
        far = target - self.set.m
        if far < 0 or far > 40 * self.longest_fill:
            return
        while self.set.state == DIALLING and self.set.m < target:
            left = target - self.set.m
            length = self.random.choice(BLOCKS) if self.chance(0.05) else self.longest_fill
            self.fill(min(left, length))

    # ------------------------------------------------------------ scenes

    def some_rate(self):
        pick = self.random.random()
        if pick < 0.35:
            return self.random.randint(8_000, 16_000)
        if pick < 0.5:
            return self.random.randint(8_000, 192_000)
        if pick < 0.6:
            return self.random.choice((8_001, 191_999, 192_000))
        return self.random.choice(USUAL_RATES + (8_000,) * 4)

    def scene_fresh(self):
        if self.chance(0.2):
            self.create(self.random.choice(BAD_RATES))
        else:
            self.create(self.some_rate())

    def scene_command(self):
        for _ in range(self.random.randint(1, 3)):
            self.enter(self.random.choice(COMMANDS))

    def scene_empty_line(self):
        self.to_command_mode()
        for _ in range(2):
            self.type_byte(self.random.choice((CR, LF)))

    def scene_dial(self):
        self.dial_line()
        if self.chance(0.3):
            self.fill(0)
        for _ in range(self.random.randint(1, 4)):
            self.scene_fill()

    def scene_fill(self):
        if self.set.state != DIALLING:
            self.fill(self.random.choice((0, 1, 8, 9, 160)))
            return
        pick = self.random.random()
        if pick < 0.2:
            self.fill(self.random.choice((0, 0, 1, 2, 3, 5, 8, 9, 17)))
        elif pick < 0.35:
            self.fill(self.random.choice(BLOCKS))
        elif pick < 0.7:
            self.scene_stage_end()
        elif pick < 0.85:
            self.scene_line_up()
        else:
            self.scene_inner_edge()

    def scene_stage_end(self):
        """To a stage's end, one short of it or one past it; then small fills."""
        if self.set.state != DIALLING:
            return
        ends = [e for e in paper.stage_ends(len(self.set.digits), self.set.rate) if e > self.set.m]
        if ends:
            self.go_to(self.random.choice(ends) + self.random.choice((-1, 0, 0, 0, 1)))
            for _ in range(self.random.randint(0, 3)):
                self.fill(self.random.choice((0, 0, 1, 1, 2)))

    def scene_walk(self):
        """A whole overture, stopping around each stage's end."""
        if self.set.rate > 16_000:
            self.create(self.random.choice((8_000, self.random.randint(8_000, 12_000))))
        self.dial_line()
        if self.set.state != DIALLING:
            return
        for end in paper.stage_ends(len(self.set.digits), self.set.rate):
            self.go_to(end + self.random.choice((-1, 0, 0, 1)))
            if self.chance(0.5):
                self.fill(0)

    def scene_line_up(self):
        """Around T: at T, empty at T, one past, over it in one fill."""
        if self.set.state != DIALLING:
            return
        end = self.set.length()
        self.go_to(end + self.random.choice((-9, -1, 0, 0, 0)))
        if self.set.m < end - 9:
            return
        for _ in range(self.random.randint(1, 3)):
            self.fill(self.random.choice((0, 0, 1, 2, 8, 20)))
        if self.chance(0.3):
            self.scene_escape()

    def scene_inner_edge(self):
        """A digit, ring or reversal edge inside a stage, give or take one sample."""
        if self.set.state != DIALLING:
            return
        rate, count = self.set.rate, len(self.set.digits)
        ends = paper.stage_ends(count, rate)
        edges = [ends[1] + k * rate // 10 for k in range(1, 2 * count)]
        edges += [ends[2] + int(s * rate) for s in (0.4, 0.6, 1, 3, 3.4, 3.6)]
        edges += [ends[4] + int(0.45 * k * rate) for k in range(1, 7)]
        edges += [ends[6] + paper.bits_length(60, rate)]
        ahead = [e for e in edges if e > self.set.m + 2]
        if ahead:
            self.go_to(self.random.choice(ahead[:4]) + self.random.choice((-1, 0, 1, 2)))
            for _ in range(self.random.randint(1, 3)):
                self.fill(self.random.choice((0, 1, 1, 2, 3)))

    def scene_escape(self):
        """Pluses with guards at the edge of a second, and then what follows."""
        self.to_data_mode()
        carrier = self.set.seen and self.chance(0.9)
        if self.chance(0.3):
            self.type_byte(self.random.randint(0, 255), carrier)
        self.lapse_in_pieces(self.random.choice(GUARDS + (SECOND, SECOND, 0, 2 * SECOND)), carrier)
        for _ in range(self.random.choice((1, 2, 3, 3, 3, 3, 4, 5))):
            self.type_byte(PLUS, carrier)
            if self.chance(0.4):
                self.lapse_in_pieces(self.random.choice(GUARDS + (0, 1, 400_000_000)), carrier)
        pick = self.random.random()
        if pick < 0.5:
            self.lapse_in_pieces(self.random.choice(GUARDS), carrier or self.chance(0.6))
        elif pick < 0.8:
            self.type_byte(self.random.choice((PLUS, 65, LF, CR)), carrier)
        elif pick < 0.9:
            self.put(b"D")
        if self.chance(0.4):
            self.lapse(self.random.choice((1, SECOND)), carrier)
        if self.chance(0.5):
            self.type_text(self.random.choice((b"AT\r", b"ATH0\r", b"ATO\r", b"+++")), self.chance(0.5))

    def scene_carrier(self):
        """Up, down in pieces to the edge of 700 ms, up again or lost."""
        self.to_call()
        if self.chance(0.3):
            self.to_command_mode()
            self.to_call()
        self.lapse(self.random.choice((0, 1, SECOND)), True)
        if self.chance(0.3):
            self.lapse(1_000, True)
        for _ in range(self.random.randint(1, 2)):
            self.lapse_in_pieces(CARRIER_HOLD - 1, False)
            if self.chance(0.4):
                self.lapse(5, True)
        if self.chance(0.3):
            self.enter(self.random.choice((b"ATDT5", b"ATDT", b"ATA", b"ATH", b"ATO")))
        self.lapse(self.random.choice((1, 1, CARRIER_HOLD, LARGEST_U64)), False)
        if self.chance(0.3):
            self.lapse(1, True)

    def scene_resume(self):
        """Out of a call and back: ATO needs the carrier."""
        self.to_call()
        if self.chance(0.5):
            self.lapse(1, True)
        self.to_command_mode()
        self.enter(self.random.choice((b"ATO", b"ATO0")), self.chance(0.6))

    def scene_hang_up(self):
        """An answer, hang-up or dial where a call already stands."""
        self.to_call()
        self.enter(self.random.choice((b"ATA", b"ATH", b"ATH0", b"ATDT7")))

    def scene_huge_lapse(self):
        for _ in range(self.random.randint(1, 3)):
            self.lapse(self.random.choice((LARGEST_U64, LARGEST_U64 - 1, 2**63, 1)))
        if self.chance(0.5):
            self.type_text(b"+++")
            self.lapse(LARGEST_U64)

    def scene_forced(self):
        """Data mode forced inside a line, which stays for later."""
        self.to_command_mode()
        line = self.random.choice((b"AT", b"ATI", b"ATDT123", b"XY"))
        cut = self.random.randint(0, len(line))
        self.type_text(line[:cut])
        self.put(b"D")
        self.type_text(bytes(self.random.choice(b"ab+\r\n") for _ in range(self.random.randint(0, 4))))
        if self.chance(0.7):
            self.to_command_mode()
            self.type_text(line[cut:] + b"\r")

    def scene_long_line(self):
        """79, 80, 81 bytes or many more, and CR or LF at a full line, over forced data or a lost carrier."""
        if self.chance(0.3):
            self.to_call()
            self.lapse(1, True)
        self.to_command_mode()
        head = self.random.choice((b"ATDT", b"atdt", b"ATI", b"", b"AT"))
        room = self.random.choice((79, 80, 80, 81, 82, 83, 120)) - len(self.set.line) - len(head)
        self.type_text(head + bytes(self.random.choice(b"1234567890#*x") for _ in range(max(room, 0))))
        if self.chance(0.3):
            self.type_byte(LF)
        if self.chance(0.3):
            self.put(b"D")
            self.to_command_mode()
        if self.set.seen and self.chance(0.7):
            self.lapse_in_pieces(CARRIER_HOLD, False)
        if self.chance(0.9):
            self.type_byte(CR)

    def scene_other_lines(self):
        for _ in range(self.random.randint(1, 3)):
            self.put(self.random.choice(OTHER_LINES))

    def scene_noise(self):
        for _ in range(self.random.randint(1, 8)):
            self.type_byte(self.random.choice((self.random.randint(0, 255), PLUS, CR, LF, 65, 84)))

    def scene_extended(self):
        """Refusals 2 and 3, which `wall` alone cannot reach."""
        if not self.extended:
            return
        for _ in range(self.random.randint(1, 3)):
            if self.chance(0.5):
                byte = self.random.choice((65, 84, CR, LF, PLUS, self.random.randint(0, 255)))
                outbox = self.random.choice((0, 1, 2, 3, 4, 5, 16, 17))
                self.put(b"T,%d,%d,%d" % (byte, self.random.randint(0, 1), outbox))
            else:
                self.fill(self.random.choice((16_385, 65_535, 65_536, 65_537, 70_000, 70_001)))

    def cue(self, position):
        self.put(b"C," + self.number(position))

    def scene_cue(self):
        """02's E2: the cue in every state, of digits that there are and of some that there are not."""
        if not self.extended:
            return
        pick = self.random.random()
        if pick < 0.4:
            self.dial_line()
        elif pick < 0.6:
            self.dial_whole(76)
        count = len(self.set.digits)
        for _ in range(self.random.randint(1, 4)):
            self.cue(self.random.choice((0, 1, 3, 7, count // 2, max(count, 1) - 1, count, self.random.randint(0, 255))))
        if self.chance(0.3):
            self.scene_fill()
            self.cue(self.random.randint(0, max(count, 1)))

    def key(self):
        self.put(b"K")

    def scene_key(self):
        """02's E8: the key after a fill that ends in a digit's tone, in a gap, at their edges, or in another stage; after an empty and a declined one."""
        if not self.extended:
            return
        pick = self.random.random()
        if pick < 0.5:
            if self.set.rate > 48_000:
                self.create(self.some_rate())
            self.dial_line()
        elif pick < 0.6:
            self.key()
            self.create(self.random.choice(BAD_RATES) if self.chance(0.3) else self.some_rate())
            self.key()
        if self.set.state == DIALLING and self.set.digits and len(self.set.digits) < 20:
            for position in sorted(self.random.choices(range(len(self.set.digits)), k=3)):
                first = paper.first_sample(position, self.set.rate)
                half = self.set.rate // 10
                self.go_to(first + self.random.choice((-2, -1, 0, 1, half - 2, half - 1, half, half + 1, self.random.randint(0, 2 * half))))
                self.key()
                for _ in range(self.random.randint(0, 3)):
                    self.fill(self.random.choice((0, 1, 1, 1, 2, 65_537)))
                    self.key()
        self.scene_fill()
        self.key()

    def keep(self, string):
        for byte in string:
            self.put(b"M," + self.number(byte))

    def type_string(self, string, carrier=None, outbox=None, places=None):
        """02's E3: the string in one call, with just enough room where none is given."""
        self.keep(string)
        size = len(self.wall.kept)
        outbox = min(4 * size, 1_200) if outbox is None else outbox
        places = min(3 * size, 1_200) if places is None else places
        self.put(b"S," + self.flag(carrier) + b"," + self.number(outbox) + b"," + self.number(places))

    def some_string(self):
        pick = self.random.random()
        if pick < 0.45:
            return b"".join(self.random.choice(COMMANDS + STRINGS) + b"\r" for _ in range(self.random.randint(1, 3)))
        if pick < 0.6:
            return self.random.choice((b"+", b"++", b"+++", b"++++", b"+++A", b"x+++", b"")) + self.random.choice((b"", b"y", b"\n"))
        if pick < 0.75:
            return bytes(self.random.choice((self.random.randint(0, 255), PLUS, CR, LF, 65)) for _ in range(self.random.randint(0, 40)))
        if pick < 0.9:
            return b"ATDT" + bytes(self.random.choice(b"0123456789#*D") for _ in range(self.random.randint(70, 90))) + b"\r"
        return b"AT\r" * 85 + bytes(self.random.choice(b"A\r") for _ in range(self.random.randint(0, 50)))

    def scene_string(self):
        """Strings of every length, with room that is just enough, short, or long; a few with a fresh set in between."""
        if not self.extended:
            return
        if self.chance(0.5):
            self.to_command_mode()
        for _ in range(self.random.randint(1, 3)):
            string = self.some_string()
            if string.startswith(b"+") and self.chance(0.7):
                self.to_data_mode()
                self.lapse(SECOND, self.set.seen)
            if self.chance(0.15):
                length = self.random.choice((0, 1, 255, 256, 256, 257, 299, 300, 301))
                string = (string + b"ATDT1\r" * 60)[:length]
            if self.chance(0.1):
                self.keep(string[:len(string) // 2])
                self.create(self.some_rate())
                string = string[len(string) // 2:]
            size = len(self.wall.kept) + len(string)
            room = lambda each: min(1_200, max(0, self.random.choice((each * size,) * 4 + (each * size - 1, each * size + 1, 0, 1_200))))
            self.type_string(string, self.chance(0.4), room(4), room(3))
            if self.chance(0.3):
                self.fill(self.random.choice((0, 1, 9, 400)))
            if self.chance(0.3):
                self.lapse(self.random.choice(GUARDS), self.chance(0.5))

    def set_s12(self):
        number = self.random.choice(S12S)
        self.enter(b"ATS12=" + str(number).zfill(self.random.choice((1, 1, 2, 3))).encode())

    def edge(self):
        """The guard time, a nanosecond before it or after it."""
        return max(0, self.set.guard() + self.random.choice((-1, 0, 0, 1)))

    def scene_s12(self):
        """02's E6: S12 set, asked for and reset, wrong forms, and escapes at the edges of its guard time; then mostly a fresh set."""
        for _ in range(self.random.randint(1, 3)):
            pick = self.random.random()
            if pick < 0.5:
                self.set_s12()
            elif pick < 0.75:
                self.enter(self.random.choice(S12_FORMS))
            elif pick < 0.9:
                self.enter(b"ATS12?")
            else:
                self.enter(self.random.choice((b"ATZ", b"ATH", b"ATA", b"ATDT5")))
        for _ in range(self.random.randint(0, 2)):
            self.to_data_mode()
            carrier = self.set.seen
            if self.set.pluses:
                self.put(b"T,120,0")
            self.lapse_in_pieces(self.edge() if self.chance(0.4) else self.set.guard(), carrier)
            for _ in range(self.random.choice((1, 2, 3, 3, 3, 3, 4))):
                self.put(b"T,43,0")
                if self.chance(0.5):
                    self.lapse_in_pieces(self.random.choice((self.edge(), self.edge(), 0)), carrier)
            self.lapse_in_pieces(self.edge(), carrier)
            if self.set.command_mode and self.chance(0.5):
                self.enter(self.random.choice((b"ATS12?", b"ATZ", b"ATH0", b"ATO")), self.chance(0.5))
        if self.extended and self.chance(0.4):
            self.to_command_mode()
            self.type_string(b"ATS12=%d\rATS12?\r%sATS12?\r" % (self.random.choice(S12S), self.random.choice((b"", b"ATZ\r", b"ATH\r"))))
        if self.chance(0.9):
            self.create(self.some_rate())

    def some_bits(self):
        """Frames with ones between, now and then with a bad stop bit, a bit lost, or a one that is no 1."""
        bits = []
        for _ in range(self.random.choice((0, 1, 2, 3, 6, 28))):
            byte = self.random.randint(0, 255)
            bits += [1] * self.random.choice((0, 0, 0, 1, 2, 10))
            bits += [0] + [byte >> i & 1 for i in range(8)] + [self.random.choice((1, 1, 1, 1, 0))]
        if bits and self.chance(0.3):
            del bits[self.random.randrange(len(bits))]
        if self.chance(0.2):
            bits += [self.random.randint(0, 1) for _ in range(self.random.choice((1, 9, 40)))]
        if self.chance(0.2):
            bits += [0] * self.random.choice((1, 11, 30))
        return bytes(self.random.choice((2, 128, 255, 48)) if bit and self.chance(0.05) else bit for bit in bits)

    def scene_bits(self):
        """02's E7: bits in several calls with room that is ample or short, a fresh set between; and single frames."""
        if not self.extended:
            return
        for _ in range(self.random.randint(1, 4)):
            pick = self.random.random()
            if pick < 0.3:
                frame = bytearray([0] + [self.random.randint(0, 1) for _ in range(8)] + [1])
                if self.chance(0.4):
                    frame[0], frame[9] = self.random.choice(((1, 1), (0, 0), (1, 0)))
                if self.chance(0.2):
                    frame[9] = self.random.choice((0, 2, 255))
                self.keep((bytes(frame) * 2)[:self.random.choice((10,) * 8 + (0, 9, 11))])
                self.put(b"U")
                continue
            bits = self.some_bits()
            if self.chance(0.1):
                bits = (bits + b"\x00\x01" * 150)[:self.random.choice((299, 300, 301))]
            self.keep(bits)
            self.put(b"B," + self.number(self.random.choice((64, 64, 64, 64, 0, 1, 2, 3, len(bits) // 10))))
            if self.chance(0.1):
                self.scene_fresh()

    def scene_in_connected(self):
        """Fills, bytes and a new dial once the line is up."""
        if self.set.state != CONNECTED:
            if self.set.rate > 16_000:
                self.create(self.random.choice((8_000, 8_001, 11_025)))
            self.dial_line()
            self.go_to(self.set.length())
            self.fill(self.random.choice((0, 1, 5)))
        for _ in range(self.random.randint(1, 3)):
            self.fill(self.random.choice((0, 1, 9, 160)))
        self.scene_noise()
        if self.extended and self.chance(0.3):
            self.fill(65_537)
        if self.extended and self.chance(0.3):
            self.cue(0)
        followers = (self.scene_dial, self.scene_carrier, self.scene_resume, self.scene_hang_up, self.scene_escape)
        self.random.choice(followers)()

    def queue(self, byte=None):
        self.put(b"Q," + self.number(self.random.randint(0, 255) if byte is None else byte))

    def scene_queue(self):
        """02's E10: bytes queued in whatever state, and then a fresh set or something that empties the queue, or not."""
        if not self.extended:
            return
        pick = self.random.random()
        if pick < 0.6:
            self.enter(self.random.choice((b"ATH", b"ATA", b"ATDT5")))
        for _ in range(self.random.randint(1, 3)):
            self.queue()
        if self.chance(0.12):
            for _ in range(paper.QUEUE_LIMIT + self.random.choice((0, 1, 1, 2)) - len(self.set.waiting)):
                self.queue()
        if self.chance(0.3):
            self.scene_fill()
        if self.chance(0.8):
            self.empty_queue()

    def empty_queue(self):
        """What empties it; a byte may be queued right after."""
        pick = self.random.random()
        if pick < 0.2:
            self.dial_line()
        elif pick < 0.5:
            self.enter(self.random.choice((b"ATH", b"ATH0", b"ATA")))
        elif pick < 0.65:
            self.to_command_mode()
            self.type_string(self.random.choice((b"\rATH\r", b"\rATA\r", b"\rATDT\r")))
        elif pick < 0.85:
            self.lapse(1, True)
            self.lapse_in_pieces(CARRIER_HOLD, False)
        else:
            self.scene_fresh()
        if self.chance(0.5):
            self.queue()

    def to_edge(self, after=0):
        """How many of the sender's samples are made before the next edge's, or before one of those after it."""
        clock, at = paper.symbol_clock(self.set.rate), self.set.played
        at += clock.to_edge(at)
        for _ in range(after):
            at += 1 + clock.to_edge(at + 1)
        return at - self.set.played

    def scene_sending(self):
        """02's E10: bytes queued before the line goes up and after it, in fills that end around the edges of symbols and frames."""
        if not self.extended:
            return
        if self.set.state != CONNECTED:
            if self.set.rate > 16_000:
                self.create(self.random.choice((8_000, 8_001, 11_025)))
            if self.chance(0.2):
                self.set_s12()
            self.queue()
            self.dial_whole(self.random.choice((0, 0, 1, 2)))
            for _ in range(self.random.choice((0, 0, 1, 2))):
                self.queue()
            self.go_to(self.set.length())
            self.fill(self.random.choice((0, 0, 1, 5)))
        for _ in range(self.random.randint(4, 14)):
            self.send_some()
        if self.chance(0.06):
            self.fill_the_queue()
        if self.chance(0.6):
            self.empty_queue()

    def send_some(self):
        pick = self.random.random()
        if pick < 0.35:
            self.fill(max(0, self.to_edge(self.random.choice((0, 0, 0, 1, 8, 9, 10))) + self.random.choice((-1, 0, 0, 1))))
        elif pick < 0.6:
            self.fill(self.random.choice((0, 0, 1, 1, 1, 2, 3, 8, 9, 27)))
        elif pick < 0.65:
            self.fill(self.random.choice((65_537, self.set.rate // 30, self.set.rate // 15)))
        elif pick < 0.7:
            self.key()
        else:
            for _ in range(self.random.choice((1, 1, 1, 2, 3))):
                self.queue()

    def fill_the_queue(self):
        """As many as wait, one more, and again once one of them is being sent."""
        while len(self.set.waiting) < paper.QUEUE_LIMIT:
            self.queue()
        self.queue()
        for _ in range(3):
            self.fill(self.to_edge(self.random.choice((0, 1, 9))) + self.random.choice((0, 1, 1)))
            self.queue()

    def scene_in_answering(self):
        """Fills and commands while the set waits for a caller."""
        self.enter(b"ATA")
        for _ in range(2):
            self.fill(self.random.choice((0, 0, 1, 8, 9, 160)))
        if self.extended and self.chance(0.3):
            self.fill(65_537)
        if self.extended and self.chance(0.3):
            self.cue(0)
        followers = (self.scene_dial, self.scene_carrier, self.scene_resume, self.scene_hang_up, self.scene_escape)
        self.random.choice(followers)()

    def dial_whole(self, count):
        """A dial line of `count` digits, of which no byte is declined."""
        self.to_command_mode()
        for byte in (b"\r" if self.set.line else b"") + b"ATDT" + bytes(self.random.choice(KEYS) for _ in range(count)) + b"\r":
            self.put(b"T,%d,0" % byte)

    def whole_call(self, count):
        """One call of `count` digits until the line is up, in buffers of many lengths, and then a frame, where one can be queued, and mark."""
        self.create(self.random.choice(USUAL_RATES) if self.chance(0.2) else self.random.randint(8_000, 192_000))
        self.dial_whole(count)
        for end in paper.stage_ends(count, self.set.rate):
            target = end + self.random.choice((-1, 0, 0, 1))
            while self.set.state == DIALLING and self.set.m < target:
                self.fill(min(target - self.set.m, self.random.choice(BLOCKS)))
            if self.chance(0.5):
                self.fill(0)
        while self.set.state == DIALLING:
            self.fill(self.random.choice((0, 1, 2, 100)))
        self.fill(1)
        if self.extended:
            self.queue()
        self.fill(self.set.rate // 25)
        return b"\n".join(self.lines) + b"\n"

    SCENES = (
        (scene_fresh, 6), (scene_command, 12), (scene_empty_line, 2), (scene_dial, 10), (scene_fill, 10),
        (scene_stage_end, 8), (scene_walk, 3), (scene_line_up, 3), (scene_inner_edge, 5), (scene_escape, 14),
        (scene_carrier, 10), (scene_resume, 5), (scene_hang_up, 4), (scene_huge_lapse, 2), (scene_forced, 4), (scene_long_line, 4), (scene_other_lines, 4), (scene_noise, 5),
        (scene_extended, 8), (scene_cue, 6), (scene_key, 8), (scene_string, 10), (scene_s12, 6), (scene_bits, 8), (scene_queue, 6), (scene_sending, 6), (scene_in_connected, 3), (scene_in_answering, 3),
    )

    def write(self, count):
        if self.chance(0.9):
            self.scene_fresh()
        scenes, weights = zip(*self.SCENES)
        while len(self.lines) < count:
            self.random.choices(scenes, weights)[0](self)
        return b"\n".join(self.lines) + (b"" if self.chance(0.1) else b"\n")


def script(seed, count, extended=False):
    return Script(seed, extended).write(count)


def whole_call(seed, count, extended=False):
    return Script(seed, extended).whole_call(count)
