//! 02's E6: an AT processor with S12, written from 01 and 02 and apart from at.rs. It is stepped beside at.rs and
//! answers in its place from the first S12 line on: a list that holds none is the Rust's.

const LINE_LIMIT: usize = 80;
const UNIT: u64 = 20_000_000;
const FRESH: u8 = 50;
const HOLD: u64 = 700_000_000;
const FIRST: &[u8] = b"ATS12=";

/// What the call control has to do.
pub enum Act {
    Nothing,
    Dial(String),
    Answer,
    HangUp,
}

pub struct Step {
    pub codes: [u8; 2],
    pub sent: Vec<u8>,
    pub act: Act,
}

pub struct Processor {
    pub command_mode: bool,
    pub s12: u8,
    line: Vec<u8>,
    idle: u64,
    pluses: usize,
    seen: bool,
    down: u64,
}

fn told(codes: [u8; 2], act: Act) -> Step {
    Step { codes, sent: Vec::new(), act }
}

fn quiet() -> Step {
    told([0, 0], Act::Nothing)
}

/// One to three decimal digits up to 255.
fn setting(line: &[u8]) -> Option<u8> {
    let digits = line.strip_prefix(FIRST)?;
    if digits.is_empty() || digits.len() > 3 || !digits.iter().all(u8::is_ascii_digit) {
        return None;
    }
    let number = digits.iter().fold(0, |n: u32, digit| 10 * n + u32::from(digit - b'0'));
    u8::try_from(number).ok()
}

impl Processor {
    pub fn new() -> Self {
        Processor { command_mode: true, s12: FRESH, line: Vec::new(), idle: 0, pluses: 0, seen: false, down: 0 }
    }

    /// The line so far, in capitals; none that ran over.
    fn command(&self) -> Option<Vec<u8>> {
        (self.line.len() <= LINE_LIMIT).then(|| self.line.to_ascii_uppercase())
    }

    pub fn ends_s12_line(&self, byte: u8) -> bool {
        let is_one = |line: Vec<u8>| line == b"ATS12?" || setting(&line).is_some();
        self.command_mode && byte == b'\r' && self.command().is_some_and(is_one)
    }

    pub fn feed(&mut self, byte: u8, carrier: bool) -> Step {
        if !self.command_mode {
            return self.data_byte(byte);
        }
        match byte {
            b'\n' => quiet(),
            b'\r' if self.line.is_empty() => quiet(),
            b'\r' => {
                let command = self.command();
                self.line.clear();
                command.map_or(told([4, 0], Act::Nothing), |line| self.execute(&line, carrier))
            }
            _ => {
                self.line.push(byte);
                quiet()
            }
        }
    }

    fn execute(&mut self, line: &[u8], carrier: bool) -> Step {
        match line {
            b"AT" => told([1, 0], Act::Nothing),
            b"ATZ" => {
                self.s12 = FRESH;
                told([1, 0], Act::Nothing)
            }
            b"ATI" => told([5, 1], Act::Nothing),
            b"ATA" => {
                self.seen = false;
                self.go_online();
                told([1, 0], Act::Answer)
            }
            b"ATH" | b"ATH0" => {
                self.seen = false;
                told([1, 3], Act::HangUp)
            }
            b"ATO" | b"ATO0" if carrier => {
                self.go_online();
                told([2, 0], Act::Nothing)
            }
            b"ATS12?" => told([6, 1], Act::Nothing),
            _ if line.starts_with(b"ATDT") => {
                self.seen = false;
                self.go_online();
                told([1, 0], Act::Dial(line[4..].iter().map(|&b| char::from(b)).collect()))
            }
            _ => match setting(line) {
                Some(s12) => {
                    self.s12 = s12;
                    told([1, 0], Act::Nothing)
                }
                None => told([4, 0], Act::Nothing),
            },
        }
    }

    fn guard(&self) -> u64 {
        UNIT * u64::from(self.s12)
    }

    fn data_byte(&mut self, byte: u8) -> Step {
        let opens = self.pluses == 0 && self.idle >= self.guard();
        let extends = (self.pluses == 1 || self.pluses == 2) && self.idle <= self.guard();
        self.idle = 0;
        if byte == b'+' && (opens || extends) {
            self.pluses += 1;
            return quiet();
        }
        let mut sent = vec![b'+'; self.pluses];
        sent.push(byte);
        self.pluses = 0;
        Step { codes: [0, 0], sent, act: Act::Nothing }
    }

    pub fn lapse(&mut self, ns: u64, carrier: bool) -> Step {
        if !self.command_mode {
            self.idle = self.idle.saturating_add(ns);
            if self.pluses == 3 && self.idle >= self.guard() {
                self.pluses = 0;
                self.idle = 0;
                self.command_mode = true;
            }
        }
        if carrier {
            let comes = !self.seen;
            self.seen = true;
            self.down = 0;
            return told([if comes && !self.command_mode { 2 } else { 0 }, 0], Act::Nothing);
        }
        if !self.seen {
            return quiet();
        }
        self.down = self.down.saturating_add(ns);
        if self.down < HOLD {
            return quiet();
        }
        self.command_mode = true;
        self.pluses = 0;
        self.idle = 0;
        self.seen = false;
        self.down = 0;
        told([3, 0], Act::HangUp)
    }

    pub fn go_online(&mut self) {
        self.command_mode = false;
        self.pluses = 0;
        self.idle = 0;
    }
}
