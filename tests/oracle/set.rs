//! What 01's set adds to the Rust: the calls it declines, the count m, and the numbers
//! for states, stages and replies. And 02's E1: a line that ran over is not dialled; its E6: from the
//! first S12 line on guard.rs is the AT processor; its E8: the key of a fill's last sample; and its E10: in Connected
//! sender.rs plays, and bytes are queued for it in any state.

use crate::at::{AtProcessor, Response};
use crate::guard::{Act, Processor, Step};
use crate::lit::Key;
use crate::overture::Stage;
use crate::rust_session::SessionState;
use crate::sender::Sender;
use crate::session::Session;
use std::collections::VecDeque;

pub const LOWEST_RATE: u128 = 8_000;
pub const HIGHEST_RATE: u128 = 192_000;
const LINE_LIMIT: usize = 80;
const OUTBOX_NEEDED: usize = 4;
const FILL_LIMIT: usize = 65_536;
const STRING_LIMIT: usize = 256;
const QUEUE_LIMIT: usize = 256;

/// A call's refusal (0 none) and its codes (0 none).
#[derive(Default)]
pub struct Answer {
    pub refusal: u8,
    pub codes: [u8; 2],
}

impl Answer {
    pub fn declined(refusal: u8) -> Self {
        Answer { refusal, codes: [0, 0] }
    }

    fn replied(reply: Option<Response>) -> Self {
        let mut codes = [0, 0];
        if let Some(response) = reply {
            for (code, line) in codes.iter_mut().zip(&response.lines) {
                *code = code_of(line);
            }
        }
        Answer { refusal: 0, codes }
    }
}

pub struct Set {
    at: AtProcessor,
    pub session: Session,
    /// The unfinished line. at.rs has it too, but of a dial line only ATD: there is no end to its lines, so
    /// the rest is handed to it with the CR.
    line: Vec<u8>,
    m: u64,
    /// 02's E6, and whether a line set S12 or asked for it.
    guard: Processor,
    s12_line_came: bool,
    /// 02's E8: the key that the last fill answered.
    pub lit: Option<Key>,
    /// 02's E10: the bytes that wait, oldest first, and the sender, fresh when the line goes up.
    pub waiting: VecDeque<u8>,
    sender: Sender,
}

impl Set {
    /// The refusal is 1 for a rate outside the limits; the set is then fresh at 8,000.
    pub fn new(rate: u128) -> (Answer, Self) {
        if rate < LOWEST_RATE || rate > HIGHEST_RATE {
            return (Answer::declined(1), Self::fresh(LOWEST_RATE as u32));
        }
        (Answer::default(), Self::fresh(rate as u32))
    }

    fn fresh(rate: u32) -> Self {
        let (at, session, guard) = (AtProcessor::new(), Session::new(rate), Processor::new());
        let (waiting, sender) = (VecDeque::new(), Sender::new(rate));
        Set { at, session, line: Vec::new(), m: 0, guard, s12_line_came: false, lit: None, waiting, sender }
    }

    pub fn feed(&mut self, byte: u8, carrier: bool, outbox: usize) -> Answer {
        self.session.begin_call(carrier);
        if outbox < OUTBOX_NEEDED {
            return Answer::declined(2);
        }
        self.s12_line_came |= self.guard.ends_s12_line(byte);
        let step = self.guard.feed(byte, self.session.carrier_detected());
        if self.s12_line_came {
            return self.perform(step);
        }
        if self.at.in_command_mode() && byte != b'\r' && byte != b'\n' {
            self.line.push(byte);
            if self.dials() {
                return Answer::default();
            }
        }
        if self.at.in_command_mode() && byte == b'\r' {
            self.hand_over_line();
        }
        let reply = self.at.feed(byte, &mut self.session);
        self.begin_anew_if_moved();
        Answer::replied(reply)
    }

    /// 02's E3 and E6: the bytes typed singly; what they sent, and their codes with the S12 after each, joined.
    pub fn feed_all(&mut self, bytes: &[u8], carrier: bool, outbox: usize, places: usize) -> (Answer, Vec<u8>) {
        self.session.begin_call(carrier);
        if bytes.len() > STRING_LIMIT {
            return (Answer::declined(8), Vec::new());
        }
        if outbox < OUTBOX_NEEDED * bytes.len() || places < 3 * bytes.len() {
            return (Answer::declined(9), Vec::new());
        }
        let (mut sent, mut codes) = (Vec::new(), Vec::new());
        for &byte in bytes {
            let answer = self.feed(byte, carrier, OUTBOX_NEEDED);
            sent.extend_from_slice(&self.session.sent);
            codes.extend_from_slice(&answer.codes);
            codes.push(self.guard.s12);
        }
        self.session.sent = sent;
        (Answer::default(), codes)
    }

    pub fn advance_time(&mut self, lapse: core::time::Duration, carrier: bool) -> Answer {
        self.session.begin_call(carrier);
        let step = self.guard.lapse(lapse.as_nanos() as u64, self.session.carrier_detected());
        if self.s12_line_came {
            return self.perform(step);
        }
        let reply = self.at.advance_time(lapse, &mut self.session);
        self.begin_anew_if_moved();
        Answer::replied(reply)
    }

    pub fn force_data_mode(&mut self) -> Answer {
        self.session.begin_call(false);
        self.guard.go_online();
        self.at.force_data_mode();
        Answer::default()
    }

    pub fn process_out(&mut self, out: &mut [f32]) -> Answer {
        self.session.begin_call(false);
        self.lit = None;
        if out.len() > FILL_LIMIT {
            return Answer::declined(3);
        }
        if self.session.state() == SessionState::Connected {
            self.sender.play(&mut self.waiting, out);
            return Answer::default();
        }
        if self.session.state() == SessionState::Dialling {
            self.m += out.len() as u64;
        }
        self.session.process_out(out);
        if self.session.state() == SessionState::Connected {
            self.sender = Sender::new(self.session.rate);
        }
        if !out.is_empty() && self.session.stage() == Some(Stage::Dialling) {
            self.lit = self.session.key_at(self.m);
        }
        Answer::default()
    }

    /// 02's E10: 12 where 256 wait.
    pub fn queue_byte(&mut self, byte: u8) -> Answer {
        self.session.begin_call(false);
        if self.waiting.len() == QUEUE_LIMIT {
            return Answer::declined(12);
        }
        self.waiting.push_back(byte);
        Answer::default()
    }

    /// 02's E2: 7 where nothing is being dialled, or there is no such digit.
    pub fn cue(&mut self, position: usize) -> (Answer, u64) {
        self.session.begin_call(false);
        if self.session.state() != SessionState::Dialling {
            return (Answer::declined(7), 0);
        }
        match self.session.first_samples().get(position) {
            Some(&sample) => (Answer::default(), sample),
            None => (Answer::declined(7), 0),
        }
    }

    pub fn in_command_mode(&self) -> bool {
        if self.s12_line_came { self.guard.command_mode } else { self.at.in_command_mode() }
    }

    pub fn state(&self) -> u8 {
        match self.session.state() {
            SessionState::Idle => 0,
            SessionState::Dialling => 1,
            SessionState::Answering => 2,
            SessionState::Connected => 3,
        }
    }

    /// The shown stage, 0 for none.
    pub fn stage(&self) -> u8 {
        self.session.stage().map_or(0, number_of)
    }

    pub fn m(&self) -> u64 {
        self.m
    }

    /// The ring, 0 for none.
    pub fn ring(&self) -> u8 {
        self.session.ring_number().unwrap_or(0)
    }

    /// Does what guard.rs asks of the session.
    fn perform(&mut self, step: Step) -> Answer {
        match step.act {
            Act::Nothing => {}
            Act::Dial(digits) => self.session.dial(&digits),
            Act::Answer => self.session.answer(),
            Act::HangUp => self.session.hangup(),
        }
        self.session.send(&step.sent);
        self.begin_anew_if_moved();
        Answer { refusal: 0, codes: step.codes }
    }

    fn dials(&self) -> bool {
        self.line.len() >= 4 && self.line[..4].eq_ignore_ascii_case(b"ATDT")
    }

    /// Types what at.rs has not of a dial line. One of more than 80 bytes 02 does not dial: it is typed as one
    /// that is none. Any other line of more is no command there either.
    fn hand_over_line(&mut self) {
        let dials = self.dials();
        let mut line = core::mem::take(&mut self.line);
        if dials && line.len() > LINE_LIMIT {
            line = b"ATDX".to_vec();
        }
        for &byte in line.iter().skip(if dials { 3 } else { line.len() }) {
            self.at.feed(byte, &mut self.session);
        }
    }

    /// Dial, answer and hang-up set m to 0 and empty the queue.
    fn begin_anew_if_moved(&mut self) {
        if self.session.moved {
            self.m = 0;
            self.waiting.clear();
        }
    }
}

fn number_of(stage: Stage) -> u8 {
    match stage {
        Stage::OffHook => 1,
        Stage::DialTone => 2,
        Stage::Dialling => 3,
        Stage::Ringback => 4,
        Stage::Ci => 5,
        Stage::Ansam => 6,
        Stage::CmJm => 7,
        Stage::Cj => 8,
        Stage::Training => 9,
        Stage::Connected => 10,
    }
}

fn code_of(line: &str) -> u8 {
    match line {
        "OK" => 1,
        "CONNECT 300" => 2,
        "NO CARRIER" => 3,
        "ERROR" => 4,
        "modem-core Bell 103 v1.0.0" => 5,
        other => unreachable!("01 has no code for {other:?}"),
    }
}
