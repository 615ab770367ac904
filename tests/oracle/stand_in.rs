//! The session that at.rs sees: session.rs's own, with two of 01's stand-ins around it,
//! the carrier flag handed in with a call and `send` recording its bytes.

use crate::cue;
use crate::lit::{self, Key};
use crate::overture::Stage;
use crate::rust_session::{Session as RustSession, SessionState};
use crate::{Config, Duplex, Role};

pub struct Session {
    inner: RustSession,
    /// The flag of the call under way.
    pub carrier: bool,
    /// The bytes sent by the call under way.
    pub sent: Vec<u8>,
    /// Whether the call under way dialled, answered or hung up.
    pub moved: bool,
    pub rate: u32,
    /// What was last dialled, and where its digits begin, once that was asked.
    dialled: String,
    firsts: Option<Vec<u64>>,
    /// And where their tones begin and end.
    tones: Option<Vec<(u64, u64)>>,
}

impl Session {
    pub fn new(sample_rate: u32) -> Self {
        let config = Config { sample_rate, role: Role::Originate, duplex: Duplex::Full };
        let inner = RustSession::new(config);
        Self { inner, carrier: false, sent: Vec::new(), moved: false, rate: sample_rate, dialled: String::new(), firsts: None, tones: None }
    }

    pub fn begin_call(&mut self, carrier: bool) {
        self.carrier = carrier;
        self.sent.clear();
        self.moved = false;
    }

    pub fn dial(&mut self, digits: &str) {
        self.inner.dial(digits);
        self.moved = true;
        self.dialled = digits.to_string();
        self.firsts = None;
        self.tones = None;
    }

    /// The first sample of each digit dialled. A call is played for it once.
    pub fn first_samples(&mut self) -> &[u64] {
        let (dialled, rate) = (&self.dialled, self.rate);
        self.firsts.get_or_insert_with(|| cue::first_samples(dialled, rate))
    }

    /// The key in whose tone a sample is.
    pub fn key_at(&mut self, sample: u64) -> Option<Key> {
        let (dialled, rate) = (&self.dialled, self.rate);
        let tones = self.tones.get_or_insert_with(|| lit::tones(dialled, rate));
        let digit = tones.iter().position(|&(first, last)| first <= sample && sample <= last)?;
        self.key_of(digit)
    }

    /// The key of a digit.
    pub fn key_of(&self, digit: usize) -> Option<Key> {
        lit::keys(&self.dialled).get(digit).copied()
    }

    pub fn answer(&mut self) {
        self.inner.answer();
        self.moved = true;
    }

    pub fn hangup(&mut self) {
        self.inner.hangup();
        self.moved = true;
    }

    /// In every state: 01's `send` has no exception for Idle.
    pub fn send(&mut self, bytes: &[u8]) {
        self.sent.extend_from_slice(bytes);
    }

    /// session.rs hears nothing in Idle, where it has no receiver.
    pub fn carrier_detected(&self) -> bool {
        self.carrier && self.inner.carrier_detected()
    }

    pub fn process_out(&mut self, out: &mut [f32]) {
        self.inner.process_out(out);
    }

    pub fn state(&self) -> SessionState {
        self.inner.state()
    }

    pub fn stage(&self) -> Option<Stage> {
        self.inner.stage()
    }

    pub fn ring_number(&self) -> Option<u8> {
        self.inner.ring_number()
    }
}
