//! 02's E10, sound after Connected, written from 01 and 02 and apart from the Rust: 01 leaves out its transmitter, which
//! idles and frames by rules of its own. What is queued waits in the set; the sender takes a byte where its frame begins.

use libm::sin;
use std::collections::VecDeque;
use std::f64::consts::TAU;

const MARK: f64 = 1270.0;
const SPACE: f64 = 1070.0;
const AMPLITUDE: f64 = 0.7;
const BAUD: f64 = 300.0;

/// Our own originate sender, from the moment the line goes up.
pub struct Sender {
    rate: f64,
    /// The oscillator's phase and step.
    phase: f64,
    step: f64,
    /// The symbol clock, and whether the next sample is the first of a symbol.
    symbol: f64,
    edge: bool,
    /// The bits of a frame that are not begun yet.
    left: VecDeque<bool>,
}

impl Sender {
    pub fn new(rate: u32) -> Self {
        let rate = f64::from(rate);
        Sender { rate, phase: 0.0, step: TAU * MARK / rate, symbol: 0.0, edge: true, left: VecDeque::new() }
    }

    pub fn play(&mut self, waiting: &mut VecDeque<u8>, out: &mut [f32]) {
        for sample in out {
            *sample = self.sample(waiting);
        }
    }

    fn sample(&mut self, waiting: &mut VecDeque<u8>) -> f32 {
        if self.edge {
            let bit = self.next_bit(waiting);
            self.step = TAU * if bit { MARK } else { SPACE } / self.rate;
        }
        let sample = sin(self.phase) * AMPLITUDE;
        self.phase += self.step;
        if self.phase >= TAU {
            self.phase -= TAU;
        }
        self.symbol += BAUD / self.rate;
        self.edge = self.symbol >= 1.0;
        if self.edge {
            self.symbol -= 1.0;
        }
        sample as f32
    }

    /// The next bit of an unfinished frame; else the first of a byte that waits, which then waits no more; else mark.
    fn next_bit(&mut self, waiting: &mut VecDeque<u8>) -> bool {
        if self.left.is_empty() {
            self.left = waiting.pop_front().map(frame).unwrap_or_default();
        }
        self.left.pop_front().unwrap_or(true)
    }
}

/// A start bit, eight data bits, lowest first, and a stop bit.
fn frame(byte: u8) -> VecDeque<bool> {
    let data = (0..8).map(|i| byte >> i & 1 == 1);
    [false].into_iter().chain(data).chain([true]).collect()
}
