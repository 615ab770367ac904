// The Rust as it is, the stand-ins around it, and what the Rust looks for in its crate's root.
// Included by the oracle and by the benchmark, each a root of its own.

extern crate alloc;

mod at;
mod frame;
mod nco;
mod overture;
#[path = "session.rs"]
mod rust_session;

mod cue;
mod guard;
mod left_out;
mod lit;
mod sender;
#[path = "stand_in.rs"]
mod session;
mod set;

use left_out::{link, rx, tx};

pub const VERSION: &str = "1.0.0";
pub const BAUD: f64 = 300.0;

#[derive(Clone, Copy)]
pub enum Role {
    Originate,
    Answer,
}

#[derive(Clone, Copy)]
pub enum Duplex {
    Full,
    HalfPingPong,
}

#[derive(Clone, Copy)]
pub struct Config {
    pub sample_rate: u32,
    pub role: Role,
    pub duplex: Duplex,
}
