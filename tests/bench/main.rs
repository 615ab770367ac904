//! Times the port's `process_out` and the Rust's in turn, in one process and on the same calls,
//! and compares every sample's bits. It prints figures and passes no judgement on them.
//!
//! bench [ROUNDS]

// The Rust is compiled as it is; what 01 leaves out of it is never called.
#![allow(dead_code)]

include!(concat!(env!("ORACLE_SRC"), "/rust.rs"));

#[path = "lent.rs"]
mod lent;
#[path = "port.rs"]
mod port;

use at::{AtProcessor, Response};
use lent::Lent;
use port::Start;
use session::Session;
use std::hint::black_box;

const DIGITS: &[u8] = b"5551234";
const RATES: [u32; 3] = [44_100, 48_000, 192_000];
const BUFFERS: [usize; 3] = [32, 128, 4_096];
/// How often a call that takes less than the clock can tell is made.
const CALLS: u64 = 20_000;

/// What a panel's macro types, without its CR: the set is in data mode, and sends it.
const STRING: &[u8] = b"ATDT5551234";
const HEAD: &str = "    Rust     port   ratio";
/// Stage numbers and what is heard; Cj in its two parts.
const STAGES: [(usize, &str); 10] = [
    (1, "click"),
    (2, "two tones"),
    (3, "dialling"),
    (4, "ringback"),
    (5, "bits (Ci)"),
    (6, "Ansam"),
    (7, "bits (CmJm)"),
    (8, "bits (Cj)"),
    (8, "rest (Cj's zeros)"),
    (9, "bits (Training)"),
];

fn main() {
    let rounds = match std::env::args().nth(1).map(|word| word.parse::<usize>()) {
        None => 25,
        Some(Ok(rounds)) if rounds > 0 => rounds,
        _ => {
            eprintln!("usage: bench [ROUNDS]");
            std::process::exit(2);
        }
    };
    let bench = Bench { rounds };
    let equal = [bench.overtures(), bench.stages(), bench.lengths(), bench.digits()];
    bench.sender();
    bench.calls();
    bench.plans();
    bench.bits();
    if equal.contains(&false) {
        println!("\nTHE BITS DIFFER");
        std::process::exit(1);
    }
    println!("\nthe bits of all samples above are equal");
}

/// The Rust by itself: the oracle's layer for 02's requests stays out of what is timed.
struct Rust {
    at: AtProcessor,
    session: Session,
}

impl Rust {
    /// The Rust where a call begins.
    fn at(start: Start) -> Rust {
        let mut rust = Rust { at: AtProcessor::new(), session: Session::new(start.rate) };
        for &byte in b"ATDT".iter().chain(start.digits).chain(b"\r") {
            rust.feed(byte, false);
        }
        let mut scratch = [0.0; 4096];
        let mut left = start.skip;
        while left > 0 {
            let part = left.min(scratch.len());
            rust.process_out(&mut scratch[..part]);
            left -= part;
        }
        rust
    }

    fn feed(&mut self, byte: u8, carrier: bool) -> Option<Response> {
        self.session.begin_call(carrier);
        self.at.feed(byte, &mut self.session)
    }

    fn process_out(&mut self, out: &mut [f32]) {
        self.session.process_out(out);
    }
}

/// How many samples stages 1 to 9 have, by the stage that the Rust shows after each sample.
fn stage_lengths(rate: u32, digits: &[u8]) -> [usize; 9] {
    let mut rust = Rust::at(Start { rate, digits, skip: 0 });
    let mut lengths = [0; 9];
    loop {
        rust.process_out(&mut [0.0]);
        match rust.session.stage() {
            Some(stage) => lengths[stage as usize] += 1,
            None => return lengths,
        }
    }
}

/// The processor's time for some work: what other programs take of it does not count.
fn nanoseconds(work: impl FnOnce()) -> f64 {
    let start = thread_time();
    work();
    thread_time() - start
}

#[repr(C)]
struct Timespec {
    seconds: i64,
    nanoseconds: i64,
}

extern "C" {
    fn clock_gettime(clock: i32, time: *mut Timespec) -> i32;
}

fn thread_time() -> f64 {
    const CLOCK_THREAD_CPUTIME_ID: i32 = 3;
    let mut time = Timespec { seconds: 0, nanoseconds: 0 };
    assert_eq!(unsafe { clock_gettime(CLOCK_THREAD_CPUTIME_ID, &mut time) }, 0);
    time.seconds as f64 * 1e9 + time.nanoseconds as f64
}

/// ns a sample, and whether both wrote the same bits.
struct Figures {
    rust: f64,
    port: f64,
    equal: bool,
}

impl Figures {
    fn row(&self) -> String {
        format!("{:>8.2} {:>8.2} {:>7.3}", self.rust, self.port, self.port / self.rust)
    }
}

struct Bench {
    rounds: usize,
}

impl Bench {
    /// `samples` samples from a start, in buffers of `length`: the best of the rounds.
    fn fills(&self, start: Start, samples: usize, length: usize) -> Figures {
        // The port makes its set in the same call. What that takes is taken off, and after a long
        // way to the start the part is played many times, so that it is more than what is taken off.
        let turns = if start.skip == 0 { 1 } else { 1_000_000 / samples + 1 };
        let mut rust_out = vec![1.0; samples];
        let mut port_out = vec![2.0; samples];
        let (mut rust, mut port, mut begun) = (f64::MAX, f64::MAX, f64::MAX);
        for _ in 0..self.rounds {
            let mut call = Rust::at(start);
            rust = rust.min(nanoseconds(|| {
                for part in rust_out.chunks_mut(length) {
                    call.process_out(part);
                }
            }));
            begun = begun.min(nanoseconds(|| {
                black_box(start.fills(length, 0, &mut port_out));
            }));
            port = port.min(nanoseconds(|| {
                black_box(start.fills(length, turns as u64, &mut port_out));
            }));
        }
        let equal = rust_out.iter().zip(&port_out).all(|(a, b): (&f32, &f32)| a.to_bits() == b.to_bits());
        Figures { rust: rust / samples as f64, port: (port - begun) / (samples * turns) as f64, equal }
    }

    /// Whole overtures.
    fn overtures(&self) -> bool {
        println!("whole overtures of {} digits, ns a sample, best of {}", DIGITS.len(), self.rounds);
        println!("{:>10} {:>10} {HEAD}", "rate", "buffer");
        let mut equal = true;
        for rate in RATES {
            let total = stage_lengths(rate, DIGITS).iter().sum();
            for length in BUFFERS {
                let figures = self.fills(Start { rate, digits: DIGITS, skip: 0 }, total, length);
                println!("{rate:>10} {length:>10} {}", figures.row());
                equal &= figures.equal;
            }
        }
        equal
    }

    /// Each stage by itself, and what share of an overture's time it has.
    fn stages(&self) -> bool {
        let rate = 48_000;
        let lengths = stage_lengths(rate, DIGITS);
        let silence = (0.075 * rate as f64).round() as usize;
        let total: usize = lengths.iter().sum();
        println!("\neach stage at {rate} in buffers of 4096, ns a sample");
        println!("{:<21} {HEAD} {:>8} {:>8}", "", "of Rust", "of port");
        let mut rows = Vec::new();
        let mut skip = 0;
        let mut equal = true;
        for (stage, name) in STAGES {
            let samples = match (stage, name) {
                (8, "rest (Cj's zeros)") => silence,
                (8, _) => lengths[7] - silence,
                _ => lengths[stage - 1],
            };
            let figures = self.fills(Start { rate, digits: DIGITS, skip }, samples, 4096);
            equal &= figures.equal;
            rows.push((stage, name, samples, figures));
            skip += samples;
        }
        assert_eq!(skip, total);
        let sum = |of: fn(&Figures) -> f64| rows.iter().map(|r| of(&r.3) * r.2 as f64).sum::<f64>();
        let (rust, port) = (sum(|f| f.rust), sum(|f| f.port));
        for (stage, name, samples, f) in &rows {
            let share = |time: f64, whole: f64| 100.0 * time * *samples as f64 / whole;
            println!("{stage} {name:<19} {} {:>7.1}% {:>7.1}%", f.row(), share(f.rust, rust), share(f.port, port));
        }
        equal
    }

    /// 02's E10: the sender, which the Rust does not have, beside a stage of bits.
    fn sender(&self) {
        let (rate, length, samples) = (48_000, 4096, 400_000);
        let lengths = stage_lengths(rate, DIGITS);
        let total: usize = lengths.iter().sum();
        let up = Start { rate, digits: DIGITS, skip: total + 1 };
        let training = Start { skip: total - lengths[8], ..up };
        let mut out = vec![0.0; samples];
        // ten bits of 160 samples a byte, and the last byte's frame is begun
        assert_eq!(up.sent(length, 1, &mut out), 256 - samples as u64 / 1600);
        let mut each = |samples: usize, fill: &dyn Fn(u64, &mut [f32])| {
            let mut best = |turns| (0..self.rounds).map(|_| nanoseconds(|| fill(turns, &mut out[..samples]))).fold(f64::MAX, f64::min);
            (best(4) - best(0)) / (4 * samples) as f64
        };
        let bits = each(lengths[8], &|turns, out| { black_box(training.fills(length, turns, out)); });
        let mark = each(samples, &|turns, out| { black_box(up.fills(length, turns, out)); });
        let frames = each(samples, &|turns, out| { black_box(up.sent(length, turns, out)); });
        println!("\nthe sender at {rate} in buffers of {length}, ns a sample");
        println!("{:>10} {:>10} {:>18}", "mark", "frames", "bits (Training)");
        println!("{mark:>10.2} {frames:>10.2} {bits:>18.2}");
    }

    /// Buffers of every length.
    fn lengths(&self) -> bool {
        println!("\nwhole overtures at 48000 by the buffer's length, ns a sample");
        println!("{:>10} {HEAD}", "buffer");
        let total = stage_lengths(48_000, DIGITS).iter().sum();
        let mut equal = true;
        for power in 0..=16 {
            let length = 1 << power;
            let figures = self.fills(Start { rate: 48_000, digits: DIGITS, skip: 0 }, total, length);
            println!("{length:>10} {}", figures.row());
            equal &= figures.equal;
        }
        equal
    }

    /// Any number of digits.
    fn digits(&self) -> bool {
        println!("\nwhole overtures at 48000 by the number of digits, ns a sample");
        println!("{:>10} {:>10} {HEAD}", "digits", "buffer");
        let mut equal = true;
        for count in [0, 7, 76] {
            let digits: Vec<u8> = b"5551234*0#ABCD6789".iter().cycle().take(count).copied().collect();
            let total = stage_lengths(48_000, &digits).iter().sum();
            for length in BUFFERS {
                let figures = self.fills(Start { rate: 48_000, digits: &digits, skip: 0 }, total, length);
                println!("{count:>10} {length:>10} {}", figures.row());
                equal &= figures.equal;
            }
        }
        equal
    }

    /// One call of each kind on a set in the middle of Dialling with 76 digits.
    fn calls(&self) {
        let digits = [b'7'; 76];
        let lengths = stage_lengths(48_000, &digits);
        let skip = lengths[0] + lengths[1] + lengths[2] / 2;
        let start = Start { rate: 48_000, digits: &digits, skip };
        println!("\na call on a set in Dialling with 76 digits, ns");
        println!("{:<21} {:>8} {:>8} {:>12}", "", "Rust", "port", "port from C");
        let rust = self.best(|| {
            let mut call = Rust::at(start);
            nanoseconds(|| {
                for _ in 0..CALLS {
                    black_box(call.feed(b'A', true));
                }
            })
        });
        let port = self.best_of_port(|turns| start.bytes(turns));
        let lent = self.best(|| {
            let mut set = Lent::at(start);
            nanoseconds(|| {
                for _ in 0..CALLS {
                    black_box(set.feed(b'A', true));
                }
            })
        });
        println!("{:<21} {rust:>8.1} {port:>8.1} {lent:>12.1}", "a typed byte");
        println!("{:<21} {:>8.1} {:>8.1} {:>12.1}", "eleven typed bytes", 11.0 * rust, 11.0 * port, 11.0 * lent);
        assert_eq!((start.strings(1), Lent::at(start).feed_all(STRING, true)), (11, 11));
        let port = self.best_of_port(|turns| start.strings(turns));
        let lent = self.best(|| {
            let mut set = Lent::at(start);
            nanoseconds(|| {
                for _ in 0..CALLS {
                    black_box(set.feed_all(black_box(STRING), true));
                }
            })
        });
        println!("{:<21} {:>8} {port:>8.1} {lent:>12.1}", "a string of 11 bytes", "-");
        let rust = self.best(|| {
            let mut call = Rust::at(start);
            nanoseconds(|| {
                for _ in 0..CALLS {
                    call.process_out(black_box(&mut []));
                }
            })
        });
        let port = self.best_of_port(|turns| start.empty_fills(turns) as u64);
        let lent = self.best(|| {
            let mut set = Lent::at(start);
            nanoseconds(|| {
                for _ in 0..CALLS {
                    assert_eq!(set.process_out(black_box(&mut [])), 0);
                }
            })
        });
        println!("{:<21} {rust:>8.1} {port:>8.1} {lent:>12.1}", "an empty fill");
        assert_eq!(start.sound(CALLS), CALLS);
        let port = self.best_of_port(|turns| start.sound(turns));
        println!("{:<21} {:>8} {port:>8.1}", "soundness alone", "-");
    }

    /// 02's E7: the frames of 400 random bytes, ones between them, read back; the Rust's `Deframer` bit by bit.
    fn bits(&self) {
        let mut list = Vec::new();
        let mut state = 1u32;
        for _ in 0..400 {
            state = state.wrapping_mul(1_664_525).wrapping_add(1_013_904_223);
            list.extend(frame::frame_byte((state >> 24) as u8).map(u8::from));
            list.resize(list.len() + (state >> 20) as usize % 4, 1);
        }
        let given = |list: &[u8]| {
            let mut reader = frame::Deframer::new();
            list.iter().filter(|&&bit| reader.push_bit(bit != 0).is_some()).count() as u64
        };
        assert_eq!((port::bits(&list, 1), given(&list)), (400, 400));
        let each = |work: &dyn Fn() -> u64| (0..self.rounds).map(|_| nanoseconds(|| { black_box(work()); })).fold(f64::MAX, f64::min) / (1000 * list.len()) as f64;
        let rust = each(&|| (0..1000).map(|_| given(black_box(&list))).sum());
        let port = each(&|| port::bits(black_box(&list), 1000));
        println!("\na bit read back, nanoseconds: {rust:.2} the Rust's, {port:.2} the port's");
    }

    /// T before the call, against filling the call that it tells of.
    fn plans(&self) {
        println!("\nT before the call, against filling it in buffers of 4096, microseconds");
        println!("{:>10} {:>10} {:>10} {:>10} {:>10} {:>10}", "rate", "digits", "T", "before", "filling", "times");
        for (rate, digits) in [(48_000, DIGITS), (192_000, &[b'7'; 76][..])] {
            let total = stage_lengths(rate, digits).iter().sum::<usize>();
            assert_eq!(lent::total_samples(digits, rate) as usize, total);
            let mut out = vec![0.0; total];
            let (mut before, mut filling) = (f64::MAX, f64::MAX);
            for _ in 0..self.rounds {
                before = before.min(nanoseconds(|| {
                    black_box(lent::total_samples(black_box(digits), black_box(rate)));
                }));
                let mut set = Lent::at(Start { rate, digits, skip: 0 });
                filling = filling.min(nanoseconds(|| {
                    for part in out.chunks_mut(4096) {
                        assert_eq!(set.process_out(part), 0);
                    }
                }));
            }
            println!(
                "{rate:>10} {:>10} {total:>10} {:>10.1} {:>10.1} {:>10.0}",
                digits.len(), before / 1e3, filling / 1e3, filling / before
            );
        }
    }

    fn best(&self, mut round: impl FnMut() -> f64) -> f64 {
        (0..self.rounds).map(|_| round()).fold(f64::MAX, f64::min) / CALLS as f64
    }

    fn best_of_port(&self, call: impl Fn(u64) -> u64) -> f64 {
        let time = |turns| {
            self.best(|| {
                nanoseconds(|| {
                    black_box(call(turns));
                })
            })
        };
        time(CALLS) - time(0)
    }
}
