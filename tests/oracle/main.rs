//! The judge of behaviour: at.rs, overture.rs, nco.rs, frame.rs and session.rs unchanged,
//! with 01's five stand-ins, behind the lines of 01's program `wall`.
//!
//! oracle [--bits] [--ext] < lines
//!
//! --bits adds a line to each answer: ring, bytes sent and, for a fill, its samples; for a cue, its sample and key; for a string, its codes; for bits, the bytes; for K, the key that is lit.
//! --ext lets T lines give the outbox length and fills be longer than `wall` allows, and adds the lines of 02.

// The Rust is compiled as it is; what 01 leaves out of it is never called.
#![allow(dead_code)]

include!("rust.rs");

mod bits;
mod lines;

use bits::{unframe, Reader};
use lines::{read_line, Call};
use lit::Key;
use set::{Answer, Set};
use std::io::{self, BufRead, BufReader, BufWriter, Write};

/// What the second line tells of a call.
enum Second {
    Sent,
    Filled(Vec<f32>),
    Cued(u64, Option<Key>),
    Coded(Vec<u8>),
    Read(usize, Vec<u8>),
    Framed(Option<u8>),
    Lit(Option<Key>),
}

/// What a buffer holds before its fill, so that a declined one can be told.
const UNTOUCHED: u32 = 0x3F9D_70A4;

/// How long a string is kept.
const KEPT: usize = 300;

fn main() -> io::Result<()> {
    let mut bits = false;
    let mut extended = false;
    for argument in std::env::args().skip(1) {
        match argument.as_str() {
            "--bits" => bits = true,
            "--ext" => extended = true,
            _ => {
                eprintln!("usage: oracle [--bits] [--ext] < lines");
                std::process::exit(2);
            }
        }
    }
    run(bits, extended)
}

fn run(bits: bool, extended: bool) -> io::Result<()> {
    let mut input = BufReader::new(io::stdin().lock());
    let mut output = BufWriter::new(io::stdout().lock());
    let (_, mut set) = Set::new(set::LOWEST_RATE);
    let mut kept = Vec::new();
    let mut reader = Reader::Idle;
    let mut line = Vec::new();
    loop {
        // Whoever waits for an answer before the next line gets it.
        if !input.buffer().contains(&b'\n') {
            output.flush()?;
        }
        line.clear();
        if input.read_until(b'\n', &mut line)? == 0 {
            return output.flush();
        }
        if line.last() == Some(&b'\n') {
            line.pop();
        }
        let Some(call) = read_line(&line, extended) else { continue };
        let Some((answer, second)) = perform(&mut set, &mut kept, &mut reader, call) else { continue };
        print_answer(&mut output, &set, &answer)?;
        if bits {
            print_second(&mut output, &set, second)?;
        }
    }
}

/// The answer, and what its second line tells. A byte that is kept has neither, nor has a frame of other than ten bits.
fn perform(set: &mut Set, kept: &mut Vec<u8>, reader: &mut Reader, call: Call) -> Option<(Answer, Second)> {
    Some(match call {
        Call::Create { rate } => {
            let (answer, fresh) = Set::new(rate);
            *set = fresh;
            *reader = Reader::Idle;
            (answer, Second::Sent)
        }
        Call::Type { byte, carrier, outbox } => (set.feed(byte, carrier, outbox), Second::Sent),
        Call::Lapse { time, carrier } => (set.advance_time(time, carrier), Second::Sent),
        Call::ForceData => (set.force_data_mode(), Second::Sent),
        Call::Fill { length } => {
            let mut buffer = vec![f32::from_bits(UNTOUCHED); length];
            let answer = set.process_out(&mut buffer);
            (answer, Second::Filled(buffer))
        }
        Call::Cue { position } => {
            let (answer, sample) = set.cue(position);
            let key = if answer.refusal == 0 { set.session.key_of(position) } else { None };
            (answer, Second::Cued(sample, key))
        }
        Call::Keep { byte } => {
            if kept.len() < KEPT {
                kept.push(byte);
            }
            return None;
        }
        Call::TypeString { carrier, outbox, places } => {
            let (answer, codes) = set.feed_all(kept, carrier, outbox, places);
            kept.clear();
            (answer, Second::Coded(codes))
        }
        Call::ReadBits { room } => {
            let bits = std::mem::take(kept);
            let (taken, given) = reader.read(&bits, room);
            (Answer::default(), Second::Read(taken, given))
        }
        Call::TakeFrame => {
            let frame = std::mem::take(kept);
            if frame.len() != 10 {
                return None;
            }
            let byte = unframe(&frame);
            (Answer::declined(if byte.is_some() { 0 } else { 11 }), Second::Framed(byte))
        }
        Call::Lit => (Answer::default(), Second::Lit(set.lit)),
        Call::Queue { byte } => (set.queue_byte(byte), Second::Sent),
    })
}

fn print_answer(out: &mut impl Write, set: &Set, answer: &Answer) -> io::Result<()> {
    let mode = if set.in_command_mode() { 'C' } else { 'D' };
    let [first, second] = answer.codes;
    writeln!(
        out,
        "{},{},{},{},{},{},{}",
        answer.refusal, mode, set.state(), set.stage(), set.m(), first, second
    )
}

fn print_second(out: &mut impl Write, set: &Set, second: Second) -> io::Result<()> {
    match second {
        Second::Sent => print_sent(out, set)?,
        Second::Filled(samples) => {
            print_sent(out, set)?;
            print_samples(out, &samples)?;
        }
        Second::Cued(sample, key) => {
            write!(out, "# cue={sample} key=")?;
            print_key(out, key)?;
        }
        Second::Read(taken, given) => {
            write!(out, "# taken={taken} given=")?;
            print_bytes(out, &given)?;
        }
        Second::Framed(byte) => {
            write!(out, "# byte=")?;
            print_bytes(out, byte.as_slice())?;
        }
        Second::Lit(key) => {
            write!(out, "# key=")?;
            print_key(out, key)?;
        }
        Second::Coded(codes) => {
            print_sent(out, set)?;
            write!(out, " codes=")?;
            print_bytes(out, &codes)?;
        }
    }
    writeln!(out)
}

fn print_sent(out: &mut impl Write, set: &Set) -> io::Result<()> {
    write!(out, "# ring={} sent=", set.ring())?;
    print_bytes(out, &set.session.sent)
}

fn print_key(out: &mut impl Write, key: Option<Key>) -> io::Result<()> {
    match key {
        Some((row, column)) => write!(out, "{row}{column}"),
        None => write!(out, "-"),
    }
}

fn print_bytes(out: &mut impl Write, bytes: &[u8]) -> io::Result<()> {
    if bytes.is_empty() {
        write!(out, "-")?;
    }
    for byte in bytes {
        write!(out, "{byte:02X}")?;
    }
    Ok(())
}

fn print_samples(out: &mut impl Write, samples: &[f32]) -> io::Result<()> {
    write!(out, " n={}", samples.len())?;
    if samples.len() > 8 {
        return write!(out, " fnv={:016X}", fnv(samples));
    }
    for sample in samples {
        write!(out, " {:08X}", sample.to_bits())?;
    }
    Ok(())
}

/// 64-bit FNV-1a over the samples' bits, low byte first.
fn fnv(samples: &[f32]) -> u64 {
    let mut hash: u64 = 0xCBF2_9CE4_8422_2325;
    for sample in samples {
        for byte in sample.to_bits().to_le_bytes() {
            hash = (hash ^ byte as u64).wrapping_mul(0x0000_0100_0000_01B3);
        }
    }
    hash
}
