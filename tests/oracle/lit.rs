//! 02's E8, the key that is lit, apart from the Rust's files. As the cue it is heard: the call is dialled on an
//! overture of the Rust's own, which is played sample by sample, and a digit's tone is what sounds between two gaps,
//! with the zero of its first sample. The keys of the number, in order, say which key that is.

use crate::overture::{Overture, Stage};

/// Row and column.
pub type Key = (usize, usize);

const KEYPAD: &str = "123A456B789C*0#D";

/// The first and the last sample of each digit's tone, numbered from 1 in the whole overture.
pub fn tones(digits: &str, rate: u32) -> Vec<(u64, u64)> {
    let mut overture = Overture::new(digits);
    let mut tones: Vec<(u64, u64)> = Vec::new();
    // A gap has more than one zero; a tone may pass through one.
    let mut quiet = 2;
    for number in 1.. {
        let mut sample = [0.0];
        let (_, stage, _) = overture.read(&mut sample, rate);
        if stage == Stage::Ringback {
            break;
        }
        if stage != Stage::Dialling {
            continue;
        }
        if sample[0] == 0.0 {
            quiet += 1;
            continue;
        }
        match tones.last_mut() {
            Some(tone) if quiet < 2 => tone.1 = number,
            _ => tones.push((number - 1, number)),
        }
        quiet = 0;
    }
    tones
}

/// The keys of a number, in order. What is no key is dropped.
pub fn keys(digits: &str) -> Vec<Key> {
    let places = digits.chars().filter_map(|c| KEYPAD.find(c.to_ascii_uppercase()));
    places.map(|place| (place / 4, place % 4)).collect()
}
