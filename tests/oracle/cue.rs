//! 02's E2, the cue, apart from the Rust's files: the call is dialled on an overture of the Rust's own, which is
//! played sample by sample and heard. In Dialling a gap is zeros, and so is a tone's first sample, which fresh
//! oscillators make; its second is none. So a digit's tone begins with the sample before the first that sounds.

use crate::overture::{Overture, Stage};

/// The first sample of each digit's tone, numbered from 1 in the whole overture.
pub fn first_samples(digits: &str, rate: u32) -> Vec<u64> {
    let mut overture = Overture::new(digits);
    let mut firsts = Vec::new();
    // A gap has more than one zero; a tone may pass through one.
    let mut quiet = 2;
    for number in 1.. {
        let mut sample = [0.0];
        let (_, stage, _) = overture.read(&mut sample, rate);
        if stage == Stage::Ringback {
            break;
        }
        if stage != Stage::Dialling {
            continue;
        }
        if sample[0] == 0.0 {
            quiet += 1;
            continue;
        }
        if quiet > 1 {
            firsts.push(number - 1);
        }
        quiet = 0;
    }
    firsts
}
