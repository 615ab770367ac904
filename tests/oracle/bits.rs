//! 02's E7, played apart from the Rust's `Deframer`, which hunts for the next zero at once after a bad stop
//! bit: the reader here skips to the next one bit. It keeps the frame's bits as they came.

/// The reader's place.
pub enum Reader {
    Idle,
    /// 1 to 9 bits of a frame, the start bit first.
    Frame(Vec<bool>),
    Skipping,
}

impl Reader {
    /// How many bits are taken, and the bytes given, with room for so many.
    pub fn read(&mut self, bits: &[u8], room: usize) -> (usize, Vec<u8>) {
        let mut given = Vec::new();
        for (taken, &bit) in bits.iter().enumerate() {
            let one = bit != 0;
            let next = match self {
                Reader::Idle if one => Reader::Idle,
                Reader::Idle => Reader::Frame(vec![one]),
                Reader::Skipping if one => Reader::Idle,
                Reader::Skipping => Reader::Skipping,
                Reader::Frame(frame) if frame.len() < 9 => {
                    let mut longer = frame.clone();
                    longer.push(one);
                    Reader::Frame(longer)
                }
                Reader::Frame(_) if !one => Reader::Skipping,
                Reader::Frame(frame) => {
                    if given.len() == room {
                        return (taken, given);
                    }
                    given.push(byte_of(&frame[1..]));
                    Reader::Idle
                }
            };
            *self = next;
        }
        (bits.len(), given)
    }
}

/// A frame's byte; none where its start bit is one or its stop bit zero.
pub fn unframe(bits: &[u8]) -> Option<u8> {
    let frame: Vec<bool> = bits.iter().map(|&bit| bit != 0).collect();
    if frame[0] || !frame[9] {
        return None;
    }
    Some(byte_of(&frame[1..9]))
}

/// Eight bits, lowest first.
fn byte_of(bits: &[bool]) -> u8 {
    bits.iter().enumerate().map(|(i, &bit)| (bit as u8) << i).sum()
}
