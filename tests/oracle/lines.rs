//! The lines of 01's program `wall`, read strictly: a letter, then fields of decimal
//! digits, each after a comma; and those that --ext adds. A line that is none of them is `None`.

use core::time::Duration;

pub enum Call {
    Create { rate: u128 },
    Type { byte: u8, carrier: bool, outbox: usize },
    Lapse { time: Duration, carrier: bool },
    Fill { length: usize },
    ForceData,
    Cue { position: usize },
    Keep { byte: u8 },
    TypeString { carrier: bool, outbox: usize, places: usize },
    ReadBits { room: usize },
    TakeFrame,
    Lit,
    Queue { byte: u8 },
}

const WIDEST_OUTBOX: u128 = 16;
const STRING_ROOM: u128 = 1_200;

/// With `extended`, a T line may give the outbox length, fills may be longer, and there are C, M, S, B, U, K and Q lines.
pub fn read_line(line: &[u8], extended: bool) -> Option<Call> {
    let mut parts = line.split(|&b| b == b',');
    let letter = parts.next()?;
    let fields = parts.map(number).collect::<Option<Vec<u128>>>()?;
    let longest_fill = if extended { 70_000 } else { 16_384 };
    match (letter, fields.as_slice()) {
        (b"R", &[rate]) => Some(Call::Create { rate }),
        (b"T", &[byte, carrier]) => typed(byte, carrier, WIDEST_OUTBOX),
        (b"T", &[byte, carrier, outbox]) if extended => typed(byte, carrier, outbox),
        (b"W", &[nanos, carrier]) => Some(Call::Lapse {
            time: Duration::from_nanos(u64::try_from(nanos).ok()?),
            carrier: flag(carrier)?,
        }),
        (b"F", &[length]) if length <= longest_fill => Some(Call::Fill { length: length as usize }),
        (b"D", &[]) => Some(Call::ForceData),
        (b"C", &[position]) if extended && position <= 255 => Some(Call::Cue { position: position as usize }),
        (b"K", &[]) if extended => Some(Call::Lit),
        (b"M", &[byte]) if extended => Some(Call::Keep { byte: u8::try_from(byte).ok()? }),
        (b"S", &[carrier, outbox, places]) if extended && outbox.max(places) <= STRING_ROOM => {
            Some(Call::TypeString { carrier: flag(carrier)?, outbox: outbox as usize, places: places as usize })
        }
        (b"B", &[room]) if extended && room <= 64 => Some(Call::ReadBits { room: room as usize }),
        (b"U", &[]) if extended => Some(Call::TakeFrame),
        (b"Q", &[byte]) if extended => Some(Call::Queue { byte: u8::try_from(byte).ok()? }),
        _ => None,
    }
}

fn typed(byte: u128, carrier: u128, outbox: u128) -> Option<Call> {
    if outbox > WIDEST_OUTBOX {
        return None;
    }
    let byte = u8::try_from(byte).ok()?;
    Some(Call::Type { byte, carrier: flag(carrier)?, outbox: outbox as usize })
}

fn flag(n: u128) -> Option<bool> {
    match n {
        0 => Some(false),
        1 => Some(true),
        _ => None,
    }
}

/// One digit or more. A number too long for the type stays at its largest value,
/// which is over every limit.
fn number(field: &[u8]) -> Option<u128> {
    if field.is_empty() || !field.iter().all(u8::is_ascii_digit) {
        return None;
    }
    let larger = |n: u128, digit: &u8| n.saturating_mul(10).saturating_add((digit - b'0') as u128);
    Some(field.iter().fold(0, larger))
}
