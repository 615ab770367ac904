//! Stands in for the crate `libm`: document 01's S and E in place of `sin` and `exp`,
//! in 01's order of operations. `floor` and `round` are the real ones.

const TAU: f64 = 6.283185307179586;
const H: f64 = 3.141592653589793;
const Q: f64 = 1.5707963267948966;

/// 01's S.
pub fn sin(x: f64) -> f64 {
    if !(0.0 <= x && x < TAU) {
        return 0.0;
    }
    let second_half = x >= H;
    let mut y = if second_half { x - H } else { x };
    if y > Q {
        y = H - y;
    }
    let z = y * y;
    let mut p = 1.0;
    for c in [210.0, 156.0, 110.0, 72.0, 42.0, 20.0, 6.0] {
        p = 1.0 - (z / c) * p;
    }
    let wave = y * p;
    if second_half { -wave } else { wave }
}

/// 01's E.
fn decay(u: f64) -> f64 {
    if !(0.0 <= u && u < 8.0) {
        return 0.0;
    }
    let w = u / 256.0;
    let mut p = 1.0;
    for c in [4.0, 3.0, 2.0, 1.0] {
        p = 1.0 - (w / c) * p;
    }
    for _ in 0..8 {
        p = p * p;
    }
    p
}

pub fn exp(x: f64) -> f64 {
    decay(-x)
}

pub fn floor(x: f64) -> f64 {
    x.floor()
}

/// Half away from zero.
pub fn round(x: f64) -> f64 {
    x.round()
}

/// nco.rs names it for its filter, which 01 leaves out.
pub fn cos(_: f64) -> f64 {
    unreachable!("01 keeps nothing that takes a cosine")
}
