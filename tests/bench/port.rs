//! The port, by the exports of the crate `bench`.

// A slice goes over as its address and its length.
#[allow(improper_ctypes)]
extern "C" {
    fn bench_fills(rate: u32, digits: &[u8], skip: usize, length: usize, turns: u64, out: &mut [f32]) -> u32;
    fn bench_sent(rate: u32, digits: &[u8], skip: usize, length: usize, turns: u64, out: &mut [f32]) -> u64;
    fn bench_empty_fills(rate: u32, digits: &[u8], skip: usize, turns: u64) -> u32;
    fn bench_bytes(rate: u32, digits: &[u8], skip: usize, turns: u64) -> u64;
    fn bench_strings(rate: u32, digits: &[u8], skip: usize, turns: u64) -> u64;
    fn bench_bits(bits: &[u8], turns: u64) -> u64;
    fn bench_sound(rate: u32, digits: &[u8], skip: usize, turns: u64) -> u64;
}

/// Where a call begins: the set dialled the digits at the rate and played `skip` samples.
#[derive(Clone, Copy)]
pub struct Start<'a> {
    pub rate: u32,
    pub digits: &'a [u8],
    pub skip: usize,
}

// None of the exports has a `requires`, so any arguments may be passed.
impl Start<'_> {
    /// Fills `out` in buffers of `length`, as often as `turns` says, from the start each time.
    pub fn fills(self, length: usize, turns: u64, out: &mut [f32]) -> u32 {
        unsafe { bench_fills(self.rate, self.digits, self.skip, length, turns, out) }
    }

    /// As `fills`, with 256 bytes queued at the start; answers how many wait after the last turn.
    pub fn sent(self, length: usize, turns: u64, out: &mut [f32]) -> u64 {
        unsafe { bench_sent(self.rate, self.digits, self.skip, length, turns, out) }
    }

    pub fn empty_fills(self, turns: u64) -> u32 {
        unsafe { bench_empty_fills(self.rate, self.digits, self.skip, turns) }
    }

    /// Answers how many bytes the last one sent.
    pub fn bytes(self, turns: u64) -> u64 {
        unsafe { bench_bytes(self.rate, self.digits, self.skip, turns) }
    }

    /// Strings of eleven bytes; answers how many bytes the last one sent.
    pub fn strings(self, turns: u64) -> u64 {
        unsafe { bench_strings(self.rate, self.digits, self.skip, turns) }
    }

    /// Answers how often the set was sound.
    pub fn sound(self, turns: u64) -> u64 {
        unsafe { bench_sound(self.rate, self.digits, self.skip, turns) }
    }
}

/// Reads the bits from idle, as often as `turns` says; answers how many bytes they give.
pub fn bits(list: &[u8], turns: u64) -> u64 {
    unsafe { bench_bits(list, turns) }
}
