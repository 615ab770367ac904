//! The port through its C interface: a set in lent memory, as include/gibbonplate.h has it.

use crate::port::Start;

#[repr(C)]
pub struct Lent {
    longs: [u64; 6],
    counts: [u32; 4],
    reals: [f64; 11],
    marks: [u8; 13],
    line: [u8; 80],
    keys: [u8; 76],
    queue: [u8; 256],
}

type Longs = [u64; 6];
type Counts = [u32; 4];
type Reals = [f64; 11];
type Marks = [u8; 13];
type Line = [u8; 80];
type Keys = [u8; 76];
type Queue = [u8; 256];

// A slice goes over as its address and its length.
#[allow(improper_ctypes)]
extern "C" {
    fn gibbonplate_new_in(l: &mut Longs, c: &mut Counts, r: &mut Reals, m: &mut Marks, b: &mut Line, k: &mut Keys, q: &mut Queue, rate: u32) -> u8;
    fn gibbonplate_feed_in(
        l: &mut Longs, c: &mut Counts, r: &mut Reals, m: &mut Marks, b: &mut Line, k: &mut Keys, q: &mut Queue,
        byte: u8, carrier: bool, outbox: &mut [u8], codes: &mut [u8; 2], sent: &mut usize,
    ) -> u8;
    fn gibbonplate_feed_all_in(
        l: &mut Longs, c: &mut Counts, r: &mut Reals, m: &mut Marks, b: &mut Line, k: &mut Keys, q: &mut Queue,
        bytes: &[u8], carrier: bool, outbox: &mut [u8], codes: &mut [u8], sent: &mut usize,
    ) -> u8;
    fn gibbonplate_process_out_in(
        l: &mut Longs, c: &mut Counts, r: &mut Reals, m: &mut Marks, b: &mut Line, k: &mut Keys, q: &mut Queue, samples: &mut [f32],
        key: &mut [u8; 2],
    ) -> u8;
    fn gibbonplate_total_samples(digits: &[u8], rate: u32) -> u32;
}

/// T, before the call.
pub fn total_samples(digits: &[u8], rate: u32) -> u32 {
    unsafe { gibbonplate_total_samples(digits, rate) }
}

impl Lent {
    /// The set where a call begins.
    pub fn at(start: Start) -> Lent {
        let mut s = Lent { longs: [0; 6], counts: [0; 4], reals: [0.0; 11], marks: [0; 13], line: [0; 80], keys: [0; 76], queue: [0; 256] };
        unsafe {
            gibbonplate_new_in(&mut s.longs, &mut s.counts, &mut s.reals, &mut s.marks, &mut s.line, &mut s.keys, &mut s.queue, start.rate);
        }
        for &byte in b"ATDT".iter().chain(start.digits).chain(b"\r") {
            s.feed(byte, false);
        }
        let mut scratch = [0.0; 4096];
        let mut left = start.skip;
        while left > 0 {
            let part = left.min(scratch.len());
            assert_eq!(s.process_out(&mut scratch[..part]), 0);
            left -= part;
        }
        s
    }

    pub fn feed(&mut self, byte: u8, carrier: bool) -> usize {
        let (mut outbox, mut codes, mut sent) = ([0; 4], [0; 2], 0);
        unsafe {
            gibbonplate_feed_in(
                &mut self.longs, &mut self.counts, &mut self.reals, &mut self.marks, &mut self.line, &mut self.keys, &mut self.queue,
                byte, carrier, &mut outbox, &mut codes, &mut sent,
            );
        }
        sent
    }

    pub fn feed_all(&mut self, bytes: &[u8], carrier: bool) -> usize {
        let (mut outbox, mut codes, mut sent) = ([0; 44], [0; 33], 0);
        unsafe {
            gibbonplate_feed_all_in(
                &mut self.longs, &mut self.counts, &mut self.reals, &mut self.marks, &mut self.line, &mut self.keys, &mut self.queue,
                bytes, carrier, &mut outbox, &mut codes, &mut sent,
            );
        }
        sent
    }

    pub fn process_out(&mut self, samples: &mut [f32]) -> u8 {
        let mut key = [0; 2];
        unsafe {
            gibbonplate_process_out_in(
                &mut self.longs, &mut self.counts, &mut self.reals, &mut self.marks, &mut self.line, &mut self.keys, &mut self.queue, samples,
                &mut key,
            )
        }
    }
}
