//! What 01 leaves out of the Rust, as far as session.rs has to see it to compile.
//! None of it has an effect: 01 keeps no transmitter, receiver or packet.

pub mod tx {
    pub struct Tx;

    impl Tx {
        pub fn new(_: crate::Config) -> Self {
            Tx
        }
        pub fn set_amplitude(&mut self, _: f32) {}
        pub fn write(&mut self, _: &[u8]) {}
        pub fn write_idle_mark(&mut self, _: usize) {}
        pub fn pending(&self) -> bool {
            false
        }
        /// A fill in Connected is sender.rs's.
        pub fn read(&mut self, _: &mut [f32]) {
            unreachable!("a fill in Connected came to the Rust")
        }
    }
}

pub mod rx {
    /// A receiver that always hears a carrier, so that what session.rs answers is
    /// whether it has a receiver at all. The flag handed in decides the rest.
    pub struct Rx;

    impl Rx {
        pub fn new(_: crate::Config) -> Self {
            Rx
        }
        pub fn carrier_detected(&self) -> bool {
            true
        }
        pub fn write(&mut self, _: &[f32]) {}
        pub fn read(&mut self, _: &mut [u8]) -> usize {
            0
        }
    }
}

pub mod link {
    pub const MAX_PAYLOAD: usize = 255;

    pub enum PacketKind {
        Data,
        Turn,
        Ack,
    }

    pub struct Packet {
        pub seq: u8,
        pub kind: PacketKind,
        pub payload: Vec<u8>,
    }

    pub fn encode_packet(_: &Packet) -> Vec<u8> {
        Vec::new()
    }

    pub struct PacketReader;

    impl PacketReader {
        pub fn new() -> Self {
            PacketReader
        }
        pub fn push(&mut self, _: &[u8]) -> Vec<Packet> {
            Vec::new()
        }
    }
}
