// The root of isdb-fec: the decoder, and names that TMCC packing (left out) leans on.
pub mod conv;

pub use conv::{ConvEncoder, ViterbiDecoder};

pub struct Prbs15;

impl Prbs15 {
    #[allow(clippy::new_without_default)]
    pub fn new() -> Self {
        Self
    }

    pub fn next_byte(&mut self) -> u8 {
        0
    }
}

pub struct Rs;

pub const RS_64_48: Rs = Rs;

impl Rs {
    pub fn encode_in_place(&self, _: &mut [u8; 64]) {}

    pub fn decode(&self, _: &mut [u8; 64]) -> Result<usize, ()> {
        Err(())
    }
}
