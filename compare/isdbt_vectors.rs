// Answers for crate vectors_isdbt: what the given Rust makes of generated streams. A line: the call (e: encode_punctured twice, the encoder
// carried on; p: depuncture; v: decode_punctured), the rate's row in Table 3-8, the traceback, the periods, and a digest of the output, all
// in hexadecimal. compare/isdbt_vectors.sh builds this and the given Rust.

use isdb_fec::conv::ConvEncoder;
use isdbt_core::CodeRate;
use isdbt_fec::conv::{Puncturing, decode_punctured, depuncture, encode_punctured};

const RATES: [CodeRate; 5] = [CodeRate::R1_2, CodeRate::R2_3, CodeRate::R3_4, CodeRate::R5_6, CodeRate::R7_8];

// The generator of the streams: 16 bits a number.
struct Stream(u64);

impl Stream {
    fn new(row: usize, periods: usize) -> Self {
        Stream((row * 100_000 + periods) as u64)
    }
    fn next(&mut self) -> u64 {
        self.0 = (self.0 * 1_103_515_245 + 12_345) % (1 << 32);
        self.0 / 65_536
    }
    // A bit, and seven bits above it that do not count.
    fn byte(&mut self) -> u8 {
        (self.next() % 256) as u8
    }
    // From 2^-8 to 2^8, of either sign, with 16 digits.
    fn soft(&mut self) -> f32 {
        let (a, b) = (self.next(), self.next());
        f32::from_bits((a % 2 * 0x8000_0000 + (119 + a / 2 % 16) * 0x80_0000 + b * 128) as u32)
    }
}

// A digest of numbers below 2^32.
struct Digest(u64);

impl Digest {
    fn take(&mut self, value: u64) {
        self.0 = (self.0 * 1_000_003 + value + 1) % 4_294_967_291;
    }
}

fn line(call: char, row: usize, traceback: usize, periods: usize, digest: Digest) {
    println!("{call} {row} {traceback:04x} {periods:05x} {:08x}", digest.0);
}

fn encodes(row: usize, periods: usize) {
    let p = Puncturing::new(RATES[row]);
    let mut s = Stream::new(row, periods);
    let bits: Vec<u8> = (0..periods * p.period).map(|_| s.byte()).collect();
    let mut enc = ConvEncoder::new();
    let mut digest = Digest(0);
    for _ in 0..2 {
        let mut out = Vec::new();
        encode_punctured(&mut enc, &p, &bits, &mut out);
        out.iter().for_each(|&b| digest.take(b.into()));
        digest.take(enc.state().into());
    }
    line('e', row, 0, periods, digest);
}

fn values(row: usize, periods: usize) -> Vec<f32> {
    let mut s = Stream::new(row, periods);
    (0..periods * Puncturing::new(RATES[row]).out_per_period()).map(|_| s.soft()).collect()
}

fn depunctures(row: usize, periods: usize) {
    let mut out = Vec::new();
    depuncture(&Puncturing::new(RATES[row]), &values(row, periods), &mut out);
    let mut digest = Digest(0);
    out.iter().for_each(|x| digest.take(x.to_bits().into()));
    line('p', row, 0, periods, digest);
}

fn decodes(row: usize, traceback: usize, periods: usize) {
    let out = decode_punctured(RATES[row], &values(row, periods), traceback);
    let mut digest = Digest(out.len() as u64);
    out.iter().for_each(|&b| digest.take(b.into()));
    line('v', row, traceback, periods, digest);
}

fn main() {
    for row in 0..5 {
        let period = Puncturing::new(RATES[row]).period;
        for periods in [0, 1, 2, 3, 20, 700] {
            encodes(row, periods);
            depunctures(row, periods);
        }
        for traceback in [0, 1, 112, 1024] {
            let first = (4096 + traceback.max(1)) / period;
            let second = (8192 + traceback.max(1)) / period;
            for periods in [0, 1, 9, first - 1, first, first + 1, second - 1, second + 1] {
                decodes(row, traceback, periods);
            }
        }
    }
}
