// Answers for crate vectors_soft: f64 patterns and what Rust's `as f32` makes of them, a line for each, in hexadecimal.
// A NaN's answer is written as 7fc00000, whatever its pattern.
//
//   rustc -O compare/soft_vectors.rs -o soft_vectors && ./soft_vectors > crates/vectors_soft/data/soft.hex

use std::collections::BTreeSet;

// A line for a pattern without its sign: with both signs where `both`, else with the sign that its count gives.
fn line(seen: &mut BTreeSet<u64>, bits: u64, both: bool) {
    if !seen.insert(bits) {
        return;
    }
    let minus = bits | 1 << 63;
    let signed = if seen.len() % 2 == 0 { minus } else { bits };
    for bits in if both { vec![bits, minus] } else { vec![signed] } {
        let rounded = f64::from_bits(bits) as f32;
        let answer = if rounded.is_nan() { 0x7fc0_0000 } else { rounded.to_bits() };
        println!("{bits:016x} {answer:08x}");
    }
}

// The f64 of an f32 pattern, and those around the midpoint to the next f32.
fn around(seen: &mut BTreeSet<u64>, pattern: u32, both: bool) {
    let low = f64::from(f32::from_bits(pattern));
    let high = if pattern == 0x7f7f_ffff { 2f64.powi(128) } else { f64::from(f32::from_bits(pattern + 1)) };
    let middle = (low / 2.0 + high / 2.0).to_bits();
    for bits in [low.to_bits(), middle - 1, middle, middle + 1, high.to_bits() - 1] {
        line(seen, bits, both);
    }
}

fn main() {
    let mut seen = BTreeSet::new();
    let seen = &mut seen;
    for bits in [0, 1, 0x7fef_ffff_ffff_ffff, 0x7ff0_0000_0000_0000, 0x7ff0_0000_0000_0001, 0x7ff8_0000_0000_0000, 0x7fff_ffff_ffff_ffff] {
        line(seen, bits, true);
    }
    // normal results, the last before an infinity among them: the first, an odd and the last of each exponent
    for exponent in 1..255u32 {
        for digits in [0, 1, 0x7f_ffff] {
            around(seen, exponent << 23 | digits, exponent == 254);
        }
    }
    // subnormal results, by their leading digit
    for digit in 0..23 {
        for pattern in [(1u32 << digit) - 1, 1 << digit, (1 << digit) + 1] {
            around(seen, pattern, true);
        }
    }
    // every exponent of an f64 on either side of where results are subnormal, zero or infinite
    for exponent in (860..900u64).chain(1145..1155) {
        for digits in [0, 1, 0x7_ffff_ffff_ffff, 0x8_0000_0000_0000, 0x8_0000_0000_0001, 0xf_ffff_ffff_ffff] {
            line(seen, exponent << 52 | digits, false);
        }
    }
    // random patterns: any, and with an exponent of an f32
    let mut seed = 0x9e37_79b9_7f4a_7c15u64;
    for turn in 0..600u64 {
        seed ^= seed << 13;
        seed ^= seed >> 7;
        seed ^= seed << 17;
        let any = seed & (u64::MAX >> 1);
        line(seen, if turn % 3 == 0 { any } else { (868 + any % 290) << 52 | any >> 11 }, false);
    }
}
