// The stored lists: vectors FOLDER writes encode.hex and decode.hex there, in the format of README.md.
mod common;
use common::*;
use std::fmt::Write;

fn encode_line(out: &mut String, t: u64, m: u8, state: u8, count: usize, seed: u64) {
    let Some((points, end)) = reference_frame(&load(seed, count), t, m, state) else { return };
    let sum = digest(points.iter().flat_map(|v| [v.re.to_bits(), v.im.to_bits()]));
    let at = (step(seed) >> 20) as usize % (slot_sum(t).max(1) * 812);
    let (re, im) = (points[at].re.to_bits(), points[at].im.to_bits());
    writeln!(out, "{t:016x} {m:02x} {state:02x} {count:04x} {seed:016x} {sum:016x} {end:02x} {at:04x} {re:016x} {im:016x}").unwrap();
}

fn encode() -> String {
    let mut out = String::new();
    let mut seeds = Draws(0x243f_6a88_85a3_08d3);
    let tables = some_tables();
    // each table under every mapping, from the two states that a frame starts in, in turn
    for (i, &t) in tables.iter().enumerate() {
        for m in 0..8 {
            let state = if (i + usize::from(m)) % 2 == 0 { 0 } else { 63 };
            encode_line(&mut out, t, m, state, valid_slots(t) * 203, seeds.next());
        }
    }
    // any state, where the reference can be had
    for state in 0..64u8 {
        encode_line(&mut out, tables[usize::from(state) % tables.len()], state % 8, state, 700, seeds.next());
        encode_line(&mut out, table(&[(state % 7 + 1, 24)]), 4, state, 24 * 203, seeds.next());
    }
    // no bytes, too few and too many
    for (i, &t) in tables.iter().enumerate() {
        let whole = valid_slots(t) * 203;
        for count in [0, 1, whole.saturating_sub(1), whole / 2, whole + 1, whole + 300] {
            encode_line(&mut out, t, (i % 8) as u8, if count % 2 == 0 { 0 } else { 63 }, count, seeds.next());
        }
    }
    out
}

fn decode_line(out: &mut String, t: u64, m: u8, first: bool, known: bool, scale: f32, powers: &[i32; 7], seed: u64, kind: u8, amplitude: f64) {
    let valid = valid_slots(t);
    let (clean, _) = reference_frame(&load(seed, valid * 203), t, m, start(first)).unwrap();
    let points = received(&clean, seed, kind, amplitude);
    assert!(points.iter().all(|v| v.re.abs() <= 65_536.0 && v.im.abs() <= 65_536.0));
    // the Rust has one scale, and reads the points of each run times 2^k
    let points = louder(&points, t, powers);
    let frame = isdbs_phy::demod::decode_frame(&points, &info(t), first, &options(m, known, scale));
    assert_eq!(frame.bytes.len(), 203 * valid);
    let bits = decoded_bits(&frame.bytes, t);
    let steps = steps(t);
    assert_eq!(bits.len(), steps + 16);
    // the decoder's bits, over metrics independently computed, are those of the bytes
    assert_eq!(bits, reference_bits(&points, t, m, first, known, scale));
    let bits = digest(bits.iter().map(|&b| u64::from(b)));
    let bytes = digest(frame.bytes.iter().map(|&b| u64::from(b)));
    writeln!(
        out,
        "{t:016x} {m:02x} {:02x} {:02x} {} {seed:016x} {kind:02x} {:016x} {steps:08x} {valid:02x} {bits:016x} {bytes:016x}",
        u8::from(first),
        u8::from(known),
        scales_of(scale, powers).map(|x| format!("{:08x}", x.to_bits())).concat(),
        amplitude.to_bits(),
    )
    .unwrap();
}

fn decode() -> String {
    let mut out = String::new();
    let mut seeds = Draws(0x1319_8a2e_0370_7344);
    let scales = [8.0, 1.0, 64.0, 0.3, f32::from_bits(1), f32::from_bits(0x0080_0000), 63.999_996, 1.0e-20];
    for (i, &t) in some_tables().iter().enumerate() {
        for m in 0..8u8 {
            let n = i + usize::from(m);
            let first = n % 2 == 0;
            // clean, slightly and strongly noisy, hopeless
            decode_line(&mut out, t, m, first, n % 3 != 0, 8.0, &[0; 7], seeds.next(), 0, [0.0, 1.0 / 16.0, 0.9, 1.6, 2.5, 131_000.0][n % 6]);
            if m % 4 == 1 {
                // extreme parts under any scale, or every part at a limit and the greatest scale
                let (scale, kind) = if m == 1 { (scales[n % 8], 1) } else { (64.0, 2) };
                decode_line(&mut out, t, m, !first, n % 3 == 0, scale, &[0; 7], seeds.next(), kind, 0.0);
                decode_line(&mut out, t, m, first, true, scales[(n + 3) % 8], &[0; 7], seeds.next(), 0, 1.3);
            }
        }
    }
    // unequal scales
    for (i, &t) in some_tables().iter().enumerate() {
        let powers = std::array::from_fn(|w| ((5 * i + 3 * w) % 11) as i32 - 7);
        decode_line(&mut out, t, (i % 8) as u8, i % 2 == 0, i % 3 != 0, 8.0, &powers, seeds.next(), 0, [1.2, 0.0, 1.6][i % 3]);
    }
    out
}

fn main() {
    let folder = std::env::args().nth(1).expect("a folder");
    for (name, lines) in [("encode.hex", encode()), ("decode.hex", decode())] {
        std::fs::write(format!("{folder}/{name}"), &lines).unwrap();
        println!("{} records in {folder}/{name}", lines.lines().count());
    }
}
