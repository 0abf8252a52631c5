// What the programs share: the generator, tables and mappings as the C calls have them, and the reference's frames.
#![allow(dead_code)]
use isdb_fec::ViterbiDecoder;
use isdbs_core::combination::{Combination, CombinationWord, Modulation};
use isdbs_core::frame::{W1, W2, W3};
use isdbs_core::slots::runs;
use isdbs_core::tmcc::{CombinationEntry, TmccInfo};
use isdbs_phy::demod::{DemodOptions, Mapping, state_after};

#[path = "draws.rs"]
mod draws;
pub use draws::*;

pub type Cplx = isdbs_phy::Cplx;

pub fn load(seed: u64, n: usize) -> Vec<u8> {
    Draws(seed).bytes(n)
}

pub fn digest(words: impl Iterator<Item = u64>) -> u64 {
    words.fold(0x9e37_79b9_7f4a_7c15, |h, w| step(h ^ w))
}

pub fn info(table: u64) -> TmccInfo {
    TmccInfo {
        order_of_change: 0,
        combinations: entries(table).map(|(word, slots)| CombinationEntry { word: CombinationWord::from_word(word), slots }),
        relative_ts: [0; 48],
        ts_ids: [0; 8],
        emergency: false,
        uplink: 0,
        reserved: 0,
    }
}

pub fn mapping(m: u8) -> Mapping {
    Mapping { conjugate: m & 1 != 0, qpsk_p1_on_q: m & 2 != 0, tc8psk_c1_is_y: m & 4 != 0 }
}

pub fn options(m: u8, known: bool, scale: f32) -> DemodOptions {
    DemodOptions { mapping: mapping(m), known_start: known, llr_scale: scale }
}

pub fn valid_slots(table: u64) -> usize {
    runs(&info(table)).iter().map(|r| r.valid_slots).sum()
}

fn steps_of(c: Combination, valid: usize) -> usize {
    if c.modulation() == Modulation::Tc8psk { valid * 812 } else { valid * 1624 }
}

/// Trellis steps of a frame.
pub fn steps(table: u64) -> usize {
    runs(&info(table)).iter().map(|r| steps_of(r.combination, r.valid_slots)).sum()
}

pub fn start(first: bool) -> u8 {
    state_after(if first { W2 } else { W3 })
}

/// The reference's frame and end state from any start state, where it can be had: from 0 and 63 by the call itself; from others on tables whose last
/// entry is free and that leave a slot, as the rest of a frame with one TC8PSK slot before, whose last six coded bits are the state.
pub fn reference_frame(bytes: &[u8], t: u64, m: u8, state: u8) -> Option<(Vec<Cplx>, u8)> {
    for first in [true, false] {
        if state == start(first) {
            let (points, enc) = isdbs_phy::demod::encode_frame_with_state(bytes, &info(t), first, mapping(m));
            return Some((points, enc.state()));
        }
    }
    let e = entries(t);
    if slot_sum(t) > 47 || e[3].1 != 0 {
        return None;
    }
    let before = table(&[(7, 1), e[0], e[1], e[2]]);
    let mut all = vec![0u8; 203];
    // the coded bit of a symbol is the second of two: 12 bits end in six of them, the oldest (bit 0 of the state) first
    let bits = (0..6).fold(0u16, |w, i| w << 2 | u16::from(state >> i & 1));
    all[201..].copy_from_slice(&bits.to_be_bytes());
    all.extend_from_slice(bytes);
    let (mut points, enc) = isdbs_phy::demod::encode_frame_with_state(&all, &info(before), true, mapping(m));
    points.drain(..812);
    // behind the frame it is as unused points are
    let unused = Cplx::new(0.0, if m & 1 != 0 { -0.0 } else { 0.0 });
    points.resize(MAIN, unused);
    Some((points, enc.state()))
}

/// The points of a recipe of README.md, from the clean frame.
pub fn received(clean: &[Cplx], seed: u64, kind: u8, amplitude: f64) -> Vec<Cplx> {
    let mut draws = Draws(seed ^ 0x5555_5555_5555_5555);
    let mut part = |clean: f64| {
        let r = draws.next();
        let u = f64::from_bits(0x3ff0_0000_0000_0000 + (r >> 12)) - 1.5;
        if kind == 0 {
            return clean + u * amplitude;
        }
        if kind == 2 {
            let loud = if clean < 0.0 { -65_536.0 } else { 65_536.0 };
            return if r % 8 == 0 { -loud } else { loud };
        }
        match r % 8 {
            0 => 65_536.0,
            1 => -65_536.0,
            2 => -0.0,
            3 => f64::from_bits(1),
            4 => f64::from_bits(0xb6a0_0000_0000_0000),
            5 => 0.0,
            6 => clean,
            _ => u * 131_072.0,
        }
    };
    clean
        .iter()
        .map(|v| {
            let re = part(v.re);
            Cplx::new(re, part(v.im))
        })
        .collect()
}

/// The points with those of each run times 2^k, k being that of its combination in the order of words 1 to 7. Away from subnormal numbers reading them with
/// one scale is reading the points with that scale times 2^k: the Rust's answer where the seven scales differ.
pub fn louder(points: &[Cplx], t: u64, powers: &[i32; 7]) -> Vec<Cplx> {
    let mut out = points.to_vec();
    for r in runs(&info(t)) {
        let by = f64::from(2f32.powi(powers[usize::from(CombinationWord::Assigned(r.combination).word()) - 1]));
        for v in &mut out[r.symbols.clone()] {
            *v = Cplx::new(v.re * by, v.im * by);
        }
    }
    out
}

/// Seven scales: one times 2^k.
pub fn scales_of(scale: f32, powers: &[i32; 7]) -> [f32; 7] {
    powers.map(|k| scale * 2f32.powi(k))
}

/// The branch metrics of a frame, a quadruple for each step, worked out here from document 01.
pub fn metrics(points: &[Cplx], t: u64, m: u8, scale: f32) -> Vec<[f32; 4]> {
    let mut out = Vec::new();
    let pair = |lx: f32, ly: f32| [lx + ly, lx - ly, -lx + ly, -lx - ly];
    let at = |k: usize| Cplx::new(points[k].re, if m & 1 != 0 { -points[k].im } else { points[k].im });
    let l = |x: f64| x as f32 * scale;
    for r in runs(&info(t)) {
        let c = r.combination;
        let n = steps_of(c, r.valid_slots);
        let from = r.symbols.start;
        // mother bits kept in a period, in the order of transmission: 2(i-1) for Xi, 2(i-1)+1 for Yi
        let (period, kept): (usize, &[usize]) = match c {
            Combination::Qpsk2_3 => (4, &[0, 1, 3, 4, 5, 7]),
            Combination::Qpsk3_4 => (3, &[0, 1, 3, 4]),
            Combination::Qpsk5_6 => (5, &[0, 1, 3, 4, 7, 8]),
            Combination::Qpsk7_8 => (7, &[0, 1, 3, 5, 7, 8, 11, 12]),
            _ => (1, &[0, 1]),
        };
        match c.modulation() {
            Modulation::Bpsk => out.extend((0..n).map(|k| pair(l(at(from + 2 * k).re), l(at(from + 2 * k + 1).re)))),
            Modulation::Qpsk => {
                for p in 0..n / period {
                    let mut mother = [0f32; 14];
                    for (i, &k) in kept.iter().enumerate() {
                        let v = at(from + p * kept.len() / 2 + i / 2);
                        mother[k] = l(if (i % 2 == 0) == (m & 2 == 0) { v.re } else { v.im });
                    }
                    out.extend((0..period).map(|i| pair(mother[2 * i], mother[2 * i + 1])));
                }
            }
            Modulation::Tc8psk => {
                for k in 0..n {
                    let v = at(from + k);
                    let mut four = [0f32; 4];
                    for label in 0..4u8 {
                        let p = isdbs_phy::demod::psk8_point(label);
                        let (c1, c0) = (label >> 1, label & 1);
                        let place = if m & 4 != 0 { 2 * c0 + c1 } else { label };
                        four[usize::from(place)] = (v.re * p.re + v.im * p.im).abs() as f32 * scale;
                    }
                    out.push(four);
                }
            }
        }
    }
    out
}

/// All steps + 16 bits of a frame, by the reference's decoder over `metrics`.
pub fn reference_bits(points: &[Cplx], t: u64, m: u8, first: bool, known: bool, scale: f32) -> Vec<u8> {
    let mut decoder = if known { ViterbiDecoder::with_state(128, start(first)) } else { ViterbiDecoder::new_unknown_state(128) };
    let mut bits = Vec::new();
    decoder.push_metrics(&metrics(points, t, m, scale), &mut bits);
    decoder.push_known(&std::array::from_fn::<u8, 16, _>(|i| (W1 >> (15 - i) & 1) as u8), &mut bits);
    decoder.flush(&mut bits);
    bits
}

/// The strained steps of each valid slot, from `metrics` and the decoded bits, which are encoded again from the start state.
pub fn reference_strain(points: &[Cplx], t: u64, m: u8, first: bool, scale: f32, bits: &[u8]) -> Vec<u32> {
    let mut state = u32::from(start(first));
    let parity = |w: u32| (w.count_ones() % 2) as usize;
    let strained = metrics(points, t, m, scale).into_iter().zip(bits).map(|(four, &u)| {
        let word = u32::from(u) << 6 | state;
        state = word >> 1;
        let at = four[2 * parity(word & 0o171) + parity(word & 0o133)];
        u32::from(four.iter().any(|&x| x > at))
    });
    let strained: Vec<u32> = strained.collect();
    let mut counts = Vec::new();
    let mut from = 0;
    for r in runs(&info(t)) {
        for _ in 0..r.valid_slots {
            let to = from + steps_of(r.combination, 1);
            counts.push(strained[from..to].iter().sum());
            from = to;
        }
    }
    counts
}

/// The bits of a decoded frame, from its bytes (C2 left out) and the 16 known bits: what the decoder gave.
pub fn decoded_bits(bytes: &[u8], t: u64) -> Vec<u8> {
    let mut all = bytes.iter().flat_map(|&b| (0..8).rev().map(move |i| b >> i & 1));
    let mut bits = Vec::new();
    for r in runs(&info(t)) {
        for _ in 0..steps_of(r.combination, r.valid_slots) {
            if r.combination.modulation() == Modulation::Tc8psk {
                all.next();
            }
            bits.push(all.next().unwrap());
        }
    }
    bits.extend((0..16).rev().map(|i| (W1 >> i & 1) as u8));
    bits
}

/// Accepted tables of every kind: whole frames of one combination, mixed ones, word 15 with slots, reserved words without, high word bits, empty.
pub fn some_tables() -> Vec<u64> {
    let mut all: Vec<u64> = (1..8).map(|w| table(&[(w, 48)])).collect();
    all.extend(
        [
            &[(1, 4), (7, 44)][..],
            &[(7, 22), (6, 8), (3, 9), (1, 8)],
            &[(7, 10), (5, 12), (4, 16), (2, 10)],
            &[(6, 24), (5, 24)],
            &[(3, 3), (5, 6), (3, 3), (5, 36)],
            &[(3, 6), (4, 8), (6, 16), (7, 17)],
            &[(15, 10), (2, 2)],
            &[(15, 3), (7, 4), (0x9f, 5), (1, 36)],
            &[(2, 0), (7, 1)],
            &[(0, 0), (6, 8), (14, 0), (2, 0)],
            &[(0x17, 20), (0xf6, 8), (0x21, 8), (0x8f, 12)],
            &[(7, 1), (1, 4), (7, 1), (2, 42)],
            &[(4, 4), (2, 2), (1, 4)],
            &[(7, 47)],
            &[],
        ]
        .map(table),
    );
    assert!(all.iter().all(|&t| table_row(t) == 0));
    all
}
