// The C calls that the given Rust has a counterpart of, beside it, on input that is accepted; the calls of a code of length 3 to 7 as the code of ISDB. For each kind of case: how many ran, and how many differ.
// agree [SCALE]: SCALE (default 1) multiplies the number of random cases.
mod calls;
mod common;
use calls::Feed;
use common::*;
use isdb_fec::ViterbiDecoder;
use isdbs_core::combination::Combination;

/// Cases of one kind.
struct Kind {
    name: &'static str,
    cases: u64,
    different: u64,
}

impl Kind {
    fn new(name: &'static str) -> Self {
        Self { name, cases: 0, different: 0 }
    }

    /// One case; the first of those that differ is shown.
    fn case(&mut self, same: bool, what: impl FnOnce() -> String) {
        self.cases += 1;
        if !same {
            self.different += 1;
            if self.different == 1 {
                println!("DIFFERENT {}: {}", self.name, what());
            }
        }
    }

    fn done(self, all: &mut (u64, u64)) {
        println!("{:>10} cases, {} different: {}", self.cases, self.different, self.name);
        all.0 += self.cases;
        all.1 += self.different;
    }
}

fn soft(all: &mut (u64, u64), scale: u64) {
    let check = |kind: &mut Kind, bits: u64| {
        let x = f64::from_bits(bits);
        let (here, rust) = (calls::soft(x), isdbs_phy::carrier::soft(x));
        kind.case(here.to_bits() == rust.to_bits() || here.is_nan() && rust.is_nan(), || format!("{bits:016x}"));
    };
    let mut kind = Kind::new("soft: around every 1,009th f32 and the midpoint to the next");
    for pattern in (0..0x7f80_0000u32).step_by(1009) {
        let low = f64::from(f32::from_bits(pattern));
        let high = if pattern == 0x7f7f_ffff { 2f64.powi(128) } else { f64::from(f32::from_bits(pattern + 1)) };
        let middle = (low / 2.0 + high / 2.0).to_bits();
        for bits in [low.to_bits(), middle - 1, middle, middle + 1, high.to_bits() - 1] {
            check(&mut kind, bits);
            check(&mut kind, bits | 1 << 63);
        }
    }
    kind.done(all);
    let mut kind = Kind::new("soft: random patterns, NaNs and infinities among them");
    let mut draws = Draws(0x50f7);
    for turn in 0..4_000_000 * scale {
        let r = draws.next();
        check(&mut kind, if turn % 2 == 0 { r } else { r & 0x800f_ffff_ffff_ffff | (865 + r % 300) << 52 });
    }
    kind.done(all);
}

fn word_of(c: Option<Combination>) -> u8 {
    c.map_or(0, Combination::word)
}

fn tables(all: &mut (u64, u64), scale: u64) {
    let mut marks = Kind::new("slot_combinations: every table of one entry and of two, random ones of four");
    let mut runs = Kind::new("runs: the same tables");
    let mut refused = Kind::new("slot_combinations and runs: of the same tables those that rows 10 and 11 refuse");
    let mut check = |t: u64| {
        let row = table_row(t);
        if row != 0 {
            let (mut out, mut numbers, mut count) = ([0xa5u8; 50], [0xa5a5_a5a5u32; 25], 77);
            let same = calls::slot_combinations(t, &mut out) == row && calls::runs(t, &mut numbers, &mut count) == row;
            refused.case(same && out == [0xa5; 50] && numbers == [0xa5a5_a5a5; 25] && count == 77, || format!("{t:016x}"));
            return;
        }
        let rust = info(t);
        let mut out = [0xa5u8; 50];
        let same = calls::slot_combinations(t, &mut out) == 0 && out[..48].iter().zip(rust.slot_combinations()).all(|(&w, c)| w == word_of(c)) && out[48..] == [0xa5; 2];
        marks.case(same, || format!("{t:016x}"));
        let mut out = [0xa5a5_a5a5u32; 25];
        let mut count = 77;
        let answer = calls::runs(t, &mut out, &mut count);
        let want = isdbs_core::slots::runs(&rust);
        let numbers: Vec<u32> = want
            .iter()
            .flat_map(|r| [usize::from(r.combination.word()), r.slots.start, r.slots.end, r.valid_slots, r.symbols.start, r.symbols.end])
            .map(|n| n as u32)
            .collect();
        let same = answer == 0 && count as usize == want.len() && out[..numbers.len()] == numbers[..] && out[numbers.len()..].iter().all(|&x| x == 0xa5a5_a5a5);
        runs.case(same, || format!("{t:016x}"));
    };
    for word in 0..=255 {
        for slots in 0..=48 {
            check(table(&[(word, slots)]));
        }
    }
    for first in 0..16 {
        for second in 0..16 {
            for a in 0..=48 {
                for b in 0..=48 - a {
                    check(table(&[(first, a), (second, b)]));
                }
            }
        }
    }
    let mut draws = Draws(0x7ab1e);
    for _ in 0..400_000 * scale {
        check(random_table(&mut draws));
    }
    marks.done(all);
    runs.done(all);
    refused.done(all);
}

/// Four entries of at most 48 slots together: whole units, and no slots for reserved words.
fn random_table(draws: &mut Draws) -> u64 {
    let mut left = draws.below(49);
    let mut entries = [(15u8, 0u8); 4];
    for e in &mut entries {
        let n = draws.below(left + 1);
        left -= n;
        let word = if draws.below(4) == 0 { draws.below(256) } else { 1 + draws.below(7) };
        let whole = match word % 16 {
            w @ 1..=7 => n - n % u64::from(SLOTS_OF_UNIT[w as usize - 1]),
            15 => n,
            _ => 0,
        };
        *e = (word as u8, whole as u8);
    }
    let mut t = table(&entries);
    if draws.below(2) == 0 {
        t = t.rotate_left(16 * draws.below(4) as u32);
    }
    t
}

fn positions(all: &mut (u64, u64)) {
    let mut kind = Kind::new("bit_symbol: every combination and every bit up to 1,000,000");
    for word in 1..=7u8 {
        let c = Combination::from_word(word).unwrap();
        for bit in 0..=1_000_000u64 {
            let mut out = u64::MAX;
            let same = calls::bit_symbol(word, bit, &mut out) == 0 && out == isdbs_core::slots::bit_symbol(c, bit as usize) as u64;
            kind.case(same, || format!("{word} {bit}"));
        }
    }
    kind.done(all);
}

/// A decoder on either side.
struct Pair {
    pm: Vec<f32>,
    held: u64,
    traceback: u64,
    decisions: Vec<u64>,
    rust: ViterbiDecoder,
    /// a path value is -0.0
    zeros: bool,
}

const SPARE: u64 = 0x5bad_5bad_5bad_5bad;

impl Pair {
    fn new(pm: [f32; 64], held: &[u64], traceback: u64) -> Self {
        // three words more than are needed, which must stay
        let mut decisions = vec![SPARE; 4096 + traceback as usize + 3];
        decisions[..held.len()].copy_from_slice(held);
        Self { pm: pm.to_vec(), held: held.len() as u64, traceback, decisions, rust: ViterbiDecoder::handed(pm, held, traceback as usize), zeros: pm.iter().any(|x| x.to_bits() == 1 << 31) }
    }

    fn fresh(traceback: u64, start: Option<u8>) -> Self {
        let rust = match start {
            Some(s) => ViterbiDecoder::with_state(traceback as usize, s),
            None => ViterbiDecoder::new_unknown_state(traceback as usize),
        };
        Self::new(*rust.path_values(), &[], traceback)
    }

    /// One call on both sides; whether all that either leaves is the same.
    fn feed(&mut self, x: Feed, quadruples: &[[f32; 4]]) -> bool {
        let before = self.decisions.clone();
        let held = self.held as usize;
        let mut want = Vec::new();
        match x {
            Feed::Pairs(s) => self.rust.push(s, &mut want),
            Feed::Metrics(_) => self.rust.push_metrics(quadruples, &mut want),
            Feed::Known(s) => self.rust.push_known(s, &mut want),
            Feed::Flush => self.rust.flush(&mut want),
            // the given Rust has no such call: its held words, traced from the state
            Feed::FlushAt(end) => {
                want = traced(self.rust.held(), end);
                self.rust.flush(&mut Vec::new());
            }
        }
        // an output of exactly the bits that leave, and one place more that must stay
        let mut out = vec![0xa5u8; want.len() + 1];
        let mut count = u64::MAX;
        let by_code = self.by_code(x, &out);
        let answer = calls::feed(&mut self.pm, &mut self.held, self.traceback, x, &mut self.decisions, &mut out, &mut count);
        let rust = self.rust.held();
        let left = self.held as usize;
        let need = 4096 + self.traceback as usize;
        let bits = answer == 0 && count as usize == want.len() && out[..want.len()] == want[..] && out[want.len()] == 0xa5;
        // -0.0 comes from a handed state alone: the Rust leaves the sign of a zero maximum open
        let alike = |a: f32, b: f32| a.to_bits() == b.to_bits() || self.zeros && a == b;
        let values = self.pm.iter().zip(self.rust.path_values()).all(|(&a, &b)| alike(a, b));
        let words = left == rust.len() && self.decisions[..left] == *rust;
        // words past those held: 0 where bits left, else as before
        let past = match x {
            Feed::Flush | Feed::FlushAt(_) => self.decisions[left..held].iter().all(|&w| w == 0) && self.decisions[held..] == before[held..],
            _ if want.is_empty() => self.decisions[left..] == before[left..],
            _ => self.decisions[left..need].iter().all(|&w| w == 0) && self.decisions[need..] == before[need..],
        };
        let values_by_code = by_code.0.iter().zip(&self.pm).all(|(a, b)| a.to_bits() == b.to_bits());
        let code = values_by_code && by_code.1 == (answer, self.held, count) && by_code.2 == self.decisions && by_code.3 == out;
        bits && values && words && past && code
    }

    /// What the call of length 7 with 171 and 133 octal leaves: path values, answer and counts, words, output.
    fn by_code(&self, x: Feed, out: &[u8]) -> (Vec<f32>, (u32, u64, u64), Vec<u64>, Vec<u8>) {
        let (mut pm, mut held, mut decisions, mut out, mut count) = (self.pm.clone(), self.held, self.decisions.clone(), out.to_vec(), u64::MAX);
        let answer = calls::feed_code(calls::ISDB, &mut pm, &mut held, self.traceback, x, &mut decisions, &mut out, &mut count);
        (pm, (answer, held, count), decisions, out)
    }
}

/// The bits of the held words, traced back from a state, mod 64.
fn traced(words: &[u64], end: u8) -> Vec<u8> {
    let mut state = usize::from(end % 64);
    let mut bits = vec![0; words.len()];
    for (bit, word) in bits.iter_mut().zip(words).rev() {
        *bit = (state / 32) as u8;
        state = 2 * (state % 32) + (word >> state & 1) as usize;
    }
    bits
}

fn quadruples(flat: &[f32]) -> Vec<[f32; 4]> {
    flat.chunks_exact(4).map(|q| [q[0], q[1], q[2], q[3]]).collect()
}

/// A soft value of some class.
fn value(draws: &mut Draws, class: u64) -> f32 {
    let r = draws.next();
    let unit = (r >> 40) as f32 / 8_388_608.0 - 1.0;
    match class {
        0 => (r >> 20) as i8 as f32 / 16.0,
        1 => unit * 16.0,
        2 => unit * 1_048_576.0,
        3 => [0.0, -0.0, 1.0, -1.0, 1_048_576.0, -1_048_576.0, f32::from_bits(1), -f32::from_bits(0x0080_0000)][(r >> 30) as usize % 8],
        4 => f32::from_bits((r as u32 & 0x807f_ffff) | (1 + (r >> 33) as u32 % 146) << 23),
        _ => unit,
    }
}

fn path_value(draws: &mut Draws, class: u64) -> f32 {
    let r = draws.next();
    let unit = (r >> 40) as f32 / 8_388_608.0 - 1.0;
    match class {
        0 => unit * 100.0,
        1 => unit * 4_294_967_296.0,
        2 => [0.0, 4_294_967_296.0, -4_294_967_296.0, -1.0e9, 1.0][(r >> 30) as usize % 5],
        3 => 5.0,
        6 => [0.0, -0.0, -1.0][(r >> 30) as usize % 3],
        4 => -((r >> 50) as f32),
        _ => f32::from_bits((r as u32 & 0x807f_ffff) | (1 + (r >> 33) as u32 % 157) << 23),
    }
}

fn short_decoders(all: &mut (u64, u64)) {
    let mut kind = Kind::new("push: every 4 pairs of -1, 0, 1, unknown start and all 64 starts in turn");
    for code in 0..6561u32 {
        let flat: Vec<f32> = (0..8).map(|i| (code / 3u32.pow(i) % 3) as f32 - 1.0).collect();
        for start in [None, Some((code % 64) as u8)] {
            let mut pair = Pair::fresh(1 + u64::from(code % 3), start);
            let same = pair.feed(Feed::Pairs(&flat), &[]) && pair.feed(Feed::Flush, &[]);
            kind.case(same, || format!("{flat:?}"));
        }
    }
    kind.done(all);
    let mut kind = Kind::new("push_metrics: every 2 quadruples of -1, 0, 1");
    for code in 0..6561u32 {
        let flat: Vec<f32> = (0..8).map(|i| (code / 3u32.pow(i) % 3) as f32 - 1.0).collect();
        let mut pair = Pair::fresh(128, Some((code % 256) as u8));
        let same = pair.feed(Feed::Metrics(&flat), &quadruples(&flat)) && pair.feed(Feed::Flush, &[]);
        kind.case(same, || format!("{flat:?}"));
    }
    kind.done(all);
    let mut kind = Kind::new("push_known: every run of up to 8 known bits, whole bytes in place of bits, then flush");
    for n in 0..=8u32 {
        for code in 0..1u32 << n {
            let bits: Vec<u8> = (0..n).map(|i| ((code >> i & 1) as u8) | (code * 6) as u8 & 0xfe).collect();
            for start in [None, Some(code as u8)] {
                let mut pair = Pair::fresh(3, start);
                let same = pair.feed(Feed::Known(&bits), &[]) && pair.feed(Feed::Flush, &[]);
                kind.case(same, || format!("{bits:?}"));
            }
        }
    }
    kind.done(all);
}

/// One random call.
fn random_call(draws: &mut Draws, pair: &mut Pair, class: u64, longest: u64) -> bool {
    let room = 4096 + pair.traceback - pair.held;
    let n = match draws.below(6) {
        0 => draws.below(3),
        1 => 63 + draws.below(3),
        // around the step that releases
        2 => (room + draws.below(3)).saturating_sub(1).min(longest),
        3 => (room + 4096 + draws.below(3)).saturating_sub(1).min(longest),
        _ => draws.below(longest),
    } as usize;
    match draws.below(8) {
        0..3 => {
            let flat: Vec<f32> = (0..2 * n).map(|_| value(draws, class)).collect();
            pair.feed(Feed::Pairs(&flat), &[])
        }
        3..6 => {
            let flat: Vec<f32> = (0..4 * n).map(|_| value(draws, class)).collect();
            pair.feed(Feed::Metrics(&flat), &quadruples(&flat))
        }
        6 => {
            let bits = draws.bytes(n.min(6000));
            pair.feed(Feed::Known(&bits), &[])
        }
        _ if draws.below(2) == 0 => pair.feed(Feed::Flush, &[]),
        _ => pair.feed(Feed::FlushAt(draws.next() as u8), &[]),
    }
}

fn decoders(all: &mut (u64, u64), scale: u64) {
    let mut draws = Draws(0xdec0de);
    let mut kind = Kind::new("one call on a handed state: path values of every class, held words at random");
    for turn in 0..6_000 * scale {
        let traceback = draws.pick(&[1, 2, 64, 112, 128, 1023, 1024, 0]).max(1 + draws.below(1024) * (turn % 2)).min(1024);
        let most = 4096 + traceback;
        let held = match draws.below(4) {
            0 => 0,
            1 => most - 1 - draws.below(3),
            _ => draws.below(most),
        };
        let words: Vec<u64> = (0..held).map(|_| draws.next()).collect();
        let class = draws.below(7);
        let mut pair = Pair::new(std::array::from_fn(|_| path_value(&mut draws, class)), &words, traceback);
        let class = draws.below(6);
        let same = random_call(&mut draws, &mut pair, class, if turn % 16 == 0 { 9_000 } else { 200 });
        kind.case(same, || format!("turn {turn}, traceback {traceback}, held {held}"));
    }
    kind.done(all);
    let mut kind = Kind::new("calls in chains of 12 from a fresh decoder, known or unknown start");
    for turn in 0..200 * scale {
        let traceback = draws.pick(&[1, 7, 112, 128, 1024]);
        let start = if turn % 3 == 0 { None } else { Some(draws.below(256) as u8) };
        let mut pair = Pair::fresh(traceback, start);
        for step in 0..12 {
            let class = draws.below(6);
            let same = random_call(&mut draws, &mut pair, class, if turn % 8 == 0 { 9_000 } else { 700 });
            kind.case(same, || format!("turn {turn}, call {step}, traceback {traceback}"));
            if !same {
                break;
            }
        }
    }
    kind.done(all);
}

#[cfg(encode)]
fn encoding(all: &mut (u64, u64), scale: u64) {
    let check = |kind: &mut Kind, t: u64, m: u8, state: u8, bytes: &[u8]| {
        let Some((want, end)) = reference_frame(bytes, t, m, state) else { return };
        let (mut re, mut im) = (vec![7.5f64; MAIN + 2], vec![-7.5f64; MAIN + 1]);
        let mut got = 0xa5;
        let answer = calls::encode_frame(bytes, t, m, state, &mut re, &mut im, &mut got);
        let same = answer == 0
            && got == end
            && want.iter().enumerate().all(|(i, v)| re[i].to_bits() == v.re.to_bits() && im[i].to_bits() == v.im.to_bits())
            && re[MAIN..] == [7.5; 2]
            && im[MAIN] == -7.5;
        kind.case(same, || format!("table {t:016x} mapping {m} state {state} bytes {}", bytes.len()));
    };
    let mut draws = Draws(0xe4c0de);
    let mut kind = Kind::new("encode_frame: tables of every kind, all mappings, both frame kinds; no load, short, full and long ones");
    for t in some_tables() {
        let whole = valid_slots(t) * 203;
        for m in 0..8 {
            for state in [0, 63] {
                for n in [0, 1, whole / 3, whole, whole + 5] {
                    let bytes = draws.bytes(n);
                    check(&mut kind, t, m, state, &bytes);
                }
            }
        }
    }
    kind.done(all);
    let mut kind = Kind::new("encode_frame: every state, by the rest of a frame with a TC8PSK slot before");
    for state in 0..64 {
        for word in 1..8 {
            let bytes = draws.bytes(9000);
            check(&mut kind, table(&[(word, 24), (7, 23)]), state % 8, state, &bytes);
        }
    }
    kind.done(all);
    let mut kind = Kind::new("encode_frame: random tables, mappings and loads");
    for _ in 0..400 * scale {
        let t = random_table(&mut draws);
        let n = draws.below(10_000) as usize;
        let bytes = draws.bytes(n);
        let (m, state) = (draws.below(8) as u8, draws.pick(&[0, 63]));
        check(&mut kind, t, m, state, &bytes);
    }
    kind.done(all);
}

/// The load that the Rust makes these points of, if there is one: where there is, the points are its clean frame, which the Rust's decoder reads back.
#[cfg(wanted)]
fn behind(points: &[Cplx], t: u64, m: u8, first: bool) -> Option<Vec<u8>> {
    if points.iter().any(|v| !v.re.is_finite() || !v.im.is_finite()) {
        return None;
    }
    let bytes = isdbs_phy::demod::decode_frame(points, &info(t), first, &options(m, true, 8.0)).bytes;
    let (made, _) = isdbs_phy::demod::encode_frame_with_state(&bytes, &info(t), first, mapping(m));
    let same = made.iter().zip(points).all(|(a, b)| a.re.to_bits() == b.re.to_bits() && a.im.to_bits() == b.im.to_bits());
    same.then_some(bytes)
}

#[cfg(wanted)]
fn wanting(all: &mut (u64, u64)) {
    let check = |kind: &mut Kind, points: &[Cplx], t: u64, m: u8, first: bool| {
        let want = behind(points, t, m, first);
        let (mut re, im): (Vec<f64>, Vec<f64>) = points.iter().map(|v| (v.re, v.im)).unzip();
        // past the points nothing is read
        re.push(f64::NAN);
        let n = valid_slots(t) * 203;
        let mut bytes = vec![0xa5; n + 3];
        let answer = calls::wanted_load(&re, &im, t, m, first.into(), &mut bytes);
        let same = match &want {
            Some(load) => answer == 0 && bytes[..n] == load[..n] && bytes[n..] == [0xa5; 3],
            None => answer == 13 && bytes.iter().all(|&b| b == 0xa5),
        };
        kind.case(same, || format!("table {t:016x} mapping {m} first {first} answer {answer} a load fits: {}", want.is_some()));
        want.is_some()
    };
    let mut draws = Draws(0xb17e5);
    let mut clean = Kind::new("wanted_load: frames of the Rust, tables of every kind, all mappings, both frame kinds");
    let mut changed = Kind::new("wanted_load: frames with a part or a point changed, the Rust saying whether another load fits");
    let mut others = 0;
    for t in some_tables() {
        for m in 0..8 {
            for first in [true, false] {
                let load = draws.bytes(valid_slots(t) * 203);
                let (points, _) = isdbs_phy::demod::encode_frame_with_state(&load, &info(t), first, mapping(m));
                check(&mut clean, &points, t, m, first);
                for change in 0..4 {
                    let mut points = points.clone();
                    let k = draws.below(MAIN as u64) as usize;
                    match change {
                        0 => points[k].re = f64::from_bits(points[k].re.to_bits() ^ 1 << draws.below(64)),
                        1 => points[k].im = -points[k].im,
                        2 => points[k] = Cplx::new(-points[k].re, -points[k].im),
                        _ => points[MAIN - 1 - k % 4].re *= -1.0,
                    }
                    others += u32::from(check(&mut changed, &points, t, m, first));
                }
            }
        }
    }
    clean.done(all);
    changed.done(all);
    println!("{others:>10} of the changed frames are another load's");
}

/// A part keeps the margin of a clean one: document 01's fractions, independently computed.
#[cfg(judge)]
fn keeps(clean: f64, x: f64) -> bool {
    let y = if clean < 0.0 { -x } else { x };
    match clean.abs() {
        0.0 => y.abs() <= 1.0 / 32.0,
        1.0 => (31.0 / 32.0..=33.0 / 32.0).contains(&y),
        _ => (87.0 / 128.0..=94.0 / 128.0).contains(&y),
    }
}

/// The points outside the margins of a clean frame, by slots of 812 symbols.
#[cfg(judge)]
fn outside(clean: &[Cplx], points: &[Cplx], t: u64) -> Vec<u32> {
    let used = entries(t).into_iter().filter(|e| matches!(e.0 % 16, 1..=7));
    let words: Vec<u8> = used.flat_map(|(w, n)| vec![w % 16; 812 * usize::from(n)]).collect();
    let mut counts = vec![0; 48];
    for (k, (c, p)) in clean.iter().zip(points).enumerate() {
        let inside = match words.get(k) {
            Some(1) => keeps(c.re, p.re),
            Some(_) => keeps(c.re, p.re) && keeps(c.im, p.im),
            None => true,
        };
        counts[k / 812] += u32::from(!inside);
    }
    counts
}

#[cfg(judge)]
fn judging(all: &mut (u64, u64)) {
    let mut draws = Draws(0x1d6e);
    let mut kind = Kind::new("judge: frames of the Rust, clean, about the margins' ends, noisy, one point negated; tables of every kind, all mappings, both frame kinds");
    let near = [0.0, 1.0 / 32.0, -1.0 / 32.0, 0.02, -0.02, 0.027, -0.027, 0.028, -0.028];
    for t in some_tables() {
        for m in 0..8 {
            for first in [true, false] {
                let load = draws.bytes(valid_slots(t) * 203);
                let (clean, _) = isdbs_phy::demod::encode_frame_with_state(&load, &info(t), first, mapping(m));
                for change in 0..4 {
                    let mut points = clean.clone();
                    match change {
                        0 => {}
                        1 => points.iter_mut().for_each(|p| *p = Cplx::new(p.re + draws.pick(&near), p.im + draws.pick(&near))),
                        2 => points.iter_mut().for_each(|p| *p = Cplx::new(draws.below(65536) as f64 / 16384.0 - 2.0, draws.below(65536) as f64 / 16384.0 - 2.0)),
                        _ => {
                            let k = draws.below(MAIN as u64) as usize;
                            points[k] = Cplx::new(-points[k].re, -points[k].im);
                        }
                    }
                    let want = outside(&clean, &points, t);
                    let (mut re, im): (Vec<f64>, Vec<f64>) = points.iter().map(|v| (v.re, v.im)).unzip();
                    // past the points nothing is read
                    re.push(f64::NAN);
                    let (mut counts, mut sum) = (vec![7; 50], 0);
                    let answer = calls::judge(&re, &im, t, m, first.into(), &load, &mut counts, &mut sum);
                    let same = answer == 0 && counts[..48] == want[..] && counts[48..] == [7; 2] && sum == want.iter().sum::<u32>();
                    kind.case(same, || format!("table {t:016x} mapping {m} first {first} change {change} answer {answer} sum {sum}"));
                }
            }
        }
    }
    kind.done(all);
}

/// The seven numbers of each slot, one slot after the other over its points: how many, the powers of the clean point and of the error, the parts of z times the clean point's conjugate and of the error.
#[cfg(quality)]
fn quality_model(clean: &[Cplx], points: &[Cplx], t: u64) -> Vec<f64> {
    let used = entries(t).into_iter().filter(|e| matches!(e.0 % 16, 1..=7));
    let words: Vec<u8> = used.flat_map(|(w, n)| vec![w % 16; 812 * usize::from(n)]).collect();
    let mut out = Vec::new();
    for slot in 0..48 {
        let (mut count, mut signal, mut error, mut along, mut across, mut off_re, mut off_im) = (0u32, 0.0, 0.0, 0.0, 0.0, 0.0, 0.0);
        for k in slot * 812..(slot + 1) * 812 {
            let Some(word) = words.get(k) else { continue };
            let real = |p: Cplx| if *word == 1 { Cplx::new(p.re, 0.0) } else { p };
            let (z, c) = (real(points[k]), real(clean[k]));
            let e = Cplx::new(z.re - c.re, z.im - c.im);
            count += 1;
            signal += c.re * c.re + c.im * c.im;
            error += e.re * e.re + e.im * e.im;
            along += z.re * c.re + z.im * c.im;
            across += z.im * c.re - z.re * c.im;
            off_re += e.re;
            off_im += e.im;
        }
        out.extend([f64::from(count), signal, error, along, across, off_re, off_im]);
    }
    out
}

#[cfg(quality)]
fn measuring(all: &mut (u64, u64)) {
    let mut draws = Draws(0x9a11);
    let mut kind = Kind::new("quality: frames of the Rust, clean, noisy, of other gain and turn, huge, tiny and 0; tables of every kind, all mappings, both frame kinds; every number bit by bit");
    let sizes = [0.0, -0.0, 65_536.0, -65_536.0, 1e-160, -1e-160, 5e-324, 1.0, 0.1, -0.3];
    for t in some_tables() {
        for m in 0..8 {
            for first in [true, false] {
                let load = draws.bytes(valid_slots(t) * 203);
                let (clean, _) = isdbs_phy::demod::encode_frame_with_state(&load, &info(t), first, mapping(m));
                for change in 0..4 {
                    let mut points = clean.clone();
                    let noise = |d: &mut Draws| d.below(1 << 40) as f64 / (1u64 << 40) as f64 - 0.5;
                    match change {
                        0 => {}
                        1 => points.iter_mut().for_each(|p| *p = Cplx::new(p.re + noise(&mut draws), p.im + noise(&mut draws))),
                        2 => {
                            let (x, y) = (1.0 + noise(&mut draws), noise(&mut draws));
                            points.iter_mut().for_each(|p| *p = Cplx::new(p.re * x - p.im * y + 0.01, p.re * y + p.im * x + 0.1 * noise(&mut draws)));
                        }
                        _ => points.iter_mut().for_each(|p| *p = Cplx::new(draws.pick(&sizes), draws.pick(&sizes))),
                    }
                    let want = quality_model(&clean, &points, t);
                    let (mut re, im): (Vec<f64>, Vec<f64>) = points.iter().map(|v| (v.re, v.im)).unzip();
                    // past the points nothing is read, past the numbers nothing written; what stood there does not count
                    re.push(f64::NAN);
                    let mut out = vec![if change % 2 == 0 { f64::NAN } else { 7.5 }; 338];
                    let before = out[337].to_bits();
                    let answer = calls::quality(&re, &im, t, m, first.into(), &load, &mut out);
                    let same = answer == 0 && out[..336].iter().zip(&want).all(|(a, b)| a.to_bits() == b.to_bits()) && out[336..].iter().all(|x| x.to_bits() == before);
                    kind.case(same, || format!("table {t:016x} mapping {m} first {first} change {change} answer {answer}"));
                }
            }
        }
    }
    kind.done(all);
}

#[cfg(decode)]
fn decoding(all: &mut (u64, u64), scale: u64) {
    // the Rust has one scale: `scale`, and the points of each run times 2^k where the scales are `scale` times 2^k
    let check = |kind: &mut Kind, points: &[Cplx], s: &calls::Settings, scale: f32, powers: &[i32; 7]| {
        let (known, first) = (s.known != 0, s.first != 0);
        assert_eq!(s.scales, scales_of(scale, powers));
        let louder = louder(points, s.table, powers);
        let want = isdbs_phy::demod::decode_frame(&louder, &info(s.table), first, &options(s.mapping, known, scale)).bytes;
        let bits = decoded_bits(&want, s.table);
        let strain = reference_strain(&louder, s.table, s.mapping, first, scale, &bits);
        let (mut re, mut im): (Vec<f64>, Vec<f64>) = points.iter().map(|v| (v.re, v.im)).unzip();
        // past the points nothing is read
        re.push(f64::NAN);
        im.extend([f64::INFINITY; 2]);
        let mut decisions = vec![u64::MAX; 4226];
        let mut got_bits = vec![0xa5u8; bits.len() + 2];
        let mut got_bytes = vec![0xa5u8; want.len() + 2];
        let mut got_strain = vec![0xa5a5u32; strain.len() + 2];
        let mut got_sum = u32::MAX;
        let answer = calls::decode_frame(&re, &im, s, &mut decisions, &mut got_bits, &mut got_bytes, &mut got_strain, &mut got_sum);
        let same = answer == 0
            && got_bytes[..want.len()] == want[..]
            && got_bits[..bits.len()] == bits[..]
            && decisions[..4224].iter().all(|&w| w == 0)
            && decisions[4224..] == [u64::MAX; 2]
            && got_bits[bits.len()..] == [0xa5; 2]
            && got_bytes[want.len()..] == [0xa5; 2]
            && got_strain[..strain.len()] == strain[..]
            && got_strain[strain.len()..] == [0xa5a5; 2]
            && got_sum == strain.iter().sum::<u32>();
        kind.case(same, || format!("table {:016x} mapping {} first {} known {} scales {:x?}", s.table, s.mapping, s.first, s.known, s.scales.iter().map(|x| x.to_bits()).collect::<Vec<_>>()));
    };
    let mut draws = Draws(0xdec0_de2);
    let mut kind = Kind::new("decode_frame: tables of every kind, all mappings, clean, noisy and hopeless points");
    for t in some_tables() {
        for m in 0..8u8 {
            for amplitude in [0.0, 0.9, 1.7, 3.0] {
                let first = draws.below(2) == 0;
                let bytes = draws.bytes(valid_slots(t) * 203);
                let (clean, _) = reference_frame(&bytes, t, m, start(first)).unwrap();
                let points = received(&clean, draws.next(), 0, amplitude);
                let s = calls::Settings { table: t, mapping: m, first: u8::from(first), known: draws.below(2) as u8, scales: &[8.0; 7] };
                check(&mut kind, &points, &s, 8.0, &[0; 7]);
            }
        }
    }
    kind.done(all);
    let mut kind = Kind::new("decode_frame: extreme parts and scales (+-65,536, -0.0, subnormal numbers, every part at a limit; scales from the least to 64)");
    let scales = [64.0, f32::from_bits(1), f32::from_bits(0x0080_0000), 1.0e-20, 8.0, 63.999_996, 0.1];
    for turn in 0..100 * scale {
        let t = if turn % 2 == 0 { draws.pick(&some_tables()) } else { random_table(&mut draws) };
        let m = draws.below(8) as u8;
        let first = draws.below(2) == 0;
        let bytes = draws.bytes(valid_slots(t) * 203);
        let (clean, _) = reference_frame(&bytes, t, m, start(first)).unwrap();
        let points = received(&clean, draws.next(), 1 + (turn / 2 % 2) as u8, 0.0);
        let known = draws.below(2) as u8;
        let one = draws.pick(&scales);
        let s = calls::Settings { table: t, mapping: m, first: u8::from(first), known, scales: &[one; 7] };
        check(&mut kind, &points, &s, one, &[0; 7]);
    }
    kind.done(all);
    let mut kind = Kind::new("decode_frame: random tables, noise and scales");
    for _ in 0..150 * scale {
        let t = random_table(&mut draws);
        let m = draws.below(8) as u8;
        let first = draws.below(2) == 0;
        let bytes = draws.bytes(valid_slots(t) * 203);
        let (clean, _) = reference_frame(&bytes, t, m, start(first)).unwrap();
        let amplitude = draws.pick(&[0.5, 1.0, 1.5, 2.0, 4.0, 100.0, 131_000.0]);
        let points = received(&clean, draws.next(), 0, amplitude);
        let known = draws.below(2) as u8;
        let one = draws.pick(&scales);
        let s = calls::Settings { table: t, mapping: m, first: u8::from(first), known, scales: &[one; 7] };
        check(&mut kind, &points, &s, one, &[0; 7]);
    }
    kind.done(all);
    let mut kind = Kind::new("decode_frame: unequal scales, beside the Rust on points times powers of two");
    for turn in 0..150 * scale {
        let t = if turn % 2 == 0 { draws.pick(&some_tables()) } else { random_table(&mut draws) };
        let m = draws.below(8) as u8;
        let first = draws.below(2) == 0;
        let bytes = draws.bytes(valid_slots(t) * 203);
        let (clean, _) = reference_frame(&bytes, t, m, start(first)).unwrap();
        let amplitude = draws.pick(&[0.0, 0.5, 1.0, 1.5, 2.0]);
        let points = received(&clean, draws.next(), 0, amplitude);
        let powers = std::array::from_fn(|_| draws.below(12) as i32 - 8);
        let all = scales_of(8.0, &powers);
        let s = calls::Settings { table: t, mapping: m, first: u8::from(first), known: draws.below(2) as u8, scales: &all };
        check(&mut kind, &points, &s, 8.0, &powers);
    }
    kind.done(all);
}

#[cfg(isdbt)]
fn isdbt(all: &mut (u64, u64), scale: u64) {
    use isdbt_core::CodeRate::*;
    use isdbt_fec::conv::{ConvEncoder, Puncturing};
    let rates = [R1_2, R2_3, R3_4, R5_6, R7_8];
    let encoder = |state: u8| {
        let mut enc = ConvEncoder::new();
        for i in 0..6 {
            enc.push(state >> i & 1);
        }
        enc
    };
    let check = |kind: &mut Kind, rate: usize, state: u8, bits: &[u8]| {
        let mut enc = encoder(state);
        let mut want = Vec::new();
        isdbt_fec::conv::encode_punctured(&mut enc, &Puncturing::new(rates[rate]), bits, &mut want);
        let mut out = vec![0xa5; want.len() + 1];
        let (mut end, mut count) = (state, u64::MAX);
        let answer = calls::encode_punctured(rate as u8, &mut end, bits, &mut out, &mut count);
        let same = answer == 0 && end == enc.state() && count as usize == want.len() && out[..want.len()] == want[..] && out[want.len()] == 0xa5;
        // rate 1/2 sends every bit, as the encoder of length 7 with 171 and 133 octal does
        let (mut by_code, mut last) = (vec![0xa5; want.len() + 1], state);
        let code = rate != 0 || calls::code_encode(calls::ISDB, &mut last, bits, &mut by_code) == 0 && last == end && by_code == out;
        kind.case(same && code, || format!("rate {rate} state {state} bits {bits:?}"));
    };
    let mut draws = Draws(0x15d8);
    let mut kind = Kind::new("encode_punctured: every input of up to 2 periods (of up to 10 bits), every state");
    for (rate, r) in rates.iter().enumerate() {
        let period = Puncturing::new(*r).period;
        for n in [0, period, 2 * period].into_iter().filter(|&n| n <= 10) {
            for code in 0..1u32 << n {
                let bits: Vec<u8> = (0..n).map(|i| (code >> i & 1) as u8 | (code as u8 & 0x7f) << 1).collect();
                for state in 0..64 {
                    check(&mut kind, rate, state, &bits);
                }
            }
        }
    }
    kind.done(all);
    let mut kind = Kind::new("encode_punctured: random bytes, states and lengths");
    for _ in 0..2_000 * scale {
        let rate = draws.below(5) as usize;
        let n = draws.below(900) as usize * Puncturing::new(rates[rate]).period;
        let bits = draws.bytes(n);
        let state = draws.below(64) as u8;
        check(&mut kind, rate, state, &bits);
    }
    kind.done(all);
    let mut kind = Kind::new("depuncture: any values, NaNs among them");
    for _ in 0..2_000 * scale {
        let rate = draws.below(5) as usize;
        let p = Puncturing::new(rates[rate]);
        let n = draws.below(300) as usize * p.order.len();
        let llrs: Vec<f32> = (0..n).map(|_| f32::from_bits(draws.next() as u32)).collect();
        let mut want = Vec::new();
        isdbt_fec::conv::depuncture(&p, &llrs, &mut want);
        let mut out = vec![9.5f32; want.len() + 1];
        let mut count = u64::MAX;
        let answer = calls::depuncture(rate as u8, &llrs, &mut out, &mut count);
        let alike = |a: f32, b: f32| a.to_bits() == b.to_bits() || a.is_nan() && b.is_nan();
        let same = answer == 0 && count as usize == want.len() && want.iter().zip(&out).all(|(&a, &b)| alike(a, b)) && out[want.len()] == 9.5;
        kind.case(same, || format!("rate {rate} values {n}"));
    }
    kind.done(all);
    let mut kind = Kind::new("decode_punctured: noisy and random values, tracebacks from 0 to 1,024, around every release");
    for turn in 0..400 * scale {
        let rate = draws.below(5) as usize;
        let p = Puncturing::new(rates[rate]);
        let traceback = draws.pick(&[0, 1, 2, 112, 128, 1024]);
        let periods = match draws.below(4) {
            0 => draws.below(5),
            1 => (4096 + traceback) / p.period as u64 + draws.below(3) - 1,
            _ => draws.below(if turn % 8 == 0 { 3000 } else { 300 }),
        } as usize;
        let class = draws.below(6);
        let llrs: Vec<f32> = (0..periods * p.order.len()).map(|_| value(&mut draws, class)).collect();
        let want = isdbt_fec::conv::decode_punctured(rates[rate], &llrs, traceback as usize);
        let need = 4096 + traceback.max(1) as usize;
        let mut decisions = vec![SPARE; need + 2];
        let mut out = vec![0xa5; want.len() + 1];
        let mut count = u64::MAX;
        let answer = calls::decode_punctured(rate as u8, &llrs, traceback, &mut decisions, &mut out, &mut count);
        let same = answer == 0
            && count as usize == want.len()
            && out[..want.len()] == want[..]
            && out[want.len()] == 0xa5
            && decisions[..need].iter().all(|&w| w == 0)
            && decisions[need..] == [SPARE; 2];
        kind.case(same, || format!("rate {rate} periods {periods} traceback {traceback}"));
    }
    kind.done(all);
}

fn main() {
    let scale = std::env::args().nth(1).map_or(1, |s| s.parse().expect("a number"));
    let mut all = (0, 0);
    soft(&mut all, scale);
    tables(&mut all, scale);
    positions(&mut all);
    short_decoders(&mut all);
    decoders(&mut all, scale);
    #[cfg(isdbt)]
    isdbt(&mut all, scale);
    #[cfg(encode)]
    encoding(&mut all, scale);
    #[cfg(decode)]
    decoding(&mut all, scale);
    #[cfg(wanted)]
    wanting(&mut all);
    #[cfg(judge)]
    judging(&mut all);
    #[cfg(quality)]
    measuring(&mut all);
    println!("{} cases, {} different", all.0, all.1);
    if all.1 != 0 {
        std::process::exit(1);
    }
}
