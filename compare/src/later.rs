// Wrong input to the calls of short codes, mended stretches, windows, full frames and wanted frames. Accepted, what they leave is held to what is worked out here.
use super::*;

/// Row 12.
pub fn bad_code([l, g1, g2]: calls::Code) -> bool {
    !(3..=7).contains(&l) || [g1, g2].iter().any(|&g| u32::from(g) >> (l - 1) != 1)
}

/// The states of a code of a good length.
pub fn states_of(code: calls::Code) -> usize {
    if bad_code(code) { 0 } else { 1 << (code[0] - 1) }
}

/// Mostly a good code; else one beside the limits of a length or of a generator.
pub fn any_code(draws: &mut Draws) -> calls::Code {
    let l = if draws.below(10) == 0 { near(draws, &[2, 8, 0, 255]) as u8 } else { 3 + draws.below(5) as u8 };
    let top = 1u64 << (l.clamp(3, 7) - 1);
    let mut g = || if draws.below(16) == 0 { near(draws, &[top, 2 * top, 0, 255]) as u8 } else { (top + draws.below(top)) as u8 };
    [l, g(), g()]
}

/// X and Y of an input at a state, and the next state.
fn coded([l, g1, g2]: calls::Code, state: u8, u: u8) -> ([u8; 2], u8) {
    let register = u32::from(u & 1) << (l - 1) | u32::from(state);
    ([g1, g2].map(|g| (register & u32::from(g)).count_ones() as u8 % 2), (register >> 1) as u8)
}

fn encoded(code: calls::Code, mut state: u8, bits: &[u8]) -> (Vec<u8>, u8) {
    let mut out = Vec::new();
    for &u in bits {
        let (pair, next) = coded(code, state, u);
        out.extend(pair);
        state = next;
    }
    (out, state)
}

/// A slice before a call, with `front` laid over its beginning.
fn laid<T: Copy>(front: &[T], before: &[T]) -> Vec<T> {
    front.iter().chain(&before[front.len()..]).copied().collect()
}

pub fn encoding_by_code(all: &mut (u64, u64), draws: &mut Draws) {
    let mut state = Fence::<u8>::new(1);
    let mut bits = Fence::<u8>::new(4096);
    let mut out = Fence::<u8>::new(8192);
    let mut count = Count::new("code_encode");
    for _ in 0..20_000 {
        let code = any_code(draws);
        let limit = states_of(code).max(4) as u64;
        let s = if draws.below(4) == 0 { near(draws, &[limit, 63, 255]) as u8 } else { draws.below(limit) as u8 };
        state.lend(draws, 1, |_| s);
        let n = draws.below(40) as usize;
        bits.lend(draws, n, |d| d.next() as u8);
        let places = if draws.below(3) == 0 { near(draws, &[2 * n as u64, 0]) as usize % 200 } else { 2 * n + draws.below(2) as usize };
        out.lend(draws, places, |d| d.next() as u8);
        let before = out.slice().to_vec();
        let row = if bad_code(code) {
            12
        } else if usize::from(s) >= states_of(code) {
            4
        } else if out.len < 2 * n {
            9
        } else {
            0
        };
        let answer = calls::code_encode(code, &mut state.slice()[0], bits.slice(), out.slice());
        let right = row != 0 || {
            let (want, end) = encoded(code, s, bits.slice());
            out.slice() == laid(&want, &before) && state.slice()[0] == end
        };
        let ok = answer == 0;
        let kept = right && state.kept(ok) && bits.kept(false) && out.kept(ok);
        count.call(answer, row, kept, || format!("code {code:?} state {s} bits {n} out {places}"));
    }
    count.done(all);
}

/// The least number of bits in which a coded stretch between two states differs from `bits`.
fn least(bits: &[u8], start: u8, end: u8) -> u32 {
    let mut at = [u32::MAX / 2; 64];
    at[usize::from(start % 64)] = 0;
    for pair in bits.chunks_exact(2) {
        let mut next = [u32::MAX / 2; 64];
        for s in 0..64u8 {
            for u in 0..2 {
                let (sent, to) = coded(calls::ISDB, s, u);
                let d = at[usize::from(s)] + u32::from(sent[0] != pair[0]) + u32::from(sent[1] != pair[1]);
                next[usize::from(to)] = next[usize::from(to)].min(d);
            }
        }
        at = next;
    }
    at[usize::from(end % 64)]
}

/// Whether `sent` is a coded stretch between two states.
fn is_coded(sent: &[u8], start: u8, end: u8) -> bool {
    let mut s = start % 64;
    for pair in sent.chunks_exact(2) {
        let Some(u) = (0..2).find(|&u| coded(calls::ISDB, s, u).0 == pair) else { return false };
        s = coded(calls::ISDB, s, u).1;
    }
    s == end % 64
}

pub fn mending(all: &mut (u64, u64), draws: &mut Draws) {
    let mut bits = Fence::<u8>::new(12_288);
    let mut decisions = Fence::<u64>::new(4_608);
    let mut out = Fence::<u8>::new(12_288);
    let mut places = Fence::<u32>::new(1024);
    let mut counted = Fence::<u64>::new(1);
    let mut count = Count::new("mend");
    for turn in 0..12_000u64 {
        let n = if turn % 64 == 0 { near(draws, &[4096, 2000]) } else { draws.below(30) } as usize;
        let start = draws.next() as u8;
        let inputs = draws.bytes(n);
        let (mut stored, end) = encoded(calls::ISDB, start % 64, &inputs);
        let end = if draws.below(8) == 0 { draws.next() as u8 } else { end + 64 * draws.below(4) as u8 };
        if !stored.is_empty() {
            for _ in 0..draws.below(8) {
                let at = draws.below(stored.len() as u64) as usize;
                stored[at] ^= 1;
            }
            if draws.below(12) == 0 {
                let at = draws.below(stored.len() as u64) as usize;
                stored[at] = draws.pick(&[2, 3, 255, 128]);
            }
            if draws.below(12) == 0 {
                stored.pop();
            }
        }
        let mut each = stored.iter();
        bits.lend(draws, stored.len(), |_| 0);
        bits.slice().fill_with(|| *each.next().unwrap());
        bits.before = bits.watched().map(|i| unsafe { bits.data.add(i).read() }).collect();
        let space = |d: &mut Draws, need: usize| if d.below(8) == 0 { near(d, &[need as u64, 0]) as usize % 12_000 } else { need + d.below(2) as usize };
        let (a, b, c) = (space(draws, 4224), space(draws, stored.len()), space(draws, 4));
        decisions.lend(draws, a, Draws::next);
        out.lend(draws, b, |d| d.next() as u8);
        places.lend(draws, c, |d| d.next() as u32);
        counted.lend(draws, 1, Draws::next);
        let before = (decisions.slice().to_vec(), out.slice().to_vec(), places.slice().to_vec());
        let row = if stored.len() % 2 != 0 || stored.len() > 8192 || stored.iter().any(|&x| x > 1) {
            5
        } else if out.len < stored.len() || places.len < 4 || decisions.len < 4224 {
            9
        } else if least(&stored, start, end) > 4 {
            15
        } else {
            0
        };
        let answer = calls::mend(bits.slice(), start, end, decisions.slice(), out.slice(), places.slice(), &mut counted.slice()[0]);
        let right = row != 0 || {
            let sent = &out.slice()[..stored.len()];
            let changed: Vec<u32> = (0..stored.len()).filter(|&i| sent[i] != stored[i]).map(|i| i as u32).collect();
            is_coded(sent, start, end)
                && changed.len() <= 4
                && counted.slice()[0] == changed.len() as u64
                && places.slice() == laid(&changed, &before.2)
                && out.slice()[stored.len()..] == before.1[stored.len()..]
                && decisions.slice() == laid(&[0; 4224], &before.0)
        };
        let ok = answer == 0;
        let kept = right && bits.kept(false) && decisions.kept(ok) && out.kept(ok) && places.kept(ok) && counted.kept(ok);
        count.call(answer, row, kept, || format!("bits {} start {start} end {end} decisions {a} out {b} places {c}", stored.len()));
    }
    count.done(all);
}

pub fn windows(all: &mut (u64, u64), draws: &mut Draws) {
    let mut state = [(); 2].map(|()| Fence::<u32>::new(1));
    let mut given = [(); 2].map(|()| Fence::<u32>::new(1));
    let mut kept = Fence::<u32>::new(1024);
    let mut count = Count::new("window_push");
    let sum_of = |d: &mut Draws| if d.below(64) == 0 { near(d, &[68_208, u64::from(u32::MAX)]) as u32 } else { d.below(68_209) as u32 };
    for _ in 0..40_000 {
        let window = if draws.below(8) == 0 { near(draws, &[0, 1, 256, 1 << 31]) as u32 } else { 1 + draws.below(8) as u32 };
        let fill = if draws.below(10) == 0 { near(draws, &[u64::from(window), 0]) as u32 } else { draws.below(u64::from(window.min(300)) + 1) as u32 };
        let next = match draws.below(10) {
            0 => near(draws, &[u64::from(window), u64::from(fill), 0]) as u32,
            _ if fill < window => fill,
            _ => draws.below(u64::from(window.max(1))) as u32,
        };
        let (clear, sum) = (draws.pick(&[0, 0, 1, 255]), sum_of(draws));
        let places = if draws.below(6) == 0 { near(draws, &[u64::from(window.min(300)), u64::from(fill.min(300)), 0]) as usize % 400 } else { window.min(300) as usize + 2 };
        kept.lend(draws, places, sum_of);
        state[0].lend(draws, 1, |_| fill);
        state[1].lend(draws, 1, |_| next);
        given.iter_mut().for_each(|g| g.lend(draws, 1, |d| d.next() as u32));
        let mut want = kept.slice().to_vec();
        let outside = window == 0 || window > 256 || fill > window || next >= window || fill != window && next != fill || sum > 68_208;
        let row = if outside || want.iter().take(fill as usize).any(|&x| x > 68_208) {
            14
        } else if want.len() < window as usize {
            9
        } else {
            0
        };
        let [a, b] = &mut state;
        let [c, d] = &mut given;
        let answer = calls::window_push(window, &mut a.slice()[0], &mut b.slice()[0], clear, sum, kept.slice(), &mut c.slice()[0], &mut d.slice()[0]);
        let right = row != 0 || {
            let (place, filled) = if clear != 0 { (0, 1) } else { (next, window.min(fill + 1)) };
            want[place as usize] = sum;
            let sums = &want[..filled as usize];
            kept.slice() == want
                && (a.slice()[0], b.slice()[0]) == (filled, (place + 1) % window)
                && (c.slice()[0], d.slice()[0]) == (sums.iter().sum(), *sums.iter().max().unwrap())
        };
        let ok = answer == 0;
        let all_kept = right && [a, b, c, d].iter().all(|x| x.kept(ok)) && kept.kept(ok);
        count.call(answer, row, all_kept, || format!("window {window} fill {fill} next {next} clear {clear} sum {sum} kept {places}"));
    }
    count.done(all);
}

/// The input (0 header, 1 main, 2 burst) and its place that place p of a full frame has its point of.
fn source(p: usize) -> (usize, usize) {
    if p < 192 {
        return (0, p);
    }
    let (group, at) = ((p - 192) / 207, (p - 192) % 207);
    if at < 203 { (1, 203 * group + at) } else { (2, 4 * group + at - 203) }
}

pub fn full_frames(all: &mut (u64, u64), draws: &mut Draws) {
    const FULL: usize = 39_936;
    const NEEDS: [usize; 3] = [192, MAIN, 768];
    let mut parts: [Fence<f64>; 6] = std::array::from_fn(|i| Fence::new(NEEDS[i / 2] + 1024));
    let mut whole: [Fence<f64>; 2] = std::array::from_fn(|_| Fence::new(FULL + 1024));
    let mut counts = ["lay_frame", "take_frame"].map(Count::new);
    for turn in 0..1_200 {
        let space = |d: &mut Draws, need: usize| if d.below(16) == 0 { near(d, &[need as u64, 0]) as usize % 40_000 } else { need + d.below(3) as usize };
        // any point but a NaN, whose bits are free
        let point = |d: &mut Draws| match f64::from_bits(d.next()) {
            x if x.is_nan() => -f64::INFINITY,
            x => x,
        };
        for (i, part) in parts.iter_mut().enumerate() {
            let n = space(draws, NEEDS[i / 2]);
            part.lend(draws, n, point);
        }
        for part in &mut whole {
            let n = space(draws, FULL);
            part.lend(draws, n, point);
        }
        let short_parts = parts.iter().enumerate().any(|(i, p)| p.len < NEEDS[i / 2]);
        let short_whole = whole.iter().any(|p| p.len < FULL);
        let lay = turn % 2 == 0;
        let row = match (if lay { short_parts } else { short_whole }, if lay { short_whole } else { short_parts }) {
            (true, _) => 6,
            (false, true) => 9,
            _ => 0,
        };
        let lens = (parts.each_ref().map(|p| p.len), whole.each_ref().map(|p| p.len));
        let [re, im] = &mut whole;
        let answer = if lay {
            calls::lay_frame(parts.each_mut().map(|p| &*p.slice()), re.slice(), im.slice())
        } else {
            calls::take_frame(re.slice(), im.slice(), parts.each_mut().map(|p| p.slice()))
        };
        let right = row != 0 || (0..FULL).all(|p| {
            let (input, k) = source(p);
            (0..2).all(|i| whole[i].slice()[p].to_bits() == parts[2 * input + i].slice()[k].to_bits())
        });
        // past the lengths nothing is written
        let past = |f: &Fence<f64>, need: usize| {
            let at = f.from - f.watched().start;
            (need..f.len).all(|i| unsafe { f.data.add(f.from + i).read().to_bits() == f.before[at + i].to_bits() })
        };
        let ok = answer == 0;
        let kept = right
            && parts.iter().enumerate().all(|(i, p)| p.kept(ok && !lay) && past(p, NEEDS[i / 2]))
            && whole.iter().all(|p| p.kept(ok && lay) && past(p, FULL));
        counts[turn % 2].call(answer, row, kept, || format!("{lens:?}"));
    }
    counts.into_iter().for_each(|c| c.done(all));
}

#[cfg(all(encode, wanted))]
pub fn wanting(all: &mut (u64, u64), draws: &mut Draws) {
    let mut re = Fence::<f64>::new(MAIN + 16);
    let mut im = Fence::<f64>::new(MAIN + 16);
    let mut bytes = Fence::<u8>::new(12_288);
    let mut count = Count::new("wanted_load");
    for _ in 0..1_500 {
        let t = any_table(draws);
        let mapping = draws.next() as u8;
        let first = draws.pick(&[0, 1, 255]);
        let need = 203 * valid_slots(t);
        let load = draws.bytes(need);
        // a frame that is made, or what stands there where the table is refused
        let (mut xs, mut ys, mut end) = (vec![0.5; MAIN], vec![-0.25; MAIN], 0);
        let made = calls::encode_frame(&load, t, mapping, if first != 0 { 0 } else { 63 }, &mut xs, &mut ys, &mut end) == 0;
        // no frame has such a part
        let spoiled = draws.below(3) == 0;
        if spoiled {
            let at = near(draws, &[0, MAIN as u64 - 1, 20_000]) as usize % MAIN;
            let part = if draws.below(2) == 0 { &mut xs } else { &mut ys };
            part[at] = draws.pick(&[3.25, f64::NAN, f64::INFINITY, f64::from_bits(1), -65_537.0]);
        }
        let places = |d: &mut Draws| if d.below(8) == 0 { near(d, &[MAIN as u64, 0, 38_000]) as usize % 40_000 } else { MAIN + d.below(3) as usize };
        let (a, b) = (places(draws), places(draws));
        for (fence, n, part) in [(&mut re, a, &xs), (&mut im, b, &ys)] {
            let mut i = 0;
            fence.lend(draws, n, |_| f64::NAN);
            fence.slice().fill_with(|| {
                i += 1;
                part.get(i - 1).copied().unwrap_or(f64::NAN)
            });
            fence.before = fence.watched().map(|i| unsafe { fence.data.add(i).read() }).collect();
        }
        let c = if draws.below(8) == 0 { near(draws, &[need as u64, 0]) as usize % 12_000 } else { need + draws.below(2) as usize };
        bytes.lend(draws, c, |d| d.next() as u8);
        let before = bytes.slice().to_vec();
        let row = if table_row(t) != 0 {
            table_row(t)
        } else if re.len < MAIN || im.len < MAIN {
            6
        } else if bytes.len < need {
            9
        } else if spoiled {
            13
        } else {
            0
        };
        assert!(made || table_row(t) != 0);
        let answer = calls::wanted_load(re.slice(), im.slice(), t, mapping, first, bytes.slice());
        let right = row != 0 || bytes.slice() == laid(&load, &before);
        let kept = right && re.kept(false) && im.kept(false) && bytes.kept(answer == 0);
        count.call(answer, row, kept, || format!("table {t:016x} mapping {mapping} first {first} re {a} im {b} bytes {c} spoiled {spoiled}"));
    }
    count.done(all);
}

/// Valid slots of a table.
#[cfg(all(encode, wanted))]
fn valid_slots(t: u64) -> usize {
    const VALID_OF_UNIT: [usize; 7] = [1, 1, 2, 3, 5, 7, 1];
    entries(t).iter().fold(0, |n, &(word, slots)| match usize::from(word % 16) {
        w @ 1..=7 => n + usize::from(slots / SLOTS_OF_UNIT[w - 1]) * VALID_OF_UNIT[w - 1],
        _ => n,
    })
}
