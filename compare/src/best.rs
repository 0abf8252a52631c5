// `isdbs_best_reading` beside a second program, written from the definitions: its own metrics by document 01, its own grid and search over i64 sums, and the lead of a slot by forbidding the slot's content and
// searching again. Bytes, bits, uncoded bits and leads must be equal. Also: the clean leads, the times beside isdbs_decode_frame.
// best [SCALE]: SCALE (default 1) multiplies the number of frames.   best clean: the leads of clean frames.   best speed [ROUNDS]: times.   best stack [KB]: the call on a small stack.
mod calls;
mod common;
use calls::{Lent, Settings};
use common::*;
use isdbs_core::combination::{Combination, Modulation};
use isdbs_core::slots::runs;

/// One trellis step: the grid metric of each pair 2X + Y, and the better C2 at each pair where the step is one of TC8PSK.
struct Step {
    grid: [i64; 4],
    better: Option<[u8; 4]>,
}

/// "a metric times 2^20, cut toward zero, clipped at 2^23"
fn on_grid(metric: f32) -> i64 {
    (f64::from(metric).clamp(-8_388_608.0, 8_388_608.0) * 1_048_576.0) as i64
}

/// The steps of a frame with the steps at which its valid slots begin and the last one ends.
fn steps_of(points: &[Cplx], t: u64, m: u8, scales: &[f32; 7]) -> (Vec<Step>, Vec<usize>) {
    let (mut steps, mut marks) = (Vec::new(), vec![0]);
    for r in runs(&info(t)) {
        let c = r.combination;
        let scale = scales[usize::from(c.word()) - 1];
        let per_slot = if c.modulation() == Modulation::Tc8psk { 812 } else { 1624 };
        let n = r.valid_slots * per_slot;
        let at = |k: usize| {
            let v = points[r.symbols.start + k];
            (v.re, if m & 1 != 0 { -v.im } else { v.im })
        };
        if c.modulation() == Modulation::Tc8psk {
            steps.extend((0..n).map(|k| of_8psk(at(k), m & 4 != 0, scale)));
        } else {
            let sent = sent_in_period(c);
            for k in 0..n {
                // the soft value of a mother bit: bit 0 is X, bit 1 is Y; 0 where it is not sent
                let soft = |bit: usize| {
                    let (periods, place) = (k / sent.0, 2 * (k % sent.0) + bit);
                    let Some(i) = sent.1.iter().position(|&b| b == place) else { return 0f32 };
                    let i = periods * sent.1.len() + i;
                    let part = if c.modulation() == Modulation::Bpsk {
                        at(i).0
                    } else {
                        let (re, im) = at(i / 2);
                        if (i % 2 == 0) == (m & 2 == 0) { re } else { im }
                    };
                    part as f32 * scale
                };
                let (x, y) = (soft(0), soft(1));
                steps.push(Step { grid: [x + y, x - y, -x + y, -x - y].map(on_grid), better: None });
            }
        }
        for _ in 0..r.valid_slots {
            marks.push(marks[marks.len() - 1] + per_slot);
        }
    }
    assert_eq!(marks[marks.len() - 1], steps.len());
    (steps, marks)
}

/// The steps of a period and the mother bits sent in it, in order: 2(i-1) is Xi, 2(i-1)+1 is Yi.
fn sent_in_period(c: Combination) -> (usize, &'static [usize]) {
    match c {
        Combination::Qpsk2_3 => (4, &[0, 1, 3, 4, 5, 7]),
        Combination::Qpsk3_4 => (3, &[0, 1, 3, 4]),
        Combination::Qpsk5_6 => (5, &[0, 1, 3, 4, 7, 8]),
        Combination::Qpsk7_8 => (7, &[0, 1, 3, 5, 7, 8, 11, 12]),
        _ => (1, &[0, 1]),
    }
}

fn of_8psk(v: (f64, f64), c1_is_y: bool, scale: f32) -> Step {
    let s = f64::from_bits(0x3fe6_a09e_667f_3bcd);
    let (mut grid, mut better) = ([0; 4], [0; 4]);
    for (x, y) in [(0, 0), (0, 1), (1, 0), (1, 1)] {
        let (c1, c0) = if c1_is_y { (y, x) } else { (x, y) };
        // labels 000 001 011 010 at 0, 45, 90, 135 degrees
        let p = [(1.0, 0.0), (s, s), (-s, s), (0.0, 1.0)][2 * c1 + c0];
        let correlation: f64 = v.0 * p.0 + v.1 * p.1;
        grid[2 * x + y] = on_grid(correlation.abs() as f32 * scale);
        better[2 * x + y] = u8::from(correlation < 0.0);
    }
    Step { grid, better: Some(better) }
}

/// The pair 2X + Y that input u sends at state s.
const fn pair(u: usize, s: usize) -> usize {
    let word = (64 * u + s) as u32;
    (2 * ((word & 0o171).count_ones() % 2) + (word & 0o133).count_ones() % 2) as usize
}

const PAIR: [[u8; 64]; 2] = {
    let mut all = [[0; 64]; 2];
    let mut k = 0;
    while k < 128 {
        all[k / 64][k % 64] = pair(k / 64, k % 64) as u8;
        k += 1;
    }
    all
};

/// No path: below every sum (a sum lies within 2^60) and far from overflow.
const NONE: i64 = -(1 << 61);

type Sums = [i64; 64];

/// One step of a search: the greatest sum of each state, and which odd predecessors have it (on equality the odd one).
fn next(sums: &Sums, grid: &[i64; 4]) -> (Sums, u64) {
    let (mut new, mut odd) = ([0; 64], 0);
    for to in 0..64 {
        let (u, p) = (to / 32, 2 * (to % 32));
        let (a, b) = (sums[p] + grid[usize::from(PAIR[u][p])], sums[p + 1] + grid[usize::from(PAIR[u][p + 1])]);
        new[to] = a.max(b);
        odd |= u64::from(b >= a) << to;
    }
    (new, odd)
}

/// The same of two kinds of path through a slot: those with the slot's content so far, and those that have differed. `(u, c2)`: the content's input and uncoded bit here.
fn next_apart(same: &Sums, apart: &Sums, step: &Step, content: (u8, u8)) -> (Sums, Sums) {
    let (mut s, mut a) = ([NONE; 64], [NONE; 64]);
    for to in 0..64 {
        let u = to / 32;
        for p in [2 * (to % 32), 2 * (to % 32) + 1] {
            let l = usize::from(PAIR[u][p]);
            let own = u == usize::from(content.0);
            match step.better {
                None => {
                    a[to] = a[to].max(apart[p] + step.grid[l]);
                    let into = if own { &mut s[to] } else { &mut a[to] };
                    *into = (*into).max(same[p] + step.grid[l]);
                }
                Some(better) => {
                    for c2 in 0..2 {
                        let worth = if c2 == better[l] { step.grid[l] } else { -step.grid[l] };
                        a[to] = a[to].max(apart[p] + worth);
                        let into = if own && c2 == content.1 { &mut s[to] } else { &mut a[to] };
                        *into = (*into).max(same[p] + worth);
                    }
                }
            }
        }
    }
    (s, a)
}

struct Best {
    bits: Vec<u8>,
    uncoded: Vec<u8>,
    fit: i64,
    /// the sums where each valid slot begins
    begun: Vec<Sums>,
}

fn best_of(steps: &[Step], marks: &[usize], start: Option<u8>) -> Best {
    let mut sums: Sums = std::array::from_fn(|s| if start.is_none_or(|x| usize::from(x) == s) { 0 } else { NONE });
    let (mut begun, mut words) = (Vec::new(), Vec::with_capacity(steps.len()));
    for (k, step) in steps.iter().enumerate() {
        if marks[begun.len()] == k {
            begun.push(sums);
        }
        let (new, odd) = next(&sums, &step.grid);
        sums = new;
        words.push(odd);
    }
    let end = (0..64).max_by_key(|&s| sums[s]).unwrap(); // the last of equals
    let (mut bits, mut uncoded) = (vec![0; steps.len()], vec![0; steps.len()]);
    let mut state = end;
    for k in (0..steps.len()).rev() {
        let u = state / 32;
        state = 2 * (state % 32) + (words[k] >> state & 1) as usize;
        bits[k] = u as u8;
        uncoded[k] = steps[k].better.map_or(0, |b| b[usize::from(PAIR[u][state])]);
    }
    Best { bits, uncoded, fit: sums[end], begun }
}

/// By how much every reading is behind that has another content in slot k: the search again, that content forbidden.
fn lead(steps: &[Step], marks: &[usize], best: &Best, k: usize) -> i64 {
    let (mut same, mut apart) = (best.begun[k], [NONE; 64]);
    for i in marks[k]..marks[k + 1] {
        (same, apart) = next_apart(&same, &apart, &steps[i], (best.bits[i], best.uncoded[i]));
    }
    for step in &steps[marks[k + 1]..] {
        apart = next(&apart, &step.grid).0;
    }
    best.fit - apart.iter().max().unwrap()
}

/// The bytes: each slot's steps give their bits, high bit first, of TC8PSK the uncoded bit before each.
fn bytes_of(steps: &[Step], best: &Best) -> Vec<u8> {
    let mut all = Vec::new();
    for (k, step) in steps.iter().enumerate() {
        if step.better.is_some() {
            all.push(best.uncoded[k]);
        }
        all.push(best.bits[k]);
    }
    all.chunks(8).map(|c| c.iter().fold(0, |byte, bit| byte << 1 | bit)).collect()
}

/// A frame as received, and how it is to be read.
struct Case {
    points: Vec<Cplx>,
    table: u64,
    mapping: u8,
    first: bool,
    known: bool,
    scales: [f32; 7],
}

struct Answer {
    row: u32,
    bits: Vec<u8>,
    uncoded: Vec<u8>,
    bytes: Vec<u8>,
    leads: Vec<u64>,
    /// whether all that lies past the used fronts is as before
    past: bool,
}

/// The call, with `more` places more than are needed in each slice.
fn called(case: &Case, more: usize) -> Answer {
    let (n, v) = (steps(case.table), valid_slots(case.table));
    let re: Vec<f64> = case.points.iter().map(|p| p.re).collect();
    let im: Vec<f64> = case.points.iter().map(|p| p.im).collect();
    let (mut metrics, mut sides, mut words, mut tables) = (vec![7.5f32; 4 * n + more], vec![0xa5u8; n + more], vec![0xa5u64; n + more], vec![0xa5u64; 64 * v + more]);
    let (mut bits, mut uncoded, mut bytes, mut leads) = (vec![0xa5u8; n + more], vec![0xa5u8; n + more], vec![0xa5u8; 203 * v + more], vec![0xa5u64; v + more]);
    let s = Settings { table: case.table, mapping: case.mapping, first: case.first.into(), known: case.known.into(), scales: &case.scales };
    let lent = Lent { metrics: &mut metrics, sides: &mut sides, words: &mut words, tables: &mut tables, bits: &mut bits, uncoded: &mut uncoded, bytes: &mut bytes, leads: &mut leads };
    let row = calls::best_reading(&re, &im, &s, lent);
    let past = metrics[4 * n..].iter().all(|&x| x == 7.5)
        && [&sides[n..], &bits[n..], &uncoded[n..], &bytes[203 * v..]].iter().all(|s| s.iter().all(|&x| x == 0xa5))
        && [&words[n..], &tables[64 * v..], &leads[v..]].iter().all(|s| s.iter().all(|&x| x == 0xa5));
    bits.truncate(n);
    uncoded.truncate(n);
    bytes.truncate(203 * v);
    leads.truncate(v);
    Answer { row, bits, uncoded, bytes, leads, past }
}

/// The bytes of isdbs_decode_frame.
fn decoded(case: &Case) -> Vec<u8> {
    let (n, v) = (steps(case.table), valid_slots(case.table));
    let re: Vec<f64> = case.points.iter().map(|p| p.re).collect();
    let im: Vec<f64> = case.points.iter().map(|p| p.im).collect();
    let (mut words, mut bits, mut bytes, mut counts, mut sum) = (vec![0u64; 4224], vec![0u8; n + 16], vec![0u8; 203 * v], vec![0u32; v], 0);
    let s = Settings { table: case.table, mapping: case.mapping, first: case.first.into(), known: case.known.into(), scales: &case.scales };
    assert_eq!(calls::decode_frame(&re, &im, &s, &mut words, &mut bits, &mut bytes, &mut counts, &mut sum), 0);
    bytes
}

#[derive(Default)]
struct Tally {
    frames: u64,
    different: u64,
    leads: u64,
    ties: u64,
    slots: u64,
    otherwise: u64,
}

impl Tally {
    /// One frame beside the second program: `all` slots' leads, or those of a few.
    fn frame(&mut self, case: &Case, all: bool, draws: &mut Draws) {
        let (steps, marks) = steps_of(&case.points, case.table, case.mapping, &case.scales);
        let best = best_of(&steps, &marks, case.known.then(|| start(case.first)));
        let got = called(case, draws.below(3) as usize);
        let v = marks.len() - 1;
        let some: Vec<usize> = if all || v < 4 { (0..v).collect() } else { [0, 1, draws.below(4)].map(|i| if i == 0 && draws.below(4) == 0 { v - 1 } else { draws.below(v as u64) as usize }).to_vec() };
        let leads = got.row == 0 && some.iter().all(|&k| i64::try_from(got.leads[k]) == Ok(lead(&steps, &marks, &best, k)));
        let want = bytes_of(&steps, &best);
        let same = got.row == 0 && got.past && got.bits == best.bits && got.uncoded == best.uncoded && got.bytes == want && leads;
        self.frames += 1;
        self.leads += some.len() as u64;
        self.slots += v as u64;
        self.ties += got.leads.iter().filter(|&&l| l == 0).count() as u64;
        let read = decoded(case);
        self.otherwise += want.chunks(203).zip(read.chunks(203)).filter(|(a, b)| a != b).count() as u64;
        if !same {
            self.different += 1;
            if self.different == 1 {
                let what = (got.row, got.past, got.bits == best.bits, got.uncoded == best.uncoded, got.bytes == want, leads);
                println!("DIFFERENT table {:016x} mapping {} first {} known {} scales {:?}: row, past, bits, uncoded, bytes, leads {what:?}", case.table, case.mapping, case.first, case.known, case.scales);
            }
        }
    }

    fn done(self, name: &str, all: &mut (u64, u64)) {
        println!(
            "{:>6} frames, {} different: {name} ({} leads searched again; of {} slots {} have lead 0, decode_frame reads {} otherwise)",
            self.frames, self.different, self.leads, self.slots, self.ties, self.otherwise
        );
        all.0 += self.frames;
        all.1 += self.different;
    }
}

fn unit(draws: &mut Draws) -> f64 {
    (draws.next() >> 11) as f64 / 9_007_199_254_740_992.0
}

fn normal(draws: &mut Draws) -> f64 {
    (0..12).map(|_| unit(draws)).sum::<f64>() - 6.0
}

/// Noise at a ratio in dB to points of size 1.
fn noisy(points: &[Cplx], db: f64, draws: &mut Draws) -> Vec<Cplx> {
    let sigma = (0.5 / 10f64.powf(db / 10.0)).sqrt();
    points.iter().map(|p| Cplx::new(p.re + sigma * normal(draws), p.im + sigma * normal(draws))).collect()
}

/// Bursts of noise in place of the points.
fn bursts(points: &mut [Cplx], draws: &mut Draws) {
    let used = points.len() as u64;
    for _ in 0..1 + draws.below(4) {
        let n = draws.pick(&[3, 10, 40, 200, 800]);
        let from = draws.below(used - n) as usize;
        let size = draws.pick(&[1.0, 3.0, 30.0]);
        for p in &mut points[from..from + n as usize] {
            *p = Cplx::new(size * normal(draws), size * normal(draws));
        }
    }
}

/// Values to the nearest multiple of a step: paths of equal sums.
fn coarse(points: &mut [Cplx], step: f64) {
    for p in points {
        *p = Cplx::new((p.re / step).round() * step, (p.im / step).round() * step);
    }
}

fn clean(t: u64, m: u8, first: bool, draws: &mut Draws) -> Vec<Cplx> {
    let bytes = draws.bytes(203 * valid_slots(t));
    isdbs_phy::demod::encode_frame_with_state(&bytes, &info(t), first, mapping(m)).0
}

/// A random way to read a frame of this table.
fn case_of(t: u64, draws: &mut Draws) -> Case {
    let (m, first, known) = (draws.below(8) as u8, draws.below(2) == 0, draws.below(3) != 0);
    let scales = match draws.below(3) {
        0 => std::array::from_fn(|_| draws.pick(&[8.0, 4.0, 16.0, 0.37, 64.0, 1.0e-3, 7.7])),
        _ => [8.0; 7],
    };
    Case { points: clean(t, m, first, draws), table: t, mapping: m, first, known, scales }
}

/// Small tables, made up: one to four entries of one unit each, in any order, with word 15 between.
fn small_table(draws: &mut Draws) -> u64 {
    let mut entries = [(15u8, 0u8); 4];
    for e in entries.iter_mut().take(1 + draws.below(3) as usize) {
        let w = draws.pick(&[1, 2, 3, 4, 5, 6, 7, 7, 7, 15]);
        *e = (w, if w == 15 { 1 } else { SLOTS_OF_UNIT[usize::from(w) - 1] });
    }
    table(&entries)
}

fn compare(scale: f64) {
    let many = |n: u64| (n as f64 * scale).ceil() as u64;
    let mut all = (0, 0);
    let draws = &mut Draws(0xbe57);
    let full = some_tables();
    let mut tally = Tally::default();
    for turn in 0..many(1_200) {
        let mut case = case_of(full[turn as usize % full.len()], draws);
        case.points = noisy(&case.points, 2.0 + 18.0 * unit(draws), draws);
        tally.frame(&case, false, draws);
    }
    tally.done("tables of every kind, noise at 2 to 20 dB", &mut all);
    let mut tally = Tally::default();
    for turn in 0..many(200) {
        let mut case = case_of(full[turn as usize % full.len()], draws);
        case.points = noisy(&case.points, 15.0, draws);
        bursts(&mut case.points, draws);
        tally.frame(&case, false, draws);
    }
    tally.done("tables of every kind, 15 dB and bursts", &mut all);
    let mut tally = Tally::default();
    for turn in 0..many(200) {
        let mut case = case_of(full[turn as usize % full.len()], draws);
        case.points = noisy(&case.points, 2.0 + 10.0 * unit(draws), draws);
        coarse(&mut case.points, draws.pick(&[0.25, 0.5, 1.0]));
        tally.frame(&case, false, draws);
    }
    tally.done("tables of every kind, coarse values (ties)", &mut all);
    let mut tally = Tally::default();
    for turn in 0..many(120) {
        let mut case = case_of(full[turn as usize % full.len()], draws);
        let share = draws.pick(&[4, 2, 1]);
        case.points = noisy(&case.points, 10.0, draws).into_iter().map(|p| if draws.below(share) == 0 { Cplx::new(0.0, -0.0) } else { p }).collect();
        tally.frame(&case, false, draws);
    }
    tally.done("tables of every kind, a quarter, a half or all of the points 0", &mut all);
    let mut tally = Tally::default();
    for turn in 0..many(120) {
        let mut case = case_of(full[turn as usize % full.len()], draws);
        case.points = match turn % 3 {
            0 => noisy(&case.points, 12.0, draws).into_iter().map(|p| Cplx::new(p.re * 16_384.0, p.im * 16_384.0)).collect(),
            kind => received(&case.points, draws.next(), kind as u8, 1.0),
        };
        tally.frame(&case, false, draws);
    }
    tally.done("tables of every kind, values to 65,536, subnormal ones, zeros of both signs", &mut all);
    let mut tally = Tally::default();
    for turn in 0..many(800) {
        let mut case = case_of(small_table(draws), draws);
        case.points = noisy(&case.points, 1.0 + 12.0 * unit(draws), draws);
        match turn % 4 {
            0 => coarse(&mut case.points, draws.pick(&[0.25, 0.5, 1.0, 2.0])),
            1 => bursts(&mut case.points[..8_000], draws),
            _ => {}
        }
        tally.frame(&case, true, draws);
    }
    tally.done("small tables made up, every slot's lead", &mut all);
    let mut tally = Tally::default();
    for turn in 0..many(24) {
        let mut case = case_of(full[turn as usize % 12], draws);
        case.points = noisy(&case.points, 2.0 + 10.0 * unit(draws), draws);
        tally.frame(&case, true, draws);
    }
    tally.done("whole frames, every slot's lead", &mut all);
    println!("{} frames, {} different", all.0, all.1);
    if all.1 > 0 {
        std::process::exit(1);
    }
}

/// The leads of clean frames at scale 8, in each place of a frame: least and greatest.
fn clean_leads() {
    let draws = &mut Draws(0xc1ea);
    let say = |name: &str, all: &[u64]| {
        let (Some(l), Some(h)) = (all.iter().min(), all.iter().max()) else { return };
        println!("  {name}: {l} to {h} ({:.4} to {:.4}) of {}", *l as f64 / 1_048_576.0, *h as f64 / 1_048_576.0, all.len());
    };
    for word in 1..8u8 {
        for known in [true, false] {
            let (mut first, mut inner, mut last) = (Vec::new(), Vec::new(), Vec::new());
            for turn in 0..16 {
                let t = table(&[(word, 48)]);
                let (m, kind) = (turn % 8, turn < 8);
                let case = Case { points: clean(t, m, kind, draws), table: t, mapping: m, first: kind, known, scales: [8.0; 7] };
                let got = called(&case, 0);
                assert_eq!(got.row, 0);
                let n = got.leads.len();
                first.push(got.leads[0]);
                inner.extend_from_slice(&got.leads[1..n - 1]);
                last.push(got.leads[n - 1]);
            }
            println!("word {word}, start {}:", if known { "known" } else { "unknown" });
            say("first slot", &first);
            say("others", &inner);
            say("last slot", &last);
        }
    }
    println!("before another run, known start: the last slot of word A before word B");
    for a in 1..8u8 {
        for b in 1..8u8 {
            let (mut before, mut behind) = (Vec::new(), Vec::new());
            let unit = |w: u8| SLOTS_OF_UNIT[usize::from(w) - 1];
            for turn in 0..8 {
                let t = table(&[(a, unit(a)), (b, 2 * unit(b))]);
                let case = Case { points: clean(t, turn, true, draws), table: t, mapping: turn, first: true, known: true, scales: [8.0; 7] };
                let got = called(&case, 0);
                let n = valid_slots(table(&[(a, unit(a))]));
                before.push(got.leads[n - 1]);
                behind.push(got.leads[n]);
            }
            say(&format!("{a} before {b}: last of {a}"), &before);
            say(&format!("{a} before {b}: first of {b}"), &behind);
        }
    }
}

fn thread_time() -> f64 {
    #[repr(C)]
    struct Timespec(i64, i64);
    unsafe extern "C" {
        fn clock_gettime(id: i32, at: *mut Timespec) -> i32;
    }
    let mut at = Timespec(0, 0);
    unsafe { clock_gettime(3, &mut at) };
    at.0 as f64 * 1e3 + at.1 as f64 / 1e6
}

/// The least processor time of both calls on the same frames, in turn.
fn speed(rounds: u64) {
    let draws = &mut Draws(0x5eed);
    for (name, t) in [("QPSK 7/8", table(&[(6, 48)])), ("TC8PSK", table(&[(7, 48)])), ("mixed", table(&[(7, 22), (6, 8), (3, 9), (1, 8)]))] {
        let mut case = Case { points: clean(t, 0, true, draws), table: t, mapping: 0, first: true, known: true, scales: [8.0; 7] };
        case.points = noisy(&case.points, 9.0, draws);
        let (mut a, mut b) = (f64::MAX, f64::MAX);
        for _ in 0..rounds {
            let from = thread_time();
            decoded(&case);
            let middle = thread_time();
            called(&case, 0);
            let to = thread_time();
            a = a.min(middle - from);
            b = b.min(to - middle);
        }
        println!("{name}: decode_frame {a:.3} ms, best_reading {b:.3} ms: {:.2} times; {:.1} ns a step", b / a, b * 1e6 / steps(t) as f64);
    }
}

/// The call, with all that it is lent made before, in a thread with a stack of so many kB (what the thread itself takes is among them).
fn on_small_stack(kb: usize) {
    let draws = &mut Draws(0x57ac);
    for t in some_tables() {
        let mut case = case_of(t, draws);
        case.points = noisy(&case.points, 6.0, draws);
        let row = std::thread::Builder::new().stack_size(kb * 1024).spawn(move || called(&case, 1).row).unwrap().join().unwrap();
        assert_eq!(row, 0);
    }
    println!("every table read on a stack of {kb} kB");
}

fn main() {
    let words: Vec<String> = std::env::args().skip(1).collect();
    match words.first().map(String::as_str) {
        Some("clean") => clean_leads(),
        Some("speed") => speed(words.get(1).map_or(20, |w| w.parse().unwrap())),
        Some("stack") => on_small_stack(words.get(1).map_or(96, |w| w.parse().unwrap())),
        Some(scale) => compare(scale.parse().unwrap()),
        None => compare(1.0),
    }
}
