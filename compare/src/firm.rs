// When a slot of the best reading may be called firm: made frames of each combination with white noise, and with bursts; what each slot shows, and whether its bytes are right.
// firm list [ROUNDS [SEED [WHAT]]]: a line for each slot; WHAT is one of WHATS, or WORD+DB: as many frames of that combination at that dB above where its bytes fail.   firm tables FILE..: the rule below on these lines, and the tables of docs/BENCH.md.
mod calls;
mod draws;
use calls::{Lent, Settings};
use draws::*;
use std::collections::BTreeMap;

/// A combination: its word, name, slots and valid slots of a unit, and the whole dB of C/N at which bytes fail.
struct Kind {
    word: u8,
    name: &'static str,
    unit: (usize, usize),
    fails: i32,
}

const KINDS: [Kind; 7] = [
    Kind { word: 1, name: "BPSK 1/2", unit: (4, 1), fails: 0 },
    Kind { word: 2, name: "QPSK 1/2", unit: (2, 1), fails: 3 },
    Kind { word: 3, name: "QPSK 2/3", unit: (3, 2), fails: 5 },
    Kind { word: 4, name: "QPSK 3/4", unit: (4, 3), fails: 7 },
    Kind { word: 5, name: "QPSK 5/6", unit: (6, 5), fails: 7 },
    Kind { word: 6, name: "QPSK 7/8", unit: (8, 7), fails: 8 },
    Kind { word: 7, name: "TC8PSK 2/3", unit: (1, 1), fails: 9 },
];

/// What a slot shows, and whether its bytes are the sent ones. Levels in tenths of a dB.
struct Slot {
    last: bool,
    right: bool,
    /// the lead in percent of the clean frame's
    strength: i64,
    strain: u32,
    /// the level of the worst of the frame's slots in which it lies, of the worst of the two beside these, and of the frame's middle slot
    worst: i32,
    beside: i32,
    middle: i32,
}

/// The rule. By noise: the frame's middle slot tells how much strength to ask for. By bursts: a slot below the middle one by more than noise makes it needs more, or is not firm; one beside a slot that was hit, which shares code with it,
/// needs 60 %. The last slot, whose end is open, has a rule of its own: one or two coded bits carry its last ones, so that its strength tells how far these are from another reading, and the noise how far they must be.
fn is_firm(kind: &Kind, s: &Slot) -> bool {
    let fails = 10 * kind.fails;
    // of BPSK half as many parts are counted
    let usual = if kind.word == 1 { 5 } else { 3 };
    let short = (s.middle - s.worst - usual).max(0);
    // noise makes slots of TC8PSK wrong with up to 20 %
    let least = if kind.word == 7 { 22 } else { 10 };
    let by_level = if s.last { at_end(kind, s.middle) } else { (s.middle - fails - 10).clamp(least, 30) };
    let in_any_case = if s.beside < s.middle - 10 { 60 } else { 0 };
    s.worst >= fails + 13 && short <= if s.last { 1 } else { 2 } && s.strength >= i64::from(in_any_case.max(by_level + 6 * short))
}

/// The strength that the last slot needs at a middle level.
fn at_end(kind: &Kind, middle: i32) -> i32 {
    let falls = [0, 30, 60, 60, 60, 60, 60][usize::from(kind.word) - 1];
    (100 - 3 * (middle - falls).max(0) / 2).max(45)
}

const STEPS: usize = 68_208;
const SLOTS: usize = 48;
const SLOT_SYMBOLS: usize = MAIN / SLOTS;
const MAPPING: u8 = 4;
/// No level is told above this one.
const HIGHEST: i32 = 600;

/// What is sent, and how it is read.
#[derive(Clone)]
struct Case {
    entries: Vec<(u8, u8)>,
    scales: [f32; 7],
    /// what the received points are multiplied by
    gain: f64,
    /// the points are rounded to f32
    narrow: bool,
    /// the reader takes the start to be 0
    known: bool,
    /// the state that the frame is sent from
    state: u8,
}

impl Case {
    fn new(entries: &[(u8, u8)]) -> Self {
        Case { entries: entries.to_vec(), scales: [8.0; 7], gain: 1.0, narrow: false, known: true, state: 0 }
    }

    fn table(&self) -> u64 {
        table(&self.entries)
    }

    fn settings(&self) -> Settings<'_> {
        Settings { table: self.table(), mapping: MAPPING, first: 1, known: u8::from(self.known), scales: &self.scales }
    }

    /// The combination of each of the frame's slots that has one, by its points.
    fn slots(&self) -> Vec<&'static Kind> {
        self.entries.iter().filter(|e| (1..=7).contains(&e.0)).flat_map(|e| std::iter::repeat_n(&KINDS[usize::from(e.0) - 1], usize::from(e.1))).collect()
    }

    /// The valid slots: the combination of each, and the slots of the frame in which it lies.
    fn places(&self) -> Vec<Place> {
        let (mut all, mut from) = (Vec::new(), 0);
        for &(word, n) in self.entries.iter().filter(|e| (1..=7).contains(&e.0)) {
            let kind = &KINDS[usize::from(word) - 1];
            let (slots, valid) = kind.unit;
            all.extend((0..usize::from(n) / slots * valid).map(|k| Place { kind, own: from + k * slots / valid..from + ((k + 1) * slots).div_ceil(valid) }));
            from += usize::from(n);
        }
        all
    }

    /// The clean points of a load that is sent from a state.
    fn encoded(&self, load: &[u8], state: u8) -> (Vec<f64>, Vec<f64>) {
        let (mut re, mut im, mut end) = (vec![0.0; MAIN], vec![0.0; MAIN], 0);
        assert_eq!(calls::encode_frame(load, self.table(), MAPPING, state, &mut re, &mut im, &mut end), 0);
        (re, im)
    }
}

struct Place {
    kind: &'static Kind,
    own: std::ops::Range<usize>,
}

/// The received points, and space for the calls.
struct Bench {
    re: Vec<f64>,
    im: Vec<f64>,
    metrics: Vec<f32>,
    sides: Vec<u8>,
    words: Vec<u64>,
    tables: Vec<u64>,
    bits: Vec<u8>,
    uncoded: Vec<u8>,
    /// the leads of clean frames by what they hang on: not the bytes, which every 16th frame tries again
    clean: BTreeMap<String, Vec<u64>>,
    frames: usize,
}

impl Bench {
    fn new() -> Self {
        Bench {
            re: vec![0.0; MAIN],
            im: vec![0.0; MAIN],
            metrics: vec![0.0; 4 * STEPS],
            sides: vec![0; STEPS],
            words: vec![0; STEPS],
            tables: vec![0; 64 * SLOTS],
            bits: vec![0; STEPS + 16],
            uncoded: vec![0; STEPS],
            clean: BTreeMap::new(),
            frames: 0,
        }
    }

    /// The best reading of points and its leads.
    fn best(&mut self, case: &Case, re: &[f64], im: &[f64]) -> (Vec<u8>, Vec<u64>) {
        let valid = case.places().len();
        let (mut bytes, mut leads) = (vec![0; 203 * valid], vec![0; valid]);
        let lent = Lent {
            metrics: &mut self.metrics,
            sides: &mut self.sides,
            words: &mut self.words,
            tables: &mut self.tables,
            bits: &mut self.bits,
            uncoded: &mut self.uncoded,
            bytes: &mut bytes,
            leads: &mut leads,
        };
        assert_eq!(calls::best_reading(re, im, &case.settings(), lent), 0);
        (bytes, leads)
    }

    /// The leads of the clean frame of the bytes.
    fn clean_leads(&mut self, case: &Case, bytes: &[u8], (re, im): &(Vec<f64>, Vec<f64>)) -> Vec<u64> {
        let key = format!("{:?} {} {:?}", case.entries, case.known, case.scales);
        if !self.clean.contains_key(&key) || self.frames % 16 == 0 {
            let (again, leads) = self.best(case, re, im);
            assert_eq!(bytes, again);
            assert_eq!(leads, *self.clean.entry(key.clone()).or_insert_with(|| leads.clone()), "clean leads of {key}");
        }
        self.frames += 1;
        self.clean[&key].clone()
    }

    /// The strained steps of each valid slot, as `read` counts them.
    fn strain(&mut self, case: &Case) -> Vec<u32> {
        let valid = case.places().len();
        let (mut words, mut bytes, mut counts, mut sum) = (vec![0; 4224], vec![0; 203 * valid], vec![0; valid], 0);
        assert_eq!(calls::decode_frame(&self.re, &self.im, &case.settings(), &mut words, &mut self.bits, &mut bytes, &mut counts, &mut sum), 0);
        counts
    }

    /// The level of each of the frame's slots, as of isdbs_quality: signal by error power against the points of the bytes; of BPSK the real parts alone count, which is 3.0 dB.
    fn levels(&self, case: &Case, (re, im): &(Vec<f64>, Vec<f64>)) -> Vec<i32> {
        let level = |(i, kind): (usize, &&Kind)| {
            let is_real = kind.word == 1;
            let power = |x: f64, y: f64| if is_real { x * x } else { x * x + y * y };
            let (mut signal, mut error) = (0.0, 0.0);
            for k in i * SLOT_SYMBOLS..(i + 1) * SLOT_SYMBOLS {
                signal += power(re[k], im[k]);
                error += power(self.re[k] - re[k], self.im[k] - im[k]);
            }
            let tenths = 100.0 * (signal / error).log10();
            if tenths < f64::from(HIGHEST) { tenths.floor() as i32 - if is_real { 30 } else { 0 } } else { HIGHEST }
        };
        case.slots().iter().enumerate().map(level).collect()
    }

    /// What the slots of the received points show.
    fn read(&mut self, case: &Case, load: &[u8]) -> Vec<Slot> {
        let (re, im) = (self.re.clone(), self.im.clone());
        let (bytes, leads) = self.best(case, &re, &im);
        let sent = case.encoded(&bytes, 0);
        let clean = self.clean_leads(case, &bytes, &sent);
        let counts = self.strain(case);
        let levels = self.levels(case, &sent);
        let middle = *levels.iter().filter(|&&x| 2 * levels.iter().filter(|&&y| y >= x).count() > levels.len()).max().unwrap();
        let places = case.places();
        let count = places.len();
        let beside = |own: &std::ops::Range<usize>| [own.start.wrapping_sub(1), own.end].into_iter().filter_map(|i| levels.get(i)).min().copied();
        places
            .iter()
            .enumerate()
            .map(|(k, p)| Slot {
                last: k == count - 1,
                right: bytes[203 * k..203 * k + 203] == load[203 * k..203 * k + 203],
                strength: (100 * leads[k] / clean[k]) as i64,
                strain: counts[k],
                worst: p.own.clone().map(|i| levels[i]).min().unwrap(),
                beside: beside(&p.own).unwrap_or(10 * HIGHEST),
                middle,
            })
            .collect()
    }

    /// The frame of a load, as it is sent.
    fn send(&mut self, case: &Case, draws: &mut Draws) -> Vec<u8> {
        let load = draws.bytes(203 * case.places().len());
        (self.re, self.im) = case.encoded(&load, case.state);
        load
    }

    /// White noise at a C/N in dB, the points being of size 1.
    fn add_noise(&mut self, db: i32, draws: &mut Draws) {
        let sigma = (0.5 / 10f64.powf(f64::from(db) / 10.0)).sqrt();
        for k in 0..MAIN {
            let (x, y) = normals(draws);
            self.re[k] += sigma * x;
            self.im[k] += sigma * y;
        }
    }

    /// A burst of noise in place of n points, from a random one on.
    fn burst(&mut self, n: usize, amplitude: f64, draws: &mut Draws) {
        let from = draws.below((MAIN - n) as u64) as usize;
        for k in from..from + n {
            let (x, y) = normals(draws);
            self.re[k] = amplitude * x;
            self.im[k] = amplitude * y;
        }
    }
}

fn unit(draws: &mut Draws) -> f64 {
    ((draws.next() >> 11) as f64 + 0.5) / 9_007_199_254_740_992.0
}

/// Two normal numbers.
fn normals(draws: &mut Draws) -> (f64, f64) {
    let (size, turn) = ((-2.0 * unit(draws).ln()).sqrt(), std::f64::consts::TAU * unit(draws));
    (size * turn.cos(), size * turn.sin())
}

/// The background of a frame that is clean but for its bursts.
const CLEAN: i32 = 99;
const LENGTHS: [usize; 7] = [10, 20, 50, 100, 200, 400, 800];

/// Where a slot lies: 1 the frame's last, 2 its first where the start is not known, 0 any other.
fn place(case: &Case, k: usize, last: bool) -> u8 {
    match (last, k == 0 && !case.known) {
        (true, _) => 1,
        (_, true) => 2,
        _ => 0,
    }
}

/// A line for each slot: word, dB, length and amplitude of the bursts (0 without), place, whether it is right, strength, strain, the level, that beside it and the middle one.
fn show(case: &Case, db: i32, length: usize, amplitude: u32, slots: &[Slot]) {
    for (k, (s, p)) in slots.iter().zip(case.places()).enumerate() {
        println!("{} {db} {length} {amplitude} {} {} {} {} {} {} {}", p.kind.word, place(case, k, s.last), u8::from(s.right), s.strength, s.strain, s.worst, s.beside, s.middle);
    }
}

impl Bench {
    /// A frame with noise and up to so many bursts, read and shown.
    fn frame(&mut self, case: &Case, db: i32, (most, length, amplitude): (u64, usize, u32), draws: &mut Draws) {
        let load = self.send(case, draws);
        if db != CLEAN {
            self.add_noise(db, draws);
        }
        for _ in 0..if most > 0 { 1 + draws.below(most) } else { 0 } {
            self.burst(length, f64::from(amplitude), draws);
        }
        for x in self.re.iter_mut().chain(&mut self.im) {
            *x *= case.gain;
            if case.narrow {
                *x = f64::from(*x as f32);
            }
        }
        let slots = self.read(case, &load);
        show(case, db, length, amplitude, &slots);
    }
}

/// The whole dB from where the first of a case's combinations fails to 4 above where the last one does.
fn span(case: &Case) -> std::ops::RangeInclusive<i32> {
    let fails = || case.slots().into_iter().map(|k| k.fails);
    fails().min().unwrap()..=fails().max().unwrap() + 4
}

/// One round of noise alone: 200 slots or more at each whole dB.
fn noise_round(bench: &mut Bench, case: &Case, draws: &mut Draws) {
    for db in span(case) {
        for _ in 0..200usize.div_ceil(case.places().len()) {
            bench.frame(case, db, (0, 0, 0), draws);
        }
    }
}

/// One round of bursts: a frame of each kind, with one burst for each four valid slots at most.
fn burst_round(bench: &mut Bench, case: &Case, draws: &mut Draws) {
    for length in LENGTHS {
        for amplitude in [1, 3] {
            for db in [*span(case).end(), CLEAN] {
                bench.frame(case, db, (case.places().len() as u64 / 4, length, amplitude), draws);
            }
        }
    }
}

/// Whole frames of each combination.
fn wholes() -> Vec<Case> {
    KINDS.iter().map(|k| Case::new(&[(k.word, 48)])).collect()
}

/// Tables of several combinations, the last two in an order that the standard does not have.
const MIXED: [&[(u8, u8)]; 7] = [
    &[(7, 44), (1, 4)],
    &[(7, 46), (2, 2)],
    &[(6, 24), (2, 24)],
    &[(6, 16), (4, 8), (2, 20), (1, 4)],
    &[(15, 4), (3, 30), (5, 6), (1, 8)],
    &[(1, 16), (7, 32)],
    &[(2, 40), (7, 8)],
];

/// Whole frames of each combination; several combinations; other scales than 8; points off in gain; points of f32; the start not known to the reader, and also another than it takes for the levels.
const WHATS: &str = "whole, mixed, scales, gain, narrow, unknown, other";

fn cases(what: &str) -> Vec<Case> {
    let with = |f: &dyn Fn(Case) -> Case| wholes().into_iter().map(f).collect::<Vec<Case>>();
    match what {
        "whole" => wholes(),
        "mixed" => MIXED.into_iter().map(Case::new).collect(),
        "scales" => [0.37, 64.0].into_iter().flat_map(|x| with(&|c| Case { scales: [x; 7], ..c })).collect(),
        "gain" => [0.97, 1.03].into_iter().flat_map(|gain| with(&|c| Case { gain, ..c })).collect(),
        "narrow" => with(&|c| Case { narrow: true, ..c }),
        "unknown" => with(&|c| Case { known: false, ..c }),
        "other" => with(&|c| Case { known: false, state: 63, ..c }),
        _ => panic!("{what}: none of {WHATS}"),
    }
}

/// Frames of one combination with noise alone: `7+2` is TC8PSK 2 dB above where its bytes fail.
fn list_at(frames: u64, word: &str, above: &str, bench: &mut Bench, draws: &mut Draws) {
    let kind = &KINDS[word.parse::<usize>().unwrap() - 1];
    let case = Case::new(&[(kind.word, 48)]);
    for _ in 0..frames {
        bench.frame(&case, kind.fails + above.parse::<i32>().unwrap(), (0, 0, 0), draws);
    }
}

fn list(rounds: u64, seed: u64, what: &str) {
    let (mut bench, mut draws) = (Bench::new(), Draws(0xf123_4567_89ab_cdef ^ seed));
    if let Some((word, above)) = what.split_once('+') {
        return list_at(rounds, word, above, &mut bench, &mut draws);
    }
    let cases = cases(what);
    for _ in 0..rounds {
        for case in &cases {
            noise_round(&mut bench, case, &mut draws);
            burst_round(&mut bench, case, &mut draws);
        }
    }
}

/// Slots of one kind: right and wrong ones, and those of them that are firm.
#[derive(Default, Clone, Copy)]
struct Count {
    right: u32,
    right_firm: u32,
    wrong: u32,
    wrong_firm: u32,
    /// the greatest strength of a wrong one
    greatest: i64,
}

impl Count {
    fn add(&mut self, s: &Slot, firm: bool) {
        if s.right {
            self.right += 1;
            self.right_firm += u32::from(firm);
        } else {
            self.wrong += 1;
            self.wrong_firm += u32::from(firm);
            self.greatest = self.greatest.max(s.strength);
        }
    }

    /// How many of the right ones are firm.
    fn share(&self) -> String {
        if self.right == 0 { "-".into() } else { format!("{:.1} %", 100.0 * f64::from(self.right_firm) / f64::from(self.right)) }
    }
}

/// What a slot was: word, dB above where bytes fail, whether there was no noise, length and amplitude of the bursts, place.
#[derive(PartialEq, Eq, PartialOrd, Ord)]
struct Key {
    word: u8,
    above: i32,
    clean: bool,
    length: usize,
    amplitude: u32,
    place: u8,
}

type Counts = BTreeMap<Key, Count>;

fn counted(files: &[String]) -> Counts {
    let mut counts = Counts::new();
    for file in files {
        for line in std::fs::read_to_string(file).unwrap().lines() {
            let n: Vec<i64> = line.split(' ').map(|w| w.parse().unwrap()).collect();
            let Ok([word, db, length, amplitude, place, right, strength, strain, worst, beside, middle]) = <[i64; 11]>::try_from(n) else { continue };
            let kind = &KINDS[word as usize - 1];
            let s = Slot { last: place == 1, right: right == 1, strength, strain: strain as u32, worst: worst as i32, beside: beside as i32, middle: middle as i32 };
            let key = Key { word: kind.word, above: db as i32 - kind.fails, clean: db as i32 == CLEAN, length: length as usize, amplitude: amplitude as u32, place: place as u8 };
            counts.entry(key).or_default().add(&s, is_firm(kind, &s));
        }
    }
    counts
}

/// The sum of the counts of some keys.
fn sum(counts: &Counts, of: impl Fn(&Key) -> bool) -> Count {
    let mut all = Count::default();
    for (_, c) in counts.iter().filter(|(k, _)| of(k)) {
        all.right += c.right;
        all.right_firm += c.right_firm;
        all.wrong += c.wrong;
        all.wrong_firm += c.wrong_firm;
        all.greatest = all.greatest.max(c.greatest);
    }
    all
}

/// The shares of right slots that are firm at some dB above where bytes fail.
fn shares(counts: &Counts, above: std::ops::Range<i32>, of: impl Fn(&Key) -> bool) -> String {
    let all: Vec<String> = above.map(|d| sum(counts, |k| k.length == 0 && k.above == d && of(k)).share()).collect();
    all.join(", ")
}

fn noise_table(counts: &Counts) {
    println!("| white noise | fails at | slots | wrong, by dB above that: 0 to 4 | of them the frame's last slot | strength of wrong ones at most, and of the last slot | of them firm | right ones firm: 1, 2, 3, 4 dB above | the last slot, right ones firm: 2, 3, 4 dB above |");
    println!("|---|---|---|---|---|---|---|---|---|");
    for kind in &KINDS {
        let own = |k: &Key| k.word == kind.word && k.length == 0;
        let wrong = |last: bool| (0..5).map(|d| sum(counts, |k| own(k) && k.above == d && (!last || k.place == 1)).wrong.to_string()).collect::<Vec<String>>().join(", ");
        let all = sum(counts, own);
        println!(
            "| {} | {} dB | {} | {} | {} | {} %, {} % | {} | {} | {} |",
            kind.name,
            kind.fails,
            all.right + all.wrong,
            wrong(false),
            wrong(true),
            sum(counts, |k| own(k) && k.place != 1).greatest,
            sum(counts, |k| own(k) && k.place == 1).greatest,
            all.wrong_firm,
            shares(counts, 1..5, |k| own(k) && k.place != 1),
            shares(counts, 2..5, |k| own(k) && k.place == 1),
        );
    }
}

fn burst_table(counts: &Counts) {
    println!("\n| bursts of | slots made wrong, at 4 dB above | of them firm | clean but for the bursts | of them firm | their strength at most |\n|---|---|---|---|---|---|");
    for length in LENGTHS {
        for amplitude in [1, 3] {
            let of = |clean: bool| sum(counts, |k| k.length == length && k.amplitude == amplitude && k.clean == clean);
            let (noisy, clean) = (of(false), of(true));
            println!("| {length} symbols, amplitude {amplitude} | {} | {} | {} | {} | {} % |", noisy.wrong, noisy.wrong_firm, clean.wrong, clean.wrong_firm, noisy.greatest.max(clean.greatest));
        }
    }
}

/// The tables, and a row of sums; whether the rule holds what it should.
fn tables(files: &[String]) -> bool {
    let counts = counted(files);
    noise_table(&counts);
    burst_table(&counts);
    let (noise, bursts) = (sum(&counts, |k| k.length == 0), sum(&counts, |k| k.length > 0));
    let (last, first) = (sum(&counts, |k| k.length == 0 && k.place == 1), sum(&counts, |k| k.length == 0 && k.place == 2));
    println!("\n| slots with noise | wrong | firm | the last slots | wrong | the first slots, start not known | wrong | right ones firm: 2, 3, 4 dB above | the last: 2, 3, 4 | the first: 2, 3, 4 | made wrong by bursts | firm |\n|---|---|---|---|---|---|---|---|---|---|---|---|");
    println!(
        "| {} | {} | {} | {} | {} | {} | {} | {} | {} | {} | {} | {} |",
        noise.right + noise.wrong,
        noise.wrong,
        noise.wrong_firm,
        last.right + last.wrong,
        last.wrong,
        first.right + first.wrong,
        first.wrong,
        shares(&counts, 2..5, |k| k.place == 0),
        shares(&counts, 2..5, |k| k.place == 1),
        shares(&counts, 2..5, |k| k.place == 2),
        bursts.wrong,
        bursts.wrong_firm
    );
    noise.wrong_firm == 0 && 1000 * bursts.wrong_firm <= bursts.wrong
}

fn main() {
    let words: Vec<String> = std::env::args().skip(1).collect();
    let number = |i: usize, n: u64| words.get(i).map_or(n, |w| w.parse().unwrap());
    match words.first().map(String::as_str) {
        Some("list") => list(number(1, 10), number(2, 0), words.get(3).map_or("whole", String::as_str)),
        Some("tables") => {
            if !tables(&words[1..]) {
                std::process::exit(1);
            }
        }
        _ => panic!("firm list [ROUNDS [SEED [WHAT]]] or firm tables FILE.."),
    }
}
