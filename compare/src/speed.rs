// Times beside the given Rust, from one run: each piece of work on both sides in turn, the least processor time of each over the rounds.
// speed [ROUNDS [all]] (default 15). Prints lines of columns parted by tabs, which compare/speed.sh makes tables of; with `all` also frames held to real time, and the peers.
mod calls;
mod common;
mod peers;
use calls::Feed;
use common::*;
use isdb_fec::ViterbiDecoder;
use std::alloc::{GlobalAlloc, Layout, System};
use std::hint::black_box;
use std::sync::atomic::{AtomicUsize, Ordering::Relaxed};

/// Counts what the Rust allocates.
struct Counting;

static NOW: AtomicUsize = AtomicUsize::new(0);
static MOST: AtomicUsize = AtomicUsize::new(0);

unsafe impl GlobalAlloc for Counting {
    unsafe fn alloc(&self, l: Layout) -> *mut u8 {
        let now = NOW.fetch_add(l.size(), Relaxed) + l.size();
        MOST.fetch_max(now, Relaxed);
        unsafe { System.alloc(l) }
    }

    unsafe fn alloc_zeroed(&self, l: Layout) -> *mut u8 {
        let now = NOW.fetch_add(l.size(), Relaxed) + l.size();
        MOST.fetch_max(now, Relaxed);
        unsafe { System.alloc_zeroed(l) }
    }

    /// Passed on, as it would be without the count: the default copies.
    unsafe fn realloc(&self, p: *mut u8, l: Layout, size: usize) -> *mut u8 {
        let now = NOW.fetch_add(size, Relaxed) + size;
        MOST.fetch_max(now, Relaxed);
        NOW.fetch_sub(l.size(), Relaxed);
        unsafe { System.realloc(p, l, size) }
    }

    unsafe fn dealloc(&self, p: *mut u8, l: Layout) {
        NOW.fetch_sub(l.size(), Relaxed);
        unsafe { System.dealloc(p, l) }
    }
}

#[global_allocator]
static MEMORY: Counting = Counting;

/// The most that `f` holds beyond what is held before.
fn held_by(f: impl FnOnce()) -> usize {
    let before = NOW.load(Relaxed);
    MOST.store(before, Relaxed);
    f();
    MOST.load(Relaxed) - before
}

unsafe extern "C" {
    fn clock_gettime(clock: i32, time: *mut [i64; 2]) -> i32;
    fn mallopt(what: i32, value: i32) -> i32;
}

/// The processor time of this thread in nanoseconds: what other programs take is not in it.
fn processor_time() -> i64 {
    let mut time = [0; 2];
    assert_eq!(unsafe { clock_gettime(3, &mut time) }, 0);
    time[0] * 1_000_000_000 + time[1]
}

fn time(f: &mut impl FnMut()) -> f64 {
    let from = processor_time();
    f();
    (processor_time() - from) as f64
}

/// The least time in nanoseconds.
pub fn least(rounds: usize, mut f: impl FnMut()) -> f64 {
    (0..rounds).fold(f64::MAX, |a, _| a.min(time(&mut f)))
}

/// The least time of either side in nanoseconds, in turn.
fn beside(rounds: usize, mut rust: impl FnMut(), mut here: impl FnMut()) -> (f64, f64) {
    (0..rounds).fold((f64::MAX, f64::MAX), |(a, b), _| (a.min(time(&mut rust)), b.min(time(&mut here))))
}

fn row(name: &str, count: usize, (rust, here): (f64, f64), memory: (usize, usize)) {
    println!("beside\t{name}\t{}\t{}\t{}\t{}", rust / count as f64, here / count as f64, memory.0.div_ceil(1024), memory.1.div_ceil(1024));
}

fn decoder(rounds: usize) {
    let n = 65_536;
    let mut draws = Draws(0x5eed);
    let mut noise = |k: usize| -> Vec<f32> { (0..k).map(|_| (draws.next() >> 48) as u16 as i16 as f32 / 1024.0).collect() };
    let (pairs, metrics) = (noise(2 * n), noise(4 * n));
    let quadruples: Vec<[f32; 4]> = metrics.chunks_exact(4).map(|q| [q[0], q[1], q[2], q[3]]).collect();
    let fresh = *ViterbiDecoder::new(128).path_values();
    let mut decisions = vec![0u64; 4224];
    let mut out = vec![0u8; n + 4096];
    for (name, feed) in [("push, 65,536 pairs", Feed::Pairs(&pairs)), ("push_metrics, 65,536 quadruples", Feed::Metrics(&metrics))] {
        let rust = || {
            let mut decoder = ViterbiDecoder::new(128);
            let mut bits = Vec::new();
            match feed {
                Feed::Pairs(s) => decoder.push(s, &mut bits),
                _ => decoder.push_metrics(&quadruples, &mut bits),
            }
            decoder.flush(&mut bits);
            black_box(bits);
        };
        let most = held_by(rust);
        let times = beside(rounds, rust, || {
            let mut pm = fresh;
            let (mut held, mut count) = (0, 0);
            assert_eq!(calls::feed(&mut pm, &mut held, 128, feed, &mut decisions, &mut out, &mut count), 0);
            assert_eq!(calls::feed(&mut pm, &mut held, 128, Feed::Flush, &mut decisions, &mut out[65_536..], &mut count), 0);
            black_box(&out);
        });
        row(name, n, times, (most, 4224 * 8 + n));
    }
}

#[cfg(any(encode, decode))]
const FRAMES: [(&str, &[(u8, u8)]); 3] = [("QPSK 7/8", &[(6, 48)]), ("TC8PSK", &[(7, 48)]), ("mixed (TC8PSK 22, QPSK 7/8 8, 2/3 9, BPSK 8)", &[(7, 22), (6, 8), (3, 9), (1, 8)])];

/// What is received: with noise; as it was sent; with noise, and a quarter of the points exactly 0, as where a receiver mutes.
#[cfg(decode)]
const CAPTURES: [(&str, fn(&[Cplx]) -> Vec<Cplx>); 3] = [
    ("decode a frame", |clean| received(clean, 0x5eed, 0, 0.8)),
    ("decode a clean frame", |clean| clean.to_vec()),
    ("decode a frame with zeros", |clean| {
        let mut draws = Draws(0x0000_2e05);
        let mut points = received(clean, 0x5eed, 0, 0.8);
        points.iter_mut().filter(|_| draws.below(4) == 0).for_each(|v| *v = Cplx::new(0.0, 0.0));
        points
    }),
];

#[cfg(decode)]
fn decoding(rounds: usize) {
    for (work, capture) in CAPTURES {
        for (name, entries) in FRAMES {
            let t = table(entries);
            let bytes = load(0x10ad, valid_slots(t) * 203);
            let (clean, _) = reference_frame(&bytes, t, 4, start(true)).unwrap();
            let points = capture(&clean);
            let (re, im): (Vec<f64>, Vec<f64>) = points.iter().map(|v| (v.re, v.im)).unzip();
            let (info, o) = (info(t), options(4, true, 8.0));
            let s = calls::Settings { table: t, mapping: 4, first: 1, known: 1, scales: &[8.0; 7] };
            let mut decisions = vec![0u64; 4224];
            let mut bits = vec![0u8; steps(t) + 16];
            let mut out = vec![0u8; bytes.len()];
            let mut counts = vec![0u32; valid_slots(t)];
            let mut sum = 0;
            let rust = || {
                black_box(isdbs_phy::demod::decode_frame(&points, &info, true, &o));
            };
            let most = held_by(rust);
            let times = beside(rounds, rust, || assert_eq!(calls::decode_frame(&re, &im, &s, &mut decisions, &mut bits, &mut out, &mut counts, &mut sum), 0));
            row(&format!("{work}, {name}"), steps(t), times, (most, 4224 * 8 + bits.len() + out.len() + 4 * counts.len()));
        }
    }
}

/// ISDB-T: soft values with noise at a rate of Table 3-8, to bits.
#[cfg(isdbt)]
fn isdbt(rounds: usize) {
    use isdbt_core::CodeRate::*;
    use isdbt_fec::conv::Puncturing;
    for (name, number, rate) in [("2/3", 1, R2_3), ("3/4", 2, R3_4), ("7/8", 4, R7_8)] {
        let p = Puncturing::new(rate);
        let n = 65_536 / p.period * p.period;
        let mut draws = Draws(0x15db);
        let bits = draws.bytes(n).iter().map(|b| b & 1).collect::<Vec<u8>>();
        let mut sent = Vec::new();
        isdbt_fec::conv::encode_punctured(&mut isdbt_fec::conv::ConvEncoder::new(), &p, &bits, &mut sent);
        let llrs: Vec<f32> = sent.iter().map(|&b| 8.0 * (1.0 - 2.0 * f32::from(b)) + (draws.next() >> 48) as u16 as i16 as f32 / 4096.0).collect();
        let mut decisions = vec![0u64; 4224];
        let mut out = vec![0u8; n];
        let mut count = 0;
        let rust = || {
            black_box(isdbt_fec::conv::decode_punctured(rate, &llrs, 128));
        };
        let most = held_by(rust);
        let times = beside(rounds, rust, || assert_eq!(calls::decode_punctured(number, &llrs, 128, &mut decisions, &mut out, &mut count), 0));
        row(&format!("decode_punctured, rate {name}"), n, times, (most, 4224 * 8 + n));
    }
}

#[cfg(encode)]
fn encoding(rounds: usize) {
    for (name, entries) in FRAMES {
        let t = table(entries);
        let bytes = load(0x10ad, valid_slots(t) * 203);
        let info = info(t);
        let (mut re, mut im) = (vec![0f64; MAIN], vec![0f64; MAIN]);
        let mut end = 0;
        let rust = || {
            black_box(isdbs_phy::demod::encode_frame_with_state(&bytes, &info, true, mapping(4)));
        };
        let most = held_by(rust);
        let times = beside(rounds, rust, || assert_eq!(calls::encode_frame(&bytes, t, 4, 0, &mut re, &mut im, &mut end), 0));
        row(&format!("encode a frame, {name}"), steps(t), times, (most, 16 * MAIN));
    }
}

/// Each combination alone in 48 slots, with noise: the worst of the eight mappings, to be held to the time that a frame is sent in.
#[cfg(decode)]
fn real_time(rounds: usize) {
    for (name, word) in [("BPSK 1/2", 1), ("QPSK 1/2", 2), ("QPSK 2/3", 3), ("QPSK 3/4", 4), ("QPSK 5/6", 5), ("QPSK 7/8", 6), ("TC8PSK 2/3", 7)] {
        let t = table(&[(word, 48)]);
        let bytes = load(0x10ad, valid_slots(t) * 203);
        let mut decisions = vec![0u64; 4224];
        let mut bits = vec![0u8; steps(t) + 16];
        let mut out = vec![0u8; bytes.len()];
        let mut counts = vec![0u32; valid_slots(t)];
        let mut sum = 0;
        let worst = (0..8).map(|m| {
            let (clean, _) = reference_frame(&bytes, t, m, start(true)).unwrap();
            let (re, im): (Vec<f64>, Vec<f64>) = received(&clean, 0x5eed, 0, 0.8).iter().map(|v| (v.re, v.im)).unzip();
            let s = calls::Settings { table: t, mapping: m, first: 1, known: 1, scales: &[8.0; 7] };
            least(rounds, || assert_eq!(calls::decode_frame(&re, &im, &s, &mut decisions, &mut bits, &mut out, &mut counts, &mut sum), 0))
        });
        println!("time\t{name}\t{}\t{}", worst.fold(0.0, f64::max) / 1e6, steps(t));
    }
}

fn main() {
    let rounds = std::env::args().nth(1).map_or(15, |s| s.parse().expect("a number"));
    // M_MMAP_MAX 0, M_TRIM_THRESHOLD the greatest: what is freed stays with the program
    assert_eq!(unsafe { (mallopt(-4, 0), mallopt(-1, i32::MAX)) }, (1, 1));
    #[cfg(decode)]
    decoding(rounds);
    #[cfg(encode)]
    encoding(rounds);
    decoder(rounds);
    #[cfg(isdbt)]
    isdbt(rounds);
    if std::env::args().nth(2).is_some() {
        #[cfg(decode)]
        real_time(rounds);
        peers::rows(rounds);
    }
}
