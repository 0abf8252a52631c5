//! A user in Rust: a frame of every combination is made, read in both ways, judged, and a wrong table is refused. The declarations are made from include/isdb.h:
//!     tools/declarations rust >isdb.rs
//!     ISDB_RS=$PWD/isdb.rs rustc --edition 2024 -L PREFIX/lib -l isdb compare/rust-user/main.rs
#[allow(dead_code)]
mod isdb {
    include!(env!("ISDB_RS"));
}
use isdb::*;

/// The number of a table of one entry.
fn table(word: u64, slots: u64) -> u64 {
    word | slots << 8 | 0x000f_000f_000f << 16
}

fn encode(load: &[u8], table: u64, re: &mut [f64], im: &mut [f64]) -> u32 {
    let mut end = 0;
    unsafe { isdbs_encode_frame(load.as_ptr(), load.len(), table, 4, 0, re.as_mut_ptr(), re.len(), im.as_mut_ptr(), im.len(), &mut end) }
}

/// The answer, the bytes and the strained steps.
fn decode(re: &[f64], im: &[f64], table: u64) -> (u32, Vec<u8>, u32) {
    let (scales, mut words, mut bits) = ([8f32; ISDBS_SCALES], vec![0u64; ISDBS_WORDS], vec![0u8; ISDBS_BITS]);
    let (mut bytes, mut counts, mut sum) = (vec![0u8; ISDBS_BYTES], [0u32; ISDBS_SLOTS], 0);
    let answer = unsafe {
        isdbs_decode_frame(
            re.as_ptr(), re.len(), im.as_ptr(), im.len(), table, 4, 1, 1, scales.as_ptr(), scales.len(), words.as_mut_ptr(), words.len(), bits.as_mut_ptr(), bits.len(),
            bytes.as_mut_ptr(), bytes.len(), counts.as_mut_ptr(), counts.len(), &mut sum,
        )
    };
    (answer, bytes, sum)
}

/// The answer, the best bytes and the leads.
fn best(re: &[f64], im: &[f64], table: u64) -> (u32, Vec<u8>, Vec<u64>) {
    let scales = [8f32; ISDBS_SCALES];
    let (mut metrics, mut sides, mut words, mut tables) = (vec![0f32; 4 * ISDBS_STEPS], vec![0u8; ISDBS_STEPS], vec![0u64; ISDBS_STEPS], vec![0u64; 64 * ISDBS_SLOTS]);
    let (mut bits, mut uncoded, mut bytes, mut leads) = (vec![0u8; ISDBS_STEPS], vec![0u8; ISDBS_STEPS], vec![0u8; ISDBS_BYTES], vec![0u64; ISDBS_SLOTS]);
    let answer = unsafe {
        isdbs_best_reading(
            re.as_ptr(), re.len(), im.as_ptr(), im.len(), table, 4, 1, 1, scales.as_ptr(), scales.len(), metrics.as_mut_ptr(), metrics.len(), sides.as_mut_ptr(), sides.len(),
            words.as_mut_ptr(), words.len(), tables.as_mut_ptr(), tables.len(), bits.as_mut_ptr(), bits.len(), uncoded.as_mut_ptr(), uncoded.len(), bytes.as_mut_ptr(), bytes.len(),
            leads.as_mut_ptr(), leads.len(),
        )
    };
    (answer, bytes, leads)
}

fn judge(re: &[f64], im: &[f64], table: u64, load: &[u8]) -> (u32, u32) {
    let (mut counts, mut sum) = ([0u32; ISDBS_SLOTS], 0);
    let answer = unsafe { isdbs_judge(re.as_ptr(), re.len(), im.as_ptr(), im.len(), table, 4, 1, load.as_ptr(), load.len(), counts.as_mut_ptr(), counts.len(), &mut sum) };
    (answer, sum)
}

fn main() {
    let version = unsafe { isdb_version() } as usize;
    assert_eq!(version, 10000 * ISDB_VERSION_MAJOR + 100 * ISDB_VERSION_MINOR + ISDB_VERSION_PATCH);
    let (mut re, mut im) = (vec![0f64; ISDBS_MAIN_SYMBOLS], vec![0f64; ISDBS_MAIN_SYMBOLS]);
    let mut same = 0;
    for (word, valid) in [(1, 12), (2, 24), (3, 32), (4, 36), (5, 40), (6, 42), (7, 48)] {
        let (t, n) = (table(word, 48), valid * ISDBS_SLOT_BYTES);
        let load: Vec<u8> = (0..n).map(|i| (i * 37 + i / 256) as u8).collect();
        assert_eq!(encode(&load, t, &mut re, &mut im), ISDB_ANSWER_ACCEPTED);
        let (answer, bytes, strained) = decode(&re, &im, t);
        assert_eq!((answer, &bytes[..n], strained), (0, &load[..], 0));
        let (answer, bytes, leads) = best(&re, &im, t);
        assert_eq!((answer, &bytes[..n]), (0, &load[..]));
        assert!(leads[..valid].iter().all(|&lead| lead > 0));
        assert_eq!(judge(&re, &im, t, &load), (0, 0));
        same += n;
    }
    assert_eq!(encode(&[], table(6, 56), &mut re, &mut im), ISDB_ANSWER_TABLE);
    println!("isdb {version}: {same} bytes of seven frames the same in both readings, all certain; a table of 56 slots is refused");
}
