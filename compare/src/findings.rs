// What docs/DIFFERENCES.md says of the given Rust, shown by running it as it is given, and beside the C calls where it is about them. A line each; wrong ones are counted.
mod calls;
mod common;
use common::*;
use isdb_fec::ViterbiDecoder;
use isdbs_core::combination::{Combination, CombinationWord, MotherBit, Puncture};
use isdbs_core::slots::Run;
use isdbs_core::tmcc::{self, CombinationEntry, TmccError, TmccInfo};
use isdbs_phy::demod::{decode_frame, encode_frame, encode_frame_with_state};
use std::panic::catch_unwind;

struct Shown(usize);

impl Shown {
    fn case(&mut self, what: &str, so: bool) {
        println!("{}: {what}", if so { "shown" } else { "WRONG" });
        self.0 += usize::from(!so);
    }
}

/// Whether the C calls take a table.
fn taken(t: u64) -> bool {
    let (mut out, mut count) = ([0; 24], 0);
    calls::runs(t, &mut out, &mut count) == 0
}

fn panics<T>(f: impl FnOnce() -> T + std::panic::UnwindSafe) -> bool {
    catch_unwind(f).is_err()
}

/// `TmccInfo::validate` is not taken: the calls here take what it refuses, as the Rust's own frame calls do.
fn validate(shown: &mut Shown) {
    let says = |t: u64| info(t).validate();
    let rising = table(&[(2, 2), (7, 46)]);
    shown.case("validate refuses rising efficiency (QPSK 1/2 2, TC8PSK 46); the table is taken here", matches!(says(rising), Err(TmccError::Order)) && taken(rising));
    let few = table(&[(7, 4)]);
    shown.case("validate refuses a sum below 48 (TC8PSK 4); the table is taken here", matches!(says(few), Err(TmccError::SlotSum(4))) && taken(few));
    let reserved = table(&[(7, 48), (8, 0)]);
    shown.case("validate refuses a reserved word with 0 slots (word 8); the table is taken here", matches!(says(reserved), Err(TmccError::ReservedWord(8))) && taken(reserved));
    let dummy = table(&[(7, 46), (15, 2)]);
    shown.case("word 15 with slots passes validate and is taken here, against the clause that CombinationEntry::DUMMY quotes", says(dummy).is_ok() && taken(dummy));
    let frame = |t: u64| decode_frame(&encode_frame(&load(5, 203 * valid_slots(t)), &info(t), true, mapping(4)), &info(t), true, &options(4, true, 8.0)).bytes;
    shown.case("the Rust's frame calls do not ask validate", [rising, few, reserved].iter().all(|&t| frame(t) == load(5, 203 * valid_slots(t))));
}

/// Public items of the Rust that have another name or shape here, or none: that they are there is that this compiles.
fn items(shown: &mut Shown) {
    let bit: MotherBit = ('X', 1);
    shown.case("pairs() is a slice of pairs of MotherBit, a letter and an index", Puncture::R3_4.pairs()[0].0 == bit);
    let runs: Vec<Run> = isdbs_core::slots::runs(&info(table(&[(7, 48)])));
    shown.case("Run has ranges of slots and symbols", runs[0].slots == (0..48) && runs[0].symbols == (0..MAIN));
    let made: Result<TmccInfo, TmccError> = TmccInfo::assign(&[(Combination::Tc8psk2_3, 48)], &[(7, 48)]);
    shown.case("assign makes a TmccInfo, slot_ts_ids tells its TS_IDs", made.is_ok_and(|m| m.slot_ts_ids() == [Some(7); 48]));
    shown.case("Cplx is a complex number with arithmetic", (Cplx::new(0.0, 1.0) * Cplx::new(0.0, 1.0)).re == -1.0);
    shown.case("types derive Clone, Debug and equality", format!("{:?}", CombinationEntry::DUMMY.clone()).contains("Dummy") && CombinationWord::from_word(8) == CombinationWord::from_word(0x18));
}

/// conv.rs, `acs4`: "`acs` is the special case m = ±lx ± ly". A pair step rounds twice, a four-metric step once.
fn special_case(shown: &mut Shown) {
    let pairs = [1_048_576.0f32, -1.0, 0.031_25, -0.0625];
    let sums: Vec<[f32; 4]> = pairs.chunks(2).map(|p| [p[0] + p[1], p[0] - p[1], -p[0] + p[1], -p[0] - p[1]]).collect();
    let (mut by_pairs, mut by_metrics) = (Vec::new(), Vec::new());
    let mut d = ViterbiDecoder::new(128);
    d.push(&pairs, &mut by_pairs);
    d.flush(&mut by_pairs);
    let mut d = ViterbiDecoder::new(128);
    d.push_metrics(&sums, &mut by_metrics);
    d.flush(&mut by_metrics);
    println!("  {by_pairs:?} by push, {by_metrics:?} by push_metrics of the sums");
    shown.case("acs is not the special case m = ±lx ± ly of acs4", by_pairs == [0, 1] && by_metrics == [0, 0]);
}

/// demod.rs, `llr_scale`: "only ratios matter to Viterbi". A known start is worth 1,000,000, whatever the scale.
fn ratios(shown: &mut Shown) {
    let t = table(&[(2, 48)]);
    let sent = vec![0xaa; 203 * valid_slots(t)];
    let loud: Vec<Cplx> = encode_frame(&sent, &info(t), false, mapping(4)).iter().map(|v| Cplx::new(v.re * 65_536.0, v.im * 65_536.0)).collect();
    let wrong = |scale: f32| -> Vec<usize> {
        let read = decode_frame(&loud, &info(t), true, &options(4, true, scale)).bytes;
        (0..sent.len()).filter(|&i| read[i] != sent[i]).collect()
    };
    println!("  wrong bytes at scale 1: {:?}, at scale 8: {:?}", wrong(1.0), wrong(8.0));
    shown.case("the scale matters: QPSK 1/2, 48 slots, kind other, amplitude 65,536, bytes AA, read as first with a known start: scale 1 has byte 0 wrong, scale 8 none", wrong(1.0) == [0] && wrong(8.0).is_empty());
}

/// Tables above 48 slots: both frame calls panic.
fn above_48(shown: &mut Shown) {
    for slots in [49, 50] {
        let t = table(&[(7, slots)]);
        let sent = vec![0u8; 203 * usize::from(slots)];
        let points = vec![Cplx::new(0.0, 0.0); MAIN];
        let both = panics(|| encode_frame_with_state(&sent, &info(t), true, mapping(4))) && panics(|| decode_frame(&points, &info(t), true, &options(4, true, 8.0)));
        shown.case(&format!("a table of {slots} slots (TC8PSK) panics in both frame calls, and is refused here"), both && !taken(t));
    }
}

/// `known_start` false leaves the decoder's start open, yet C2 is decided from the start state of `first`.
fn unknown_start(shown: &mut Shown) {
    let t = table(&[(7, 48)]);
    let sent = vec![0xaa; 203 * valid_slots(t)];
    let points = encode_frame(&sent, &info(t), false, mapping(4));
    let read = decode_frame(&points, &info(t), true, &options(4, false, 8.0)).bytes;
    // bit 2k of the load is C2 of symbol k, bit 2k + 1 its coded bit
    let wrong: Vec<usize> = (0..8 * sent.len()).filter(|&i| (read[i / 8] ^ sent[i / 8]) >> (7 - i % 8) & 1 == 1).collect();
    println!("  wrong bits: {wrong:?}");
    shown.case("a clean TC8PSK frame of kind other, bytes AA, read as first with known_start false: C2 of symbols 2 and 5 is wrong", wrong == [4, 10]);
}

/// Documents of the Rust that do not fit its code: that the code is so is that this compiles.
fn documents(shown: &mut Shown) {
    let _: fn(&[[u8; 8]; 8]) -> [u8; 64] = tmcc::derandomise;
    shown.case("derandomise gives 64 bytes and no RS outcome, as its document has it", true);
    let _: fn(Combination) -> Option<Puncture> = Combination::puncturing;
    shown.case("puncturing() gives a Puncture, which has pairs and a period and not the X and Y rows of its document", Puncture::R2_3.pairs().len() == 3);
}

fn main() {
    std::panic::set_hook(Box::new(|_| ()));
    let mut shown = Shown(0);
    validate(&mut shown);
    items(&mut shown);
    special_case(&mut shown);
    ratios(&mut shown);
    above_48(&mut shown);
    unknown_start(&mut shown);
    documents(&mut shown);
    println!("{} wrong", shown.0);
    std::process::exit(i32::from(shown.0 != 0));
}
