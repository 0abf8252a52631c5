// The C calls. A slice is a pointer and a length.
#![allow(dead_code)]

mod c {
    unsafe extern "C" {
        pub fn isdbs_soft(x: f64) -> f32;
        pub fn isdbs_slot_combinations(table: u64, out: *mut u8, out_len: usize) -> u32;
        pub fn isdbs_runs(table: u64, out: *mut u32, out_len: usize, count: *mut u32) -> u32;
        pub fn isdbs_bit_symbol(word: u8, bit: u64, out: *mut u64) -> u32;
        #[rustfmt::skip]
        pub fn isdb_push(pm: *mut f32, pm_len: usize, held: *mut u64, traceback: u64, pairs: *const f32, pairs_len: usize, decisions: *mut u64, decisions_len: usize, out: *mut u8, out_len: usize, count: *mut u64) -> u32;
        #[rustfmt::skip]
        pub fn isdb_push_metrics(pm: *mut f32, pm_len: usize, held: *mut u64, traceback: u64, metrics: *const f32, metrics_len: usize, decisions: *mut u64, decisions_len: usize, out: *mut u8, out_len: usize, count: *mut u64) -> u32;
        #[rustfmt::skip]
        pub fn isdb_push_known(pm: *mut f32, pm_len: usize, held: *mut u64, traceback: u64, bits: *const u8, bits_len: usize, decisions: *mut u64, decisions_len: usize, out: *mut u8, out_len: usize, count: *mut u64) -> u32;
        #[rustfmt::skip]
        pub fn isdb_flush(pm: *mut f32, pm_len: usize, held: *mut u64, traceback: u64, decisions: *mut u64, decisions_len: usize, out: *mut u8, out_len: usize, count: *mut u64) -> u32;
        #[rustfmt::skip]
        pub fn isdb_flush_at(pm: *mut f32, pm_len: usize, held: *mut u64, traceback: u64, end: u8, decisions: *mut u64, decisions_len: usize, out: *mut u8, out_len: usize, count: *mut u64) -> u32;
        #[rustfmt::skip]
        pub fn isdb_code_encode(length: u8, g1: u8, g2: u8, state: *mut u8, bits: *const u8, bits_len: usize, out: *mut u8, out_len: usize) -> u32;
        #[rustfmt::skip]
        pub fn isdb_code_push(length: u8, g1: u8, g2: u8, pm: *mut f32, pm_len: usize, held: *mut u64, traceback: u64, pairs: *const f32, pairs_len: usize, decisions: *mut u64, decisions_len: usize, out: *mut u8, out_len: usize, count: *mut u64) -> u32;
        #[rustfmt::skip]
        pub fn isdb_code_push_metrics(length: u8, g1: u8, g2: u8, pm: *mut f32, pm_len: usize, held: *mut u64, traceback: u64, metrics: *const f32, metrics_len: usize, decisions: *mut u64, decisions_len: usize, out: *mut u8, out_len: usize, count: *mut u64) -> u32;
        #[rustfmt::skip]
        pub fn isdb_code_push_known(length: u8, g1: u8, g2: u8, pm: *mut f32, pm_len: usize, held: *mut u64, traceback: u64, bits: *const u8, bits_len: usize, decisions: *mut u64, decisions_len: usize, out: *mut u8, out_len: usize, count: *mut u64) -> u32;
        #[rustfmt::skip]
        pub fn isdb_code_flush(length: u8, g1: u8, g2: u8, pm: *mut f32, pm_len: usize, held: *mut u64, traceback: u64, decisions: *mut u64, decisions_len: usize, out: *mut u8, out_len: usize, count: *mut u64) -> u32;
        #[rustfmt::skip]
        pub fn isdb_code_flush_at(length: u8, g1: u8, g2: u8, pm: *mut f32, pm_len: usize, held: *mut u64, traceback: u64, end: u8, decisions: *mut u64, decisions_len: usize, out: *mut u8, out_len: usize, count: *mut u64) -> u32;
        #[rustfmt::skip]
        pub fn isdb_mend(bits: *const u8, bits_len: usize, start: u8, end: u8, decisions: *mut u64, decisions_len: usize, out: *mut u8, out_len: usize, places: *mut u32, places_len: usize, count: *mut u64) -> u32;
        #[rustfmt::skip]
        pub fn isdbs_window_push(window: u32, fill: *mut u32, next: *mut u32, clear: u8, sum: u32, kept: *mut u32, kept_len: usize, total: *mut u32, greatest: *mut u32) -> u32;
        #[rustfmt::skip]
        pub fn isdbs_lay_frame(header_re: *const f64, header_re_len: usize, header_im: *const f64, header_im_len: usize, main_re: *const f64, main_re_len: usize, main_im: *const f64, main_im_len: usize, burst_re: *const f64, burst_re_len: usize, burst_im: *const f64, burst_im_len: usize, re: *mut f64, re_len: usize, im: *mut f64, im_len: usize) -> u32;
        #[rustfmt::skip]
        pub fn isdbs_take_frame(re: *const f64, re_len: usize, im: *const f64, im_len: usize, header_re: *mut f64, header_re_len: usize, header_im: *mut f64, header_im_len: usize, main_re: *mut f64, main_re_len: usize, main_im: *mut f64, main_im_len: usize, burst_re: *mut f64, burst_re_len: usize, burst_im: *mut f64, burst_im_len: usize) -> u32;
        #[cfg(isdbt)]
        #[rustfmt::skip]
        pub fn isdbt_encode_punctured(rate: u8, state: *mut u8, bits: *const u8, bits_len: usize, out: *mut u8, out_len: usize, count: *mut u64) -> u32;
        #[cfg(isdbt)]
        pub fn isdbt_depuncture(rate: u8, llrs: *const f32, llrs_len: usize, out: *mut f32, out_len: usize, count: *mut u64) -> u32;
        #[cfg(isdbt)]
        #[rustfmt::skip]
        pub fn isdbt_decode_punctured(rate: u8, llrs: *const f32, llrs_len: usize, traceback: u64, decisions: *mut u64, decisions_len: usize, out: *mut u8, out_len: usize, count: *mut u64) -> u32;
        #[cfg(encode)]
        #[rustfmt::skip]
        pub fn isdbs_encode_frame(bytes: *const u8, bytes_len: usize, table: u64, mapping: u8, state: u8, re: *mut f64, re_len: usize, im: *mut f64, im_len: usize, end: *mut u8) -> u32;
        #[cfg(decode)]
        #[rustfmt::skip]
        pub fn isdbs_decode_frame(re: *const f64, re_len: usize, im: *const f64, im_len: usize, table: u64, mapping: u8, first: u8, known_start: u8, scales: *const f32, scales_len: usize, decisions: *mut u64, decisions_len: usize, bits: *mut u8, bits_len: usize, bytes: *mut u8, bytes_len: usize, counts: *mut u32, counts_len: usize, sum: *mut u32) -> u32;
        #[cfg(wanted)]
        #[rustfmt::skip]
        pub fn isdbs_wanted_load(re: *const f64, re_len: usize, im: *const f64, im_len: usize, table: u64, mapping: u8, first: u8, bytes: *mut u8, bytes_len: usize) -> u32;
        #[cfg(best)]
        #[rustfmt::skip]
        pub fn isdbs_best_reading(re: *const f64, re_len: usize, im: *const f64, im_len: usize, table: u64, mapping: u8, first: u8, known_start: u8, scales: *const f32, scales_len: usize, metrics: *mut f32, metrics_len: usize, sides: *mut u8, sides_len: usize, words: *mut u64, words_len: usize, tables: *mut u64, tables_len: usize, bits: *mut u8, bits_len: usize, uncoded: *mut u8, uncoded_len: usize, bytes: *mut u8, bytes_len: usize, leads: *mut u64, leads_len: usize) -> u32;
        #[cfg(judge)]
        #[rustfmt::skip]
        pub fn isdbs_judge(re: *const f64, re_len: usize, im: *const f64, im_len: usize, table: u64, mapping: u8, first: u8, bytes: *const u8, bytes_len: usize, counts: *mut u32, counts_len: usize, sum: *mut u32) -> u32;
        #[cfg(quality)]
        #[rustfmt::skip]
        pub fn isdbs_quality(re: *const f64, re_len: usize, im: *const f64, im_len: usize, table: u64, mapping: u8, first: u8, bytes: *const u8, bytes_len: usize, out: *mut f64, out_len: usize) -> u32;
    }
}

pub fn soft(x: f64) -> f32 {
    unsafe { c::isdbs_soft(x) }
}

pub fn slot_combinations(table: u64, out: &mut [u8]) -> u32 {
    unsafe { c::isdbs_slot_combinations(table, out.as_mut_ptr(), out.len()) }
}

pub fn runs(table: u64, out: &mut [u32], count: &mut u32) -> u32 {
    unsafe { c::isdbs_runs(table, out.as_mut_ptr(), out.len(), count) }
}

pub fn bit_symbol(word: u8, bit: u64, out: &mut u64) -> u32 {
    unsafe { c::isdbs_bit_symbol(word, bit, out) }
}

/// What one call of the decoder is fed.
#[derive(Clone, Copy)]
pub enum Feed<'a> {
    Pairs(&'a [f32]),
    Metrics(&'a [f32]),
    Known(&'a [u8]),
    Flush,
    FlushAt(u8),
}

pub fn feed(pm: &mut [f32], held: &mut u64, traceback: u64, x: Feed, decisions: &mut [u64], out: &mut [u8], count: &mut u64) -> u32 {
    let (p, pn, d, dn, o, on) = (pm.as_mut_ptr(), pm.len(), decisions.as_mut_ptr(), decisions.len(), out.as_mut_ptr(), out.len());
    unsafe {
        match x {
            Feed::Pairs(s) => c::isdb_push(p, pn, held, traceback, s.as_ptr(), s.len(), d, dn, o, on, count),
            Feed::Metrics(s) => c::isdb_push_metrics(p, pn, held, traceback, s.as_ptr(), s.len(), d, dn, o, on, count),
            Feed::Known(s) => c::isdb_push_known(p, pn, held, traceback, s.as_ptr(), s.len(), d, dn, o, on, count),
            Feed::Flush => c::isdb_flush(p, pn, held, traceback, d, dn, o, on, count),
            Feed::FlushAt(end) => c::isdb_flush_at(p, pn, held, traceback, end, d, dn, o, on, count),
        }
    }
}

/// A code of `isdb_code_*`: its length and both generators. This one is ISDB's.
pub type Code = [u8; 3];
pub const ISDB: Code = [7, 0o171, 0o133];

pub fn feed_code([l, g1, g2]: Code, pm: &mut [f32], held: &mut u64, traceback: u64, x: Feed, decisions: &mut [u64], out: &mut [u8], count: &mut u64) -> u32 {
    let (p, pn, d, dn, o, on) = (pm.as_mut_ptr(), pm.len(), decisions.as_mut_ptr(), decisions.len(), out.as_mut_ptr(), out.len());
    unsafe {
        match x {
            Feed::Pairs(s) => c::isdb_code_push(l, g1, g2, p, pn, held, traceback, s.as_ptr(), s.len(), d, dn, o, on, count),
            Feed::Metrics(s) => c::isdb_code_push_metrics(l, g1, g2, p, pn, held, traceback, s.as_ptr(), s.len(), d, dn, o, on, count),
            Feed::Known(s) => c::isdb_code_push_known(l, g1, g2, p, pn, held, traceback, s.as_ptr(), s.len(), d, dn, o, on, count),
            Feed::Flush => c::isdb_code_flush(l, g1, g2, p, pn, held, traceback, d, dn, o, on, count),
            Feed::FlushAt(end) => c::isdb_code_flush_at(l, g1, g2, p, pn, held, traceback, end, d, dn, o, on, count),
        }
    }
}

pub fn code_encode([l, g1, g2]: Code, state: &mut u8, bits: &[u8], out: &mut [u8]) -> u32 {
    unsafe { c::isdb_code_encode(l, g1, g2, state, bits.as_ptr(), bits.len(), out.as_mut_ptr(), out.len()) }
}

pub fn mend(bits: &[u8], start: u8, end: u8, decisions: &mut [u64], out: &mut [u8], places: &mut [u32], count: &mut u64) -> u32 {
    unsafe { c::isdb_mend(bits.as_ptr(), bits.len(), start, end, decisions.as_mut_ptr(), decisions.len(), out.as_mut_ptr(), out.len(), places.as_mut_ptr(), places.len(), count) }
}

pub fn window_push(window: u32, fill: &mut u32, next: &mut u32, clear: u8, sum: u32, kept: &mut [u32], total: &mut u32, greatest: &mut u32) -> u32 {
    unsafe { c::isdbs_window_push(window, fill, next, clear, sum, kept.as_mut_ptr(), kept.len(), total, greatest) }
}

/// The inputs are header, main and burst, real part before imaginary part.
#[rustfmt::skip]
pub fn lay_frame(from: [&[f64]; 6], re: &mut [f64], im: &mut [f64]) -> u32 {
    let [a, b, c, d, e, f] = from;
    unsafe {
        c::isdbs_lay_frame(
            a.as_ptr(), a.len(), b.as_ptr(), b.len(), c.as_ptr(), c.len(), d.as_ptr(), d.len(), e.as_ptr(), e.len(), f.as_ptr(), f.len(),
            re.as_mut_ptr(), re.len(), im.as_mut_ptr(), im.len(),
        )
    }
}

#[rustfmt::skip]
pub fn take_frame(re: &[f64], im: &[f64], to: [&mut [f64]; 6]) -> u32 {
    let [a, b, c, d, e, f] = to;
    unsafe {
        c::isdbs_take_frame(
            re.as_ptr(), re.len(), im.as_ptr(), im.len(), a.as_mut_ptr(), a.len(), b.as_mut_ptr(), b.len(), c.as_mut_ptr(), c.len(),
            d.as_mut_ptr(), d.len(), e.as_mut_ptr(), e.len(), f.as_mut_ptr(), f.len(),
        )
    }
}

#[cfg(isdbt)]
pub fn encode_punctured(rate: u8, state: &mut u8, bits: &[u8], out: &mut [u8], count: &mut u64) -> u32 {
    unsafe { c::isdbt_encode_punctured(rate, state, bits.as_ptr(), bits.len(), out.as_mut_ptr(), out.len(), count) }
}

#[cfg(isdbt)]
pub fn depuncture(rate: u8, llrs: &[f32], out: &mut [f32], count: &mut u64) -> u32 {
    unsafe { c::isdbt_depuncture(rate, llrs.as_ptr(), llrs.len(), out.as_mut_ptr(), out.len(), count) }
}

#[cfg(isdbt)]
pub fn decode_punctured(rate: u8, llrs: &[f32], traceback: u64, decisions: &mut [u64], out: &mut [u8], count: &mut u64) -> u32 {
    unsafe { c::isdbt_decode_punctured(rate, llrs.as_ptr(), llrs.len(), traceback, decisions.as_mut_ptr(), decisions.len(), out.as_mut_ptr(), out.len(), count) }
}

#[cfg(encode)]
pub fn encode_frame(bytes: &[u8], table: u64, mapping: u8, state: u8, re: &mut [f64], im: &mut [f64], end: &mut u8) -> u32 {
    unsafe { c::isdbs_encode_frame(bytes.as_ptr(), bytes.len(), table, mapping, state, re.as_mut_ptr(), re.len(), im.as_mut_ptr(), im.len(), end) }
}

#[cfg(wanted)]
pub fn wanted_load(re: &[f64], im: &[f64], table: u64, mapping: u8, first: u8, bytes: &mut [u8]) -> u32 {
    unsafe { c::isdbs_wanted_load(re.as_ptr(), re.len(), im.as_ptr(), im.len(), table, mapping, first, bytes.as_mut_ptr(), bytes.len()) }
}

#[cfg(judge)]
#[allow(clippy::too_many_arguments)]
pub fn judge(re: &[f64], im: &[f64], table: u64, mapping: u8, first: u8, bytes: &[u8], counts: &mut [u32], sum: &mut u32) -> u32 {
    unsafe { c::isdbs_judge(re.as_ptr(), re.len(), im.as_ptr(), im.len(), table, mapping, first, bytes.as_ptr(), bytes.len(), counts.as_mut_ptr(), counts.len(), sum) }
}

#[cfg(quality)]
pub fn quality(re: &[f64], im: &[f64], table: u64, mapping: u8, first: u8, bytes: &[u8], out: &mut [f64]) -> u32 {
    unsafe { c::isdbs_quality(re.as_ptr(), re.len(), im.as_ptr(), im.len(), table, mapping, first, bytes.as_ptr(), bytes.len(), out.as_mut_ptr(), out.len()) }
}

#[cfg(decode)]
pub struct Settings<'a> {
    pub table: u64,
    pub mapping: u8,
    pub first: u8,
    pub known: u8,
    /// in the order of words 1 to 7
    pub scales: &'a [f32],
}

#[cfg(decode)]
#[rustfmt::skip]
pub fn decode_frame(re: &[f64], im: &[f64], s: &Settings, decisions: &mut [u64], bits: &mut [u8], bytes: &mut [u8], counts: &mut [u32], sum: &mut u32) -> u32 {
    unsafe {
        c::isdbs_decode_frame(
            re.as_ptr(), re.len(), im.as_ptr(), im.len(), s.table, s.mapping, s.first, s.known, s.scales.as_ptr(), s.scales.len(),
            decisions.as_mut_ptr(), decisions.len(), bits.as_mut_ptr(), bits.len(), bytes.as_mut_ptr(), bytes.len(),
            counts.as_mut_ptr(), counts.len(), sum,
        )
    }
}

/// What `isdbs_best_reading` is lent.
#[cfg(best)]
pub struct Lent<'a> {
    pub metrics: &'a mut [f32],
    pub sides: &'a mut [u8],
    pub words: &'a mut [u64],
    pub tables: &'a mut [u64],
    pub bits: &'a mut [u8],
    pub uncoded: &'a mut [u8],
    pub bytes: &'a mut [u8],
    pub leads: &'a mut [u64],
}

#[cfg(best)]
#[rustfmt::skip]
pub fn best_reading(re: &[f64], im: &[f64], s: &Settings, l: Lent) -> u32 {
    unsafe {
        c::isdbs_best_reading(
            re.as_ptr(), re.len(), im.as_ptr(), im.len(), s.table, s.mapping, s.first, s.known, s.scales.as_ptr(), s.scales.len(),
            l.metrics.as_mut_ptr(), l.metrics.len(), l.sides.as_mut_ptr(), l.sides.len(), l.words.as_mut_ptr(), l.words.len(), l.tables.as_mut_ptr(), l.tables.len(),
            l.bits.as_mut_ptr(), l.bits.len(), l.uncoded.as_mut_ptr(), l.uncoded.len(), l.bytes.as_mut_ptr(), l.bytes.len(), l.leads.as_mut_ptr(), l.leads.len(),
        )
    }
}
