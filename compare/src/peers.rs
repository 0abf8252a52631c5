// The same code in published libraries: 65,536 bits with noise, a known end, per decoded bit. Context, no reference: each has its own samples, width and tie-break.
use crate::calls::{self, Feed};
use crate::common::Draws;
use crate::least;
use isdb_fec::ViterbiDecoder;

const N: usize = 65_536;

/// The bits, the last six of which lead back to state 0, and their soft values.
fn sent() -> (Vec<u8>, Vec<f32>) {
    let mut draws = Draws(0x9ee4);
    let mut enc = isdb_fec::ConvEncoder::new();
    let bits: Vec<u8> = (0..N).map(|i| if i < N - 6 { (draws.next() >> 63) as u8 } else { 0 }).collect();
    let mut pairs: Vec<f32> = Vec::new();
    for &b in &bits {
        let (x, y) = enc.push(b);
        for c in [x, y] {
            let noise = (draws.next() >> 40) as f32 / 16_777_216.0 - 0.5;
            pairs.push(1.0 - 2.0 * f32::from(c) + 1.5 * noise);
        }
    }
    (bits, pairs)
}

fn row(name: &str, sample: &str, time: f64, bits: &[u8], read: &dyn Fn(usize) -> u8) {
    let wrong = (0..N - 6).filter(|&i| read(i) != bits[i]).count();
    println!("peer\t{name}\t{sample}\t{}\t{wrong}", time / N as f64);
}

/// libfec, viterbi27.
#[cfg(libfec)]
mod libfec {
    use super::*;
    use std::ffi::c_void;

    unsafe extern "C" {
        fn create_viterbi27(len: i32) -> *mut c_void;
        fn set_viterbi27_polynomial(polys: *const i32);
        fn init_viterbi27(v: *mut c_void, start: i32) -> i32;
        fn update_viterbi27_blk(v: *mut c_void, symbols: *const u8, pairs: i32) -> i32;
        fn chainback_viterbi27(v: *mut c_void, data: *mut u8, bits: u32, end: u32) -> i32;
    }

    pub fn run(rounds: usize, bits: &[u8], symbols: &[u8]) {
        // 171 and 133 octal, with the newest input as the low bit
        let v = unsafe {
            set_viterbi27_polynomial([0x4f, 0x6d].as_ptr());
            create_viterbi27(N as i32)
        };
        let mut packed = vec![0u8; N / 8];
        let time = least(rounds, || unsafe {
            init_viterbi27(v, 0);
            update_viterbi27_blk(v, symbols.as_ptr(), N as i32);
            chainback_viterbi27(v, packed.as_mut_ptr(), N as u32 - 6, 0);
        });
        row("libfec viterbi27, its C port", "8 bits", time, bits, &|i| packed[i / 8] >> (7 - i % 8) & 1);
    }
}

/// libosmocore, `osmo_conv_decode`.
#[cfg(libosmocore)]
mod libosmocore {
    use super::*;
    use std::ffi::c_void;

    #[repr(C)]
    struct Code {
        outputs: i32,
        length: i32,
        len: i32,
        ending: i32,
        next_output: *const [u8; 2],
        next_state: *const [u8; 2],
        next_term_output: *const u8,
        next_term_state: *const u8,
        puncture: *const c_void,
    }

    unsafe extern "C" {
        fn osmo_conv_decode(code: *const Code, input: *const i8, output: *mut u8) -> i32;
    }

    /// 171 and 133 octal, with the newest input as the low bit.
    fn output(u: usize, s: usize) -> u8 {
        let register = 2 * s + u;
        let parity = |taps: usize| ((register & taps).count_ones() % 2) as u8;
        2 * parity(0x4f) + parity(0x6d)
    }

    pub fn run(rounds: usize, bits: &[u8], samples: &[i8]) {
        let outputs: Vec<[u8; 2]> = (0..64).map(|s| [output(0, s), output(1, s)]).collect();
        let states: Vec<[u8; 2]> = (0..64u8).map(|s| [2 * s % 64, 2 * s % 64 + 1]).collect();
        // 0: the end is state 0, after six zeros that are not put out
        let code = Code {
            outputs: 2,
            length: 7,
            len: N as i32 - 6,
            ending: 0,
            next_output: outputs.as_ptr(),
            next_state: states.as_ptr(),
            next_term_output: std::ptr::null(),
            next_term_state: std::ptr::null(),
            puncture: std::ptr::null(),
        };
        let mut out = vec![0u8; N];
        let time = least(rounds, || unsafe {
            osmo_conv_decode(&code, samples.as_ptr(), out.as_mut_ptr());
        });
        row("libosmocore, osmo_conv_decode", "8 bits, sums of 16", time, bits, &|i| out[i]);
    }
}

/// VOLK, conv_k7_r2 with its trace.
#[cfg(volk)]
mod volk {
    use super::*;
    use std::ffi::{CStr, c_char};

    unsafe extern "C" {
        fn volk_8u_conv_k7_r2puppet_8u_manual(symbols: *mut u8, bits: *mut u8, symbols_of_frame: u32, name: *const c_char);
    }

    pub fn run(rounds: usize, bits: &[u8], symbols: &[u8]) {
        for name in [c"spiral", c"generic"] as [&CStr; 2] {
            let mut lent = symbols.to_vec();
            let mut out = vec![0u8; 2 * N];
            let time = least(rounds, || unsafe {
                volk_8u_conv_k7_r2puppet_8u_manual(lent.as_mut_ptr(), out.as_mut_ptr(), 2 * N as u32, name.as_ptr());
            });
            row(&format!("VOLK conv_k7_r2, {}", name.to_str().unwrap()), "8 bits", time, bits, &|i| out[i]);
        }
    }
}

pub fn rows(rounds: usize) {
    let (bits, pairs) = sent();
    let mut decisions = vec![0u64; 4224];
    let mut out = vec![0u8; N + 4096];
    let fresh = *ViterbiDecoder::new(128).path_values();
    let time = least(rounds, || {
        let mut pm = fresh;
        let (mut held, mut count) = (0, 0);
        assert_eq!(calls::feed(&mut pm, &mut held, 128, Feed::Pairs(&pairs), &mut decisions, &mut out, &mut count), 0);
        let released = count as usize;
        assert_eq!(calls::feed(&mut pm, &mut held, 128, Feed::Flush, &mut decisions, &mut out[released..], &mut count), 0);
    });
    row("push and flush here", "f32", time, &bits, &|i| out[i]);
    let mut read = Vec::new();
    let time = least(rounds, || {
        let mut decoder = ViterbiDecoder::new(128);
        read.clear();
        decoder.push(&pairs, &mut read);
        decoder.flush(&mut read);
    });
    row("push and flush of the Rust", "f32", time, &bits, &|i| read[i]);
    #[cfg(any(libfec, volk))]
    let symbols: Vec<u8> = pairs.iter().map(|x| (127.5 - 60.0 * x) as u8).collect();
    #[cfg(libfec)]
    libfec::run(rounds, &bits, &symbols);
    #[cfg(libosmocore)]
    libosmocore::run(rounds, &bits, &pairs.iter().map(|x| (60.0 * x) as i8).collect::<Vec<i8>>());
    #[cfg(volk)]
    volk::run(rounds, &bits, &symbols);
}
