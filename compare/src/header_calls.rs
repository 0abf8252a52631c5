// The C calls on whole frames, and what they must say, independently computed.
#![allow(dead_code)]

mod c {
    unsafe extern "C" {
        #[rustfmt::skip]
        pub fn isdbs_header(re: *const f64, re_len: usize, im: *const f64, im_len: usize, at: u64, kind: *mut u8, turn: *mut u8, re_sum: *mut i32, im_sum: *mut i32) -> u32;
        #[rustfmt::skip]
        pub fn isdbs_find_frame(re: *const f64, re_len: usize, im: *const f64, im_len: usize, from: u64, place: *mut u64, kind: *mut u8, turn: *mut u8, re_sum: *mut i32, im_sum: *mut i32) -> u32;
        #[rustfmt::skip]
        pub fn isdbs_align_frame(re: *const f64, re_len: usize, im: *const f64, im_len: usize, at: u64, out_re: *mut f64, out_re_len: usize, out_im: *mut f64, out_im_len: usize) -> u32;
    }
}

/// Kind, turn and the sums A and B.
#[derive(Clone, Copy, Debug, PartialEq)]
pub struct Header {
    pub kind: u8,
    pub turn: u8,
    pub a: i32,
    pub b: i32,
}

impl Header {
    pub fn squares(&self) -> i32 {
        self.a * self.a + self.b * self.b
    }
}

pub fn header(re: &[f64], im: &[f64], at: u64, h: &mut Header) -> u32 {
    unsafe { c::isdbs_header(re.as_ptr(), re.len(), im.as_ptr(), im.len(), at, &mut h.kind, &mut h.turn, &mut h.a, &mut h.b) }
}

pub fn find_frame(re: &[f64], im: &[f64], from: u64, place: &mut u64, h: &mut Header) -> u32 {
    unsafe { c::isdbs_find_frame(re.as_ptr(), re.len(), im.as_ptr(), im.len(), from, place, &mut h.kind, &mut h.turn, &mut h.a, &mut h.b) }
}

pub fn align_frame(re: &[f64], im: &[f64], at: u64, out_re: &mut [f64], out_im: &mut [f64]) -> u32 {
    unsafe { c::isdbs_align_frame(re.as_ptr(), re.len(), im.as_ptr(), im.len(), at, out_re.as_mut_ptr(), out_re.len(), out_im.as_mut_ptr(), out_im.len()) }
}

pub const FRAME: usize = 39_936;
const W1_TAIL: u32 = 0xecd28;
const W2_TAIL: u32 = 0x0b677;

/// The sign of symbol i of a tail, high bit first: 1 for bit 0, -1 for bit 1.
fn sign(tail: u32, i: usize) -> i32 {
    1 - 2 * (tail >> (19 - i) & 1) as i32
}

fn score(x: f64, sign: i32) -> i32 {
    if x > 0.0 {
        sign
    } else if x < 0.0 {
        -sign
    } else {
        0
    }
}

/// a1 and a2 of the real parts, or b1 and b2 of the imaginary ones.
fn scores(part: &[f64], at: usize) -> (i32, i32) {
    let over = |tail, from: usize| (0..20).map(|i| score(part[at + from + i], sign(tail, i))).sum();
    (over(W1_TAIL, 12), over(W2_TAIL, 172))
}

/// k, A and B.
fn fit(re: &[f64], im: &[f64], at: usize) -> (i32, i32, i32) {
    let ((a1, a2), (b1, b2)) = (scores(re, at), scores(im, at));
    let k = if a1 * a2 + b1 * b2 > 0 { 1 } else { -1 };
    (k, a1 + k * a2, b1 + k * b2)
}

fn mean_part(part: &[f64], at: usize, k: i32) -> f64 {
    let mut sum = 0.0;
    for i in 0..20 {
        sum += part[at + 12 + i] * f64::from(sign(W1_TAIL, i));
    }
    for i in 0..20 {
        sum += part[at + 172 + i] * f64::from(k * sign(W2_TAIL, i));
    }
    sum / 40.0
}

/// c and d.
pub fn mean(re: &[f64], im: &[f64], at: usize) -> (f64, f64, f64) {
    let (k, _, _) = fit(re, im, at);
    let (x, y) = (mean_part(re, at, k), mean_part(im, at, k));
    (x, y, x * x + y * y)
}

fn room(re: &[f64], im: &[f64], at: u64) -> bool {
    at.checked_add(FRAME as u64).is_some_and(|end| end <= re.len() as u64 && end <= im.len() as u64)
}

fn turn(squares: i32, (x, y, d): (f64, f64, f64)) -> u8 {
    let t = f64::from_bits(0x3fda_8279_99fc_ef32);
    if squares < 784 || !(d > 0.0) {
        8
    } else if y.abs() <= t * x.abs() {
        if x > 0.0 { 0 } else { 4 }
    } else if x.abs() <= t * y.abs() {
        if y > 0.0 { 2 } else { 6 }
    } else {
        match (x > 0.0, y > 0.0) {
            (true, true) => 1,
            (false, true) => 3,
            (false, false) => 5,
            (true, false) => 7,
        }
    }
}

fn header_there(re: &[f64], im: &[f64], at: usize) -> Header {
    let (k, a, b) = fit(re, im, at);
    Header { kind: u8::from(k == 1), turn: turn(a * a + b * b, mean(re, im, at)), a, b }
}

/// What isdbs_header must say, or the row.
pub fn header_model(re: &[f64], im: &[f64], at: u64) -> Result<Header, u32> {
    if room(re, im, at) { Ok(header_there(re, im, at as usize)) } else { Err(6) }
}

/// The same of isdbs_find_frame.
pub fn find_model(re: &[f64], im: &[f64], from: u64) -> Result<(u64, Header), u32> {
    if !room(re, im, from) {
        return Err(6);
    }
    let (mut best, mut most) = (0, -1);
    for p in from as usize..=re.len().min(im.len()) - FRAME {
        let (_, a, b) = fit(re, im, p);
        if a * a + b * b > most {
            (best, most) = (p, a * a + b * b);
        }
    }
    let mut h = header_there(re, im, best);
    if most < 1296 {
        h.turn = 8;
    }
    Ok((best as u64, h))
}

/// The row of isdbs_align_frame, 0 for accepted.
pub fn align_row(re: &[f64], im: &[f64], at: u64, out_re: usize, out_im: usize) -> u32 {
    if !room(re, im, at) {
        return 6;
    }
    let bad = |part: &[f64]| part[at as usize..at as usize + FRAME].iter().any(|x| !(x.abs() <= 65_536.0));
    if bad(re) || bad(im) || !(mean(re, im, at as usize).2 > 0.0) {
        7
    } else if out_re < FRAME || out_im < FRAME {
        9
    } else {
        0
    }
}

/// Point i of the aligned frame.
pub fn aligned(re: &[f64], im: &[f64], at: usize, i: usize, (x, y, d): (f64, f64, f64)) -> (f64, f64) {
    let (r, m) = (re[at + i], im[at + i]);
    ((r * x + m * y) / d, (m * x - r * y) / d)
}

// ---- captures

/// The generator of README.md, uniform and normal numbers from it.
pub struct Noise {
    state: u64,
    kept: Option<f64>,
}

impl Noise {
    pub fn new(seed: u64) -> Self {
        Self { state: seed, kept: None }
    }

    pub fn next(&mut self) -> u64 {
        self.state ^= self.state << 13;
        self.state ^= self.state >> 7;
        self.state ^= self.state << 17;
        self.state.wrapping_mul(2_685_821_657_736_338_717)
    }

    pub fn below(&mut self, n: u64) -> u64 {
        (self.next() >> 16) % n
    }

    pub fn uniform(&mut self) -> f64 {
        ((self.next() >> 11) as f64 + 0.5) / (1u64 << 53) as f64
    }

    pub fn normal(&mut self) -> f64 {
        if let Some(x) = self.kept.take() {
            return x;
        }
        let (r, a) = ((-2.0 * self.uniform().ln()).sqrt(), std::f64::consts::TAU * self.uniform());
        self.kept = Some(r * a.sin());
        r * a.cos()
    }

    /// A header from any state with any TMCC bytes: W1, 64 bits, W2 or W3, coded by 171 and 133 octal.
    pub fn sent_header(&mut self, first: bool) -> [f64; 192] {
        let mut state = (self.next() >> 58) as u32;
        let (head, tail): (u32, u32) = (0x1b95, if first { 0xa340 } else { 0x5cbf });
        let tmcc = self.next();
        let mut out = [0.0; 192];
        for i in 0..96 {
            let bit = match i {
                0..16 => head >> (15 - i) & 1,
                16..80 => (tmcc >> (i - 16) & 1) as u32,
                _ => tail >> (95 - i) & 1,
            };
            let word = 64 * bit + state;
            for (j, taps) in [0o171, 0o133].into_iter().enumerate() {
                out[2 * i as usize + j] = if (word & taps).count_ones() % 2 == 1 { -1.0 } else { 1.0 };
            }
            state = word / 2;
        }
        out
    }
}
