// The C calls on whole frames beside a model: headers, searches and alignments over noise, frames with noise, values of every class, and wrong input.
mod draws;
mod fence;
mod header_calls;
use draws::Draws;
use fence::Fence;
use header_calls::*;

/// A capture of n points: noise, or noise and frames of any gain and turn, some of their symbols negated; some with values of other classes. And where the last frame was laid.
fn capture_at(noise: &mut Noise, n: usize, places: usize) -> (Vec<f64>, Vec<f64>, u64) {
    let mut last = 0;
    let level = [0.0, 0.05, 0.3, 1.0][noise.below(4) as usize];
    let mut draw = |s: f64| s * noise.normal();
    let (mut re, mut im): (Vec<f64>, Vec<f64>) = (0..n).map(|_| (draw(1.0), draw(1.0))).unzip();
    for _ in 0..noise.below(3) {
        let (at, first) = (noise.below(places as u64) as usize, noise.below(2) == 0);
        let mut sent = noise.sent_header(first);
        for _ in 0..noise.below(10) {
            let i = noise.below(40) as usize;
            sent[if i < 20 { 12 + i } else { 152 + i }] *= -1.0;
        }
        last = at as u64;
        let angle = std::f64::consts::TAU * noise.uniform();
        let gain = 10f64.powf(2.0 * noise.uniform() - 1.0);
        let (x, y) = match noise.below(3) {
            0 => [(1.0, 0.0), (0.0, 1.0), (-1.0, 0.0), (0.0, -1.0)][noise.below(4) as usize],
            1 => [(1.0, 1.0), (-1.0, 1.0), (-1.0, -1.0), (1.0, -1.0)][noise.below(4) as usize],
            _ => (gain * angle.cos(), gain * angle.sin()),
        };
        for (i, s) in sent.into_iter().enumerate() {
            re[at + i] = s * x + level * noise.normal();
            im[at + i] = s * y + level * noise.normal();
        }
    }
    if noise.below(3) == 0 {
        for _ in 0..=noise.below(60) {
            let at = noise.below(places as u64 + 192) as usize;
            let x = wild(noise);
            if noise.below(2) == 0 { re[at] = x } else { im[at] = x }
        }
    }
    (re, im, last)
}

fn capture(noise: &mut Noise, n: usize, places: usize) -> (Vec<f64>, Vec<f64>) {
    let (re, im, _) = capture_at(noise, n, places);
    (re, im)
}

fn wild(noise: &mut Noise) -> f64 {
    let x = [f64::NAN, f64::INFINITY, 0.0, 1e308, 5e-324, 1e-200, 65_536.0, 65_536.000_000_000_01][noise.below(8) as usize];
    if noise.below(2) == 0 { x } else { -x }
}

const UNSET: Header = Header { kind: 77, turn: 78, a: -1_000_001, b: 1_000_002 };

fn headers(noise: &mut Noise, cases: usize) -> usize {
    let mut differ = 0;
    let mut told = [0; 9];
    for _ in 0..cases / 5 {
        let (re, im, last) = capture_at(noise, FRAME + 300, 300);
        for _ in 0..5 {
            let at = if noise.below(3) == 0 { last } else { noise.below(302) };
            let (mut h, want) = (UNSET, header_model(&re, &im, at));
            let row = header(&re, &im, at, &mut h);
            differ += usize::from(want != if row == 0 { Ok(h) } else { Err(row) } || row != 0 && h != UNSET);
            if row == 0 {
                told[h.turn as usize] += 1;
            }
        }
        // where frames were laid, too
        let (mut place, mut h) = (0, UNSET);
        find_frame(&re, &im, 0, &mut place, &mut h);
        let mut g = UNSET;
        differ += usize::from(header(&re, &im, place, &mut g) != 0 || header_model(&re, &im, place) != Ok(g));
        told[g.turn as usize] += 1;
    }
    println!("headers: {} cases, turns told {told:?}, {differ} different", cases / 5 * 6);
    differ
}

fn finds(noise: &mut Noise, cases: usize, places: usize) -> usize {
    let (mut differ, mut found) = (0, 0);
    for _ in 0..cases {
        let (re, im) = capture(noise, FRAME + places - 1, places);
        let from = noise.below(places as u64 / 2 + 1);
        let (mut place, mut h) = (u64::MAX, UNSET);
        let row = find_frame(&re, &im, from, &mut place, &mut h);
        differ += usize::from(row != 0 || find_model(&re, &im, from) != Ok((place, h)));
        found += usize::from(h.turn != 8);
    }
    println!("searches over {places} places: {cases} cases, a frame found in {found}, {differ} different");
    differ
}

fn aligns(noise: &mut Noise, cases: usize) -> usize {
    let (mut differ, mut done) = (0, 0);
    let (mut out_re, mut out_im) = (vec![0.0; FRAME + 2], vec![0.0; FRAME + 2]);
    for _ in 0..cases {
        let (re, im) = capture(noise, FRAME + 300, 300);
        let (mut at, mut h) = (0, UNSET);
        find_frame(&re, &im, 0, &mut at, &mut h);
        out_re.fill(-7.0);
        out_im.fill(-8.0);
        let row = align_frame(&re, &im, at, &mut out_re, &mut out_im);
        let c = mean(&re, &im, at as usize);
        let same = (0..FRAME + 2).all(|i| {
            let (x, y) = if row == 0 && i < FRAME { aligned(&re, &im, at as usize, i, c) } else { (-7.0, -8.0) };
            x.to_bits() == out_re[i].to_bits() && y.to_bits() == out_im[i].to_bits()
        });
        differ += usize::from(row != align_row(&re, &im, at, FRAME + 2, FRAME + 2) || !same);
        done += usize::from(row == 0);
    }
    println!("alignments: {cases} cases, {done} accepted, {differ} different");
    differ
}

/// Wrong lengths, places and values, between guard pages.
fn bad_input(noise: &mut Noise, cases: usize) -> usize {
    let mut draws = Draws(noise.next());
    let (mut re, mut im) = (Fence::new(FRAME + 600), Fence::new(FRAME + 600));
    let (mut out_re, mut out_im) = (Fence::new(FRAME + 600), Fence::new(FRAME + 600));
    let mut rows = std::collections::BTreeMap::<(&str, u32), usize>::new();
    let mut differ = 0;
    for _ in 0..cases {
        let (mut x, mut y) = capture(noise, FRAME + 300, 300);
        let cut = |noise: &mut Noise| [FRAME + 300, FRAME, FRAME - 1, FRAME + 5, 0, 31][noise.below(6) as usize];
        x.truncate(if noise.below(2) == 0 { FRAME + 300 } else { cut(noise) });
        y.truncate(if noise.below(2) == 0 { FRAME + 300 } else { cut(noise) });
        if noise.below(4) == 0 && !x.is_empty() {
            let i = noise.below(x.len() as u64) as usize;
            x[i] = wild(noise);
        }
        let at = match noise.below(8) {
            0 => u64::MAX - noise.below(FRAME as u64 + 2),
            1 => 300 + noise.below(3),
            2 => 5,
            _ => noise.below(301),
        };
        if noise.below(8) == 0 {
            for part in [&mut x, &mut y] {
                let end = part.len().min(500);
                part[..end].fill(0.0);
            }
        }
        re.lend_values(&mut draws, &x, 9.0);
        im.lend_values(&mut draws, &y, 9.0);
        let space = |noise: &mut Noise| [FRAME, FRAME, FRAME - 1, FRAME + 7][noise.below(4) as usize];
        let (long_re, long_im) = (space(noise), space(noise));
        out_re.lend_values(&mut draws, &vec![-7.0; long_re], 9.0);
        out_im.lend_values(&mut draws, &vec![-8.0; long_im], 9.0);
        // align
        let want = align_row(&x, &y, at, long_re, long_im);
        let row = align_frame(re.slice(), im.slice(), at, out_re.slice(), out_im.slice());
        let past = |f: &mut Fence<f64>, v: f64| f.slice()[FRAME.min(f.slice().len())..].iter().all(|&z| z == v);
        differ += usize::from(row != want || !out_re.kept(row == 0) || !out_im.kept(row == 0) || !past(&mut out_re, -7.0) || !past(&mut out_im, -8.0));
        *rows.entry(("align", row)).or_default() += 1;
        // header
        let mut h = UNSET;
        let row = header(re.slice(), im.slice(), at, &mut h);
        differ += usize::from(header_model(&x, &y, at) != if row == 0 { Ok(h) } else { Err(row) } || row != 0 && h != UNSET);
        *rows.entry(("header", row)).or_default() += 1;
        // find
        let (mut h, mut place) = (UNSET, 12_345_678);
        let row = find_frame(re.slice(), im.slice(), at, &mut place, &mut h);
        let said = if row == 0 { Ok((place, h)) } else { Err(row) };
        differ += usize::from(find_model(&x, &y, at) != said || row != 0 && (h != UNSET || place != 12_345_678));
        *rows.entry(("find", row)).or_default() += 1;
        differ += usize::from(!re.kept(false) || !im.kept(false));
    }
    println!("wrong input: {cases} of each call, rows {rows:?}, {differ} different");
    differ
}

fn main() {
    let scale: usize = std::env::args().nth(1).map_or(1, |s| s.parse().expect("a number"));
    let mut noise = Noise::new(88_172_645_463_325_252);
    let noise = &mut noise;
    let differ = headers(noise, 15_000 * scale) + finds(noise, 1_500 * scale, 300) + finds(noise, 20 * scale, FRAME + 1) + aligns(noise, 300 * scale) + bad_input(noise, 1_500 * scale);
    println!("{differ} different in all");
    std::process::exit(i32::from(differ != 0));
}
