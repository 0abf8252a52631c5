// How often the proved search finds a frame, and how well the proved alignment turns it: noise, gain, turn, frequency offset; and how often noise alone looks like a frame.
mod header_calls;
use header_calls::*;
use std::f64::consts::{FRAC_1_SQRT_2, TAU};

/// Symbols a second.
const RATE: f64 = 28.86e6;

/// Two frames' worth of QPSK or 8PSK points with a frame at `at` and the next one's header behind it: noise of C/N in dB, a gain, a turn and a frequency offset.
struct Sent {
    at: usize,
    first: bool,
    gain: f64,
    angle: f64,
}

fn capture(noise: &mut Noise, db: f64, hertz: f64, re: &mut [f64], im: &mut [f64]) -> Sent {
    let n = re.len();
    let eight = noise.below(2) == 0;
    for i in 0..n {
        let k = noise.below(8);
        (re[i], im[i]) = if eight {
            (TAU * k as f64 / 8.0).sin_cos()
        } else {
            (if k & 1 == 0 { 1.0 } else { -1.0 } * FRAC_1_SQRT_2, if k & 2 == 0 { 1.0 } else { -1.0 } * FRAC_1_SQRT_2)
        };
    }
    let sent = Sent { at: noise.below((n - FRAME) as u64) as usize, first: noise.below(8) == 0, gain: 10f64.powf(2.0 * noise.uniform() - 1.0), angle: TAU * noise.uniform() };
    for (at, first) in [(sent.at, sent.first), (sent.at + FRAME, false)] {
        for (i, x) in noise.sent_header(first).into_iter().enumerate() {
            if at + i < n {
                (re[at + i], im[at + i]) = (x, 0.0);
            }
        }
    }
    let s = (0.5 * 10f64.powf(-db / 10.0)).sqrt();
    let turn = TAU * hertz / RATE;
    for i in 0..n {
        // the angle is that of the frame's first symbol
        let (y, x) = (sent.angle + turn * (i as f64 - sent.at as f64)).sin_cos();
        let (a, b) = (re[i], im[i]);
        re[i] = sent.gain * (a * x - b * y + s * noise.normal());
        im[i] = sent.gain * (a * y + b * x + s * noise.normal());
    }
    sent
}

/// One line of the table: shares of the frames.
fn line(noise: &mut Noise, db: f64, hertz: f64, frames: usize) {
    let (mut re, mut im) = (vec![0.0; 2 * FRAME], vec![0.0; 2 * FRAME]);
    let (mut out_re, mut out_im) = (vec![0.0; FRAME], vec![0.0; FRAME]);
    let (mut place_right, mut kind_right, mut turn_near, mut none, mut wrong) = (0, 0, 0, 0, 0);
    let (mut angles, mut gains, mut aligned) = (0.0, 0.0, 0);
    for _ in 0..frames {
        let sent = capture(noise, db, hertz, &mut re, &mut im);
        let (mut p, mut h) = (0, Header { kind: 0, turn: 0, a: 0, b: 0 });
        assert!(find_frame(&re, &im, 0, &mut p, &mut h) == 0);
        let right = p as usize == sent.at;
        place_right += usize::from(right);
        none += usize::from(h.turn == 8);
        wrong += usize::from(!right && h.turn != 8);
        kind_right += usize::from(right && (h.kind == 1) == sent.first);
        if right && h.turn != 8 {
            let off = (sent.angle / TAU * 8.0 - f64::from(h.turn)).rem_euclid(8.0);
            turn_near += usize::from(off.min(8.0 - off) <= 0.75);
        }
        if right && align_frame(&re, &im, p, &mut out_re, &mut out_im) == 0 {
            // what is left of the turn and of the gain: the sent header's points, by the mean c
            let (x, y, d) = mean(&re, &im, sent.at);
            let left = (y.atan2(x) - sent.angle).rem_euclid(TAU);
            angles += left.min(TAU - left).to_degrees().powi(2);
            gains += (d.sqrt() / sent.gain - 1.0).powi(2);
            aligned += 1;
        }
    }
    let n = frames as f64;
    println!(
        "C/N {db:4.0} dB, {hertz:7.0} Hz: place right {:.4}, turn 8 {:.4}, another place with a turn {:.4}, kind right {:.4}, turn within 3/4 of an eighth {:.4}; turn left over {:.2} degrees, gain {:.1} %",
        f64::from(place_right as u32) / n, f64::from(none as u32) / n, f64::from(wrong as u32) / n, f64::from(kind_right as u32) / n, f64::from(turn_near as u32) / n,
        (angles / f64::from(aligned.max(1))).sqrt(), 100.0 * (gains / f64::from(aligned.max(1))).sqrt()
    );
}

/// Pure noise: how many places reach a level.
fn pure_noise(noise: &mut Noise, places: u64) {
    let n = 3 * FRAME;
    let (mut re, mut im) = (vec![0.0; n], vec![0.0; n]);
    let (mut done, mut turned, mut found, mut higher, mut searches, mut frames) = (0u64, 0, 0, 0, 0, 0);
    while done < places {
        for i in 0..n {
            (re[i], im[i]) = (noise.normal(), noise.normal());
        }
        let mut h = Header { kind: 0, turn: 0, a: 0, b: 0 };
        for at in 0..=(n - FRAME) as u64 {
            header(&re, &im, at, &mut h);
            turned += u64::from(h.turn != 8);
            found += u64::from(h.squares() >= 1296);
            higher += u64::from(h.squares() >= 1444);
            done += 1;
        }
        let mut p = 0;
        find_frame(&re, &im, 0, &mut p, &mut h);
        searches += 1;
        frames += u64::from(h.turn != 8);
    }
    println!("pure noise, {done} places: A A + B B of 784 or more (a turn) at {turned}, of 1,296 or more at {found}, of 1,444 or more at {higher}; a frame in {frames} of {searches} searches of {} places", n - FRAME + 1);
}

fn main() {
    let frames: usize = std::env::args().nth(1).map_or(500, |s| s.parse().expect("how many frames a line"));
    let places: u64 = std::env::args().nth(2).map_or(100_000_000, |s| s.parse().expect("how many places of noise"));
    let mut noise = Noise::new(2_685_821_657_736_338_717);
    println!("{frames} frames a line, gain 0.1 to 10, any turn, QPSK or 8PSK around the headers, searched over {} places", FRAME + 1);
    for db in [0, 1, 2, 3, 4, 5, 6, 8, 10, 12, 16, 20] {
        line(&mut noise, f64::from(db), 0.0, frames);
    }
    for hertz in [20.0, 100.0, 1e3, 1e4, 2e4, 4e4, 8e4] {
        for db in [3, 6, 12] {
            line(&mut noise, f64::from(db), hertz, frames);
        }
    }
    pure_noise(&mut noise, places);
}
