//! The cases of the driver `encode`, kind by kind.
use crate::Run;
use crate::encode_tally::{COEFFICIENTS, SAMPLES};
use crate::plain_encoder::{Context, FRAME, HEADERS, size};
use crate::random::Random;
use crate::signals::{USUAL, coefficients, context, made, signal};

/// All kinds of case.
pub const ALL: [fn(&mut Run, &mut Random, u64); 7] = [lengths, slices, headers, largest, parts, any, long];

/// Every count of samples 0 to 60 and around further ends of frames, with no output, half of it, one and two bytes too little, just enough
/// and more.
fn lengths(run: &mut Run, r: &mut Random, _: u64) {
    let ends = (5..=12).flat_map(|k| [FRAME * k - 1, FRAME * k, FRAME * k + 1]);
    for n in (0..=SAMPLES).chain(ends) {
        let needed = size(n);
        let rooms = [0, needed / 2, needed.saturating_sub(2), needed.saturating_sub(1), needed, needed, needed + 1, needed + 2, needed + 9];
        for room in rooms {
            let (pairs, from) = (coefficients(r, 16), context(r));
            let samples = signal(r, n, &pairs, from);
            run.call(&samples, &pairs, from, room);
        }
        if run.over() {
            return;
        }
    }
}

/// Coefficient slices of 0 to 20, in which no number is 0, for what a decoder makes of them with each predictor.
fn slices(run: &mut Run, r: &mut Random, _: u64) {
    for count in 0..=COEFFICIENTS {
        for predictor in 0..8 {
            let pairs: Vec<i16> = (0..count).map(|_| r.below(4000) as i16 - 2000).map(|c| if c == 0 { 1 } else { c }).collect();
            let (from, scale) = (Context { last: 20000, before: -15000, ..context(r) }, r.below(8) as u8);
            let samples = made(r, 20, &pairs, from, Some(predictor * 16 + scale));
            run.call(&samples, &pairs, from, size(20));
        }
    }
}

/// What a decoder makes with each header, by coefficients that let scale 15 come to be the nearest too.
fn headers(run: &mut Run, r: &mut Random, _: u64) {
    for header in 0..HEADERS as u8 {
        for _ in 0..40 {
            let (n, pairs, from) = (1 + r.below(2 * FRAME as u64) as usize, coefficients(r, 16), context(r));
            let samples = made(r, n, &pairs, from, Some(header));
            run.call(&samples, &pairs, from, size(n));
        }
        // A single sample that is just one nibble of this header away from what the pair makes of the history.
        for _ in 0..40 {
            let pairs: Vec<i16> = (0..16).map(|_| r.next() as i16).collect();
            let from = Context { last: r.next() as i16, before: r.next() as i16, ..context(r) };
            let samples = made(r, 1, &pairs, from, Some(header));
            run.call(&samples, &pairs, from, size(1));
        }
        if run.over() {
            return;
        }
    }
}

/// Errors as large as they get: predictions that hold every nibble at one end of 16 bits, and samples at the other or anywhere.
fn largest(run: &mut Run, r: &mut Random, _: u64) {
    for end in [i16::MIN, i16::MAX] {
        for pair in [[i16::MAX, i16::MAX], [i16::MAX, 0], [i16::MAX, 1], [i16::MAX, i16::MIN]] {
            for n in [1, 2, 13, 14, 15, 28, 60, 300] {
                let (from, pairs) = (Context { last: end, before: end, ..context(r) }, pair.repeat(8));
                for other in [-1 - end, end, 0] {
                    run.call(&vec![other; n], &pairs, from, size(n));
                }
                let samples = signal(r, n, &pairs, from);
                run.call(&samples, &pairs, from, size(n));
            }
        }
    }
}

/// Recordings in one call and in two.
fn parts(run: &mut Run, r: &mut Random, count: u64) {
    for _ in 0..count / 50 {
        let (n, pairs, from) = (r.below(80) as usize, coefficients(r, 16), context(r));
        let samples = signal(r, n, &pairs, from);
        run.parts(&samples, &pairs, from, r.below((n / FRAME) as u64 + 1) as usize);
    }
}

/// Calls of all kinds.
fn any(run: &mut Run, r: &mut Random, count: u64) {
    for _ in 0..count {
        let n = match r.below(4) {
            0 => (FRAME as u64 * r.below(5) + [0, 0, 1, 13][r.below(4) as usize]) as usize,
            1 => r.below(FRAME as u64 + 2) as usize,
            _ => r.below(SAMPLES as u64 + 1) as usize,
        };
        let given = if r.below(3) > 0 { 16 } else { r.below(COEFFICIENTS as u64 + 1) as usize };
        let (pairs, from) = (coefficients(r, given), context(r));
        let samples = signal(r, n, &pairs, from);
        let needed = size(n);
        let room = match r.below(16) {
            0 => r.below(needed as u64 + 1) as usize,
            1 => needed.saturating_sub(1),
            2..=5 => needed + r.below(20) as usize,
            _ => needed,
        };
        run.call(&samples, &pairs, from, room);
        if run.over() {
            return;
        }
    }
}

/// Long recordings.
fn long(run: &mut Run, r: &mut Random, _: u64) {
    for k in 0..24 {
        let n = 1000 + r.below(4000) as usize;
        let (pairs, from) = (if k % 2 == 0 { USUAL.to_vec() } else { coefficients(r, 16) }, context(r));
        let samples = signal(r, n, &pairs, from);
        run.call(&samples, &pairs, from, size(n) + r.below(3) as usize);
        if run.over() {
            return;
        }
    }
}
