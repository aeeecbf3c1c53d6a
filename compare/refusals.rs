//! Calls and opens that are refused, by seed.
use crate::generate::BASE;
use crate::modes::{Call, Open, parameter_bytes};
use crate::port::whole;
use crate::random::Random;

/// Refused calls are put between the others, of the updates every fourth with an empty input.
pub fn refused(r: &mut Random, calls: Vec<Call>) -> Vec<Call> {
    let mut out = Vec::new();
    for call in calls {
        while r.below(2) == 0 {
            let mut no = call.clone();
            match &mut no {
                Call::Update { input, spare, .. } => {
                    *spare = -1 - [0, r.below(64) as i64, 1 << 20][r.below(3) as usize];
                    if r.below(4) == 0 {
                        input.clear();
                    }
                }
                Call::Render { ranges, memory, spare } | Call::Section { ranges, memory, spare, .. } => {
                    let mut base = BASE;
                    if r.below(2) == 0 {
                        base = [(1 << 63) - memory.len() as u64 + 1, 1 << 63, u64::MAX - r.below(64), u64::MAX - memory.len() as u64 + 1][r.below(4) as usize];
                    }
                    if base == BASE || r.below(2) == 0 {
                        *spare = -1 - [0, 1, r.below(512) as i64][r.below(3) as usize];
                    }
                    *ranges = whole(base, memory).to_vec();
                }
            }
            out.push(no);
        }
        out.push(call);
    }
    out
}

/// Opens that are refused: counts that are not allowed, slices of another length.
pub fn refused_opens(r: &mut Random, p: &[u32]) -> Vec<Open> {
    let most = [0, 256, 96, 31, 64, 8, 64, 32, 128];
    (0..r.below(4))
        .map(|_| {
            let (mut q, mut off) = (p.to_vec(), [0; 5]);
            match r.below(4) {
                0 => q[1] = [0, 257, u32::MAX, r.next() as u32 | 0x100][r.below(4) as usize],
                1 | 2 => {
                    for _ in 0..=r.below(2) {
                        let k = 1 + r.below(8) as usize;
                        q[k] = [most[k] + 1, u32::MAX, r.next() as u32, 1 << 31][r.below(4) as usize];
                    }
                }
                _ => off[r.below(5) as usize] = [-1, 1, 7, -60][r.below(4) as usize],
            }
            let mut parameters = parameter_bytes(r, &q);
            if r.below(6) == 0 {
                parameters.truncate(r.below(0x34) as usize);
            }
            Open { parameters, off }
        })
        .collect()
}
