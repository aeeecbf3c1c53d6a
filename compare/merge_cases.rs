//! The cases of the driver `merge`, kind by kind.
use crate::Run;
use crate::merge_blocks::{APART, Aim, EXTREMES, damage, pair, parameters, put, whole};
use crate::merge_tally::{LENGTHS, PARAMETERS};
use crate::plain_merge::{BEHAVIOUR, COUNTS, Call, EFFECTS, HEADER, POOLS, RESOURCES, VOICE, VOICES, length};
use crate::random::Random;
use crate::wrong_merges::Wrong;

/// All kinds of case.
pub const ALL: [fn(&mut Run, &mut Random, u64); 9] = [lengths, cuts, refusals, sizes, modulo, counts, voices, same, any];

/// A pair where some voices and channels may go to both blocks.
const NEAR: Aim = Aim { voices: 60, channels: 60 };

/// The bytes that a merge takes, or a few where it takes more than a driver can lend.
fn needed(parameters: &[u8], title: &[u8], click: &[u8]) -> usize {
    let needed = length(&Call { parameters, title, click, output: &[] }, Wrong::Nothing);
    if needed < 1 << 18 { needed as usize } else { 0x200 }
}

/// One call with as many bytes of output as it takes, so many more, or fewer.
fn call(run: &mut Run, p: &[u8], [title, click]: [&[u8]; 2], more: i64) {
    let room = needed(p, title, click) as i64 + more;
    run.call(p, title, click, room.max(0) as usize);
}

/// Every length of the title, and of the click, up to a little more than a header; whole blocks, and any bytes.
fn lengths(run: &mut Run, r: &mut Random, _: u64) {
    for count in 0..=LENGTHS {
        for turn in 0..24 {
            let n = r.below(4) as usize;
            let (p, mut blocks) = (parameters(r, n), whole(r, n, APART).map(|s| s.join()));
            let side = turn % 2;
            if turn % 3 == 0 {
                blocks[side] = r.bytes(count);
            }
            // A short title whose behaviour and pools are small enough to be written.
            if turn % 3 == 1 {
                (5..12).filter(|at| at % 4 != 0).for_each(|at| blocks[side][at] = 0);
            }
            blocks[side].truncate(count);
            call(run, &p, [&blocks[0], &blocks[1]], r.below(3) as i64 - 1);
        }
        if run.over() {
            return;
        }
    }
}

/// Whole pairs with one block cut at every length.
fn cuts(run: &mut Run, r: &mut Random, _: u64) {
    for turn in 0..8 {
        let n = 1 + turn % 3;
        let (p, [title, click]) = (parameters(r, n), whole(r, n, APART).map(|s| s.join()));
        for count in 0..title.len() {
            call(run, &p, [&title[..count], &click], [0, 0, 1, -1][r.below(4) as usize]);
        }
        for count in 0..click.len() {
            call(run, &p, [&title, &click[..count]], [0, 0, 1, -1][r.below(4) as usize]);
        }
        if run.over() {
            return;
        }
    }
}

/// Each set of reasons to refuse, and none.
fn refusals(run: &mut Run, r: &mut Random, _: u64) {
    for reasons in 0..16 {
        for turn in 0..160 {
            let n = 1 + r.below(if turn % 40 == 0 { 64 } else { 6 }) as usize;
            let often = |bit: u32| if reasons >> bit & 1 != 0 { 500 } else { 0 };
            let (mut p, blocks) = (parameters(r, n), whole(r, n, Aim { voices: often(1), channels: often(2) }).map(|s| s.join()));
            let (at, most) = COUNTS[[0, 1, 3, 4, 5, 6][turn % 6]];
            if reasons & 1 != 0 {
                put(&mut p, at, most + 1);
            }
            call(run, &p, [&blocks[0], &blocks[1]], if reasons & 8 != 0 { -1 - r.below(60) as i64 } else { r.below(2) as i64 });
        }
        if run.over() {
            return;
        }
    }
}

/// Each size of either block with each extreme number, and near what it was.
fn sizes(run: &mut Run, r: &mut Random, _: u64) {
    for at in [BEHAVIOUR, POOLS, VOICES, RESOURCES, EFFECTS] {
        for side in 0..2 {
            for turn in 0..120 {
                let n = r.below(4) as usize;
                let (p, mut blocks) = (parameters(r, n), whole(r, n, APART).map(|s| s.join()));
                let was = u32::from_le_bytes(blocks[side][at..at + 4].try_into().expect("four bytes"));
                let size = EXTREMES.get(turn).copied().unwrap_or(was.wrapping_add(r.below(0x300) as u32).wrapping_sub(0x180));
                put(&mut blocks[side], at, size);
                call(run, &p, [&blocks[0], &blocks[1]], r.below(3) as i64 - 1);
            }
        }
        if run.over() {
            return;
        }
    }
}

/// Behaviour and pools so large that the length goes round at 2^32, to a number that would fit, or nearly so.
fn modulo(run: &mut Run, r: &mut Random, _: u64) {
    for turn in 0..400 {
        let n = r.below(4) as usize;
        let (p, [mut title, click]) = (parameters(r, n), whole(r, n, APART).map(|s| s.join()));
        title.truncate(title.len().min(HEADER + 8));
        put(&mut title, BEHAVIOUR, 0);
        put(&mut title, POOLS, 0);
        let rest = needed(&p, &title, &click) as u32;
        let pools = [u32::MAX, 0x8000_0000, r.next() as u32][turn % 3];
        let fits = 0u32.wrapping_sub(pools).wrapping_add(r.below(0x100) as u32);
        put(&mut title, POOLS, pools);
        put(&mut title, BEHAVIOUR, if turn % 5 == 0 { u32::MAX } else { fits });
        run.call(&p, &title, &click, rest as usize + r.below(0x200) as usize);
    }
}

/// Parameters of every length; each count at its limit, and above it.
fn counts(run: &mut Run, r: &mut Random, _: u64) {
    for turn in 0..(PARAMETERS + 1) * 8 {
        let n = r.below(4) as usize;
        let (mut p, blocks) = (parameters(r, n), pair(r, n, APART));
        p.resize(turn / 8, 0x5a);
        call(run, &p, [&blocks[0], &blocks[1]], r.below(3) as i64 - 1);
    }
    for (k, (at, most)) in COUNTS.into_iter().enumerate() {
        for count in [most, most + 1, most + 1, most + 2, 0x8000_0000, u32::MAX] {
            for _ in 0..8 {
                let n = if k == 2 { 64 } else { r.below(4) as usize };
                let (mut p, blocks) = (parameters(r, n), whole(r, n, NEAR).map(|s| s.join()));
                put(&mut p, at, count);
                // The merged block of so many voices that 2 refuses it is never asked for.
                let room = if k == 2 && count > most { r.below(0x1000) as usize } else { needed(&p, &blocks[0], &blocks[1]) };
                run.call(&p, &blocks[0], &blocks[1], room + r.below(2) as usize);
            }
        }
    }
}

/// Every count of voices; blocks of as many, and blocks of a few more, which may be in use in both.
fn voices(run: &mut Run, r: &mut Random, _: u64) {
    for n in 0..=64 {
        for turn in 0..6 {
            let more = [0, 0, 1, 2][turn % 4];
            let (p, mut both) = (parameters(r, n), whole(r, n + more, APART));
            for s in &mut both {
                s.voices.iter_mut().skip(9).step_by(VOICE).skip(n).for_each(|b| *b = 1);
            }
            let blocks = both.map(|s| s.join());
            call(run, &p, [&blocks[0], &blocks[1]], r.below(3) as i64 - 1);
        }
    }
}

/// One slice as both blocks: refused where a voice is in use, and else merged with itself.
fn same(run: &mut Run, r: &mut Random, _: u64) {
    for turn in 0..400 {
        let n = r.below(5) as usize;
        let (p, [mut s, _]) = (parameters(r, n), whole(r, n, APART));
        if turn % 2 == 0 {
            s.voices.iter_mut().skip(9).step_by(VOICE).for_each(|b| *b = 0);
        }
        let block = if turn % 5 == 0 { damage(r, &s) } else { s.join() };
        call(run, &p, [&block, &block], r.below(3) as i64 - 1);
    }
}

/// Calls of all kinds.
fn any(run: &mut Run, r: &mut Random, count: u64) {
    for turn in 0..count {
        let n = match r.below(64) {
            0 => 64,
            1..4 => r.below(65) as usize,
            _ => r.below(9) as usize,
        };
        let aim = [APART, APART, NEAR][(turn % 3) as usize];
        let (mut p, blocks) = (parameters(r, n), pair(r, n, aim));
        match r.below(40) {
            0 => {
                let (at, most) = COUNTS[r.below(7) as usize];
                put(&mut p, at, [most + 1, most + 1 + r.below(1000) as u32, r.next() as u32 | 0x100][r.below(3) as usize]);
            }
            1 => p.truncate(r.below(0x34) as usize),
            2 => {
                let count = r.below(0x40) as usize;
                p = r.bytes(count);
            }
            _ => {}
        }
        let room = match r.below(16) {
            0 => -1,
            1 => -1 - r.below(0x400) as i64,
            2..8 => r.below(0x40) as i64,
            _ => 0,
        };
        call(run, &p, [&blocks[0], &blocks[1]], room);
        if run.over() {
            return;
        }
    }
}
