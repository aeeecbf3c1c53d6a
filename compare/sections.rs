//! How a title's memory is lent to sections, by seed: of any count that is allowed, and of those and of any other with one reason for a
//! refusal or several at once.
use crate::cuts;
use crate::lends::{at_once, in_ranges};
use crate::modes::Call;
use crate::port::whole;
use crate::random::Random;
use crate::spoils::{BELOW, FAR, MANY, PART, put};
use crate::title::{PLACES, Title};

/// How many renders a section may have.
pub const MOST: u32 = 1024;

/// Whether a title's renders are so short that the largest sections of them are cheap.
fn short(title: &Title) -> bool {
    title.p[1] <= 3 && title.p[4] <= 2
}

/// A count that is allowed: mostly 2 to 12.
fn count(r: &mut Random, title: &Title) -> u32 {
    match r.below(8) {
        0 => 0,
        1 => 1,
        2 if short(title) => MOST - 1,
        3 if short(title) => MOST,
        _ => 2 + r.below(11) as u32,
    }
}

/// A count that is too large.
fn large(r: &mut Random) -> u32 {
    let any = MOST + 1 + r.below(u64::from(u32::MAX - MOST)) as u32;
    [MOST + 1, MOST + 2, 1 << 16, 1 << 31, u32::MAX, any][r.below(6) as usize]
}

/// A section that succeeds, memory at once or in ranges. One of no render may lack any number of floats.
fn taken(r: &mut Random, title: &Title) -> Call {
    let (count, cut) = (count(r, title), r.below(2) == 0);
    let spare = if count == 0 { r.below(5) as i64 - 2 } else { [0, 0, r.below(600) as i64][r.below(3) as usize] };
    if cut {
        let cut = cuts::cut(r, title.base, &title.memory, &PLACES);
        return Call::Section { count, ranges: cuts::numbers(r, &cut.ranges), memory: cut.slice, spare };
    }
    Call::Section { count, ranges: whole(title.base, &title.memory).to_vec(), memory: title.memory.clone(), spare }
}

/// A section that is refused, by each of 13, 5, 14 and 7 alone and with others.
fn refused(r: &mut Random, title: &Title) -> Call {
    let wanted = 1 + r.below(15);
    let [laid, far, many, less] = [1, 2, 4, 8].map(|bit| wanted & bit != 0);
    let mut cut = cuts::cut(r, title.base, &title.memory, &PLACES);
    if laid || far {
        let wrong = if laid { [PART, BELOW, MANY][r.below(3) as usize] } else { 0 };
        put(r, &mut cut, wrong | if far { FAR } else { 0 });
    }
    let count = match (many, less) {
        (true, true) => large(r),
        (true, false) => MOST + 1 + r.below(3) as u32,
        (false, true) => count(r, title).max(1),
        (false, false) => count(r, title),
    };
    // What a large count would need is more than can be lent.
    let needed = i64::from(count) * 2 * i64::from(title.p[1]);
    let spare = match (many, less) {
        (true, true) => r.below(2000) as i64 - needed,
        (false, true) => -1 - [0, 1, r.below(512) as i64, needed][r.below(4) as usize],
        _ => r.below(3) as i64,
    };
    Call::Section { count, ranges: cuts::numbers(r, &cut.ranges), memory: cut.slice, spare }
}

/// A section, or now and then a single render, after some that are refused.
pub fn in_sections(r: &mut Random, title: &Title) -> Vec<Call> {
    let mut calls = Vec::new();
    while r.below(2) == 0 {
        calls.push(refused(r, title));
    }
    match r.below(6) {
        0 => calls.extend(at_once(r, title)),
        1 => calls.extend(in_ranges(r, title)),
        _ => calls.push(taken(r, title)),
    }
    calls
}
