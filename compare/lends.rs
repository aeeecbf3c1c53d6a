//! How a title's memory is lent to a render: at once, or in ranges.
use crate::cuts;
use crate::modes::Call;
use crate::port::whole;
use crate::random::Random;
use crate::spoils::spoil;
use crate::title::{PLACES, Title};

/// How a title's memory is lent to a render: calls that come before it and are refused, and the render.
pub type Lend = fn(&mut Random, &Title) -> Vec<Call>;

/// All of memory in one range.
pub fn at_once(r: &mut Random, title: &Title) -> Vec<Call> {
    vec![Call::Render { ranges: whole(title.base, &title.memory).to_vec(), memory: title.memory.clone(), spare: r.below(3) as i64 }]
}

/// Memory in ranges, cut anew for each render, as often in each kind of what stands there.
pub fn in_ranges(r: &mut Random, title: &Title) -> Vec<Call> {
    let cut = cuts::cut(r, title.base, &title.memory, &PLACES);
    vec![Call::Render { ranges: cuts::numbers(r, &cut.ranges), memory: cut.slice, spare: r.below(3) as i64 }]
}

/// Such a render after some that are refused.
pub fn in_ranges_refused(r: &mut Random, title: &Title) -> Vec<Call> {
    let mut calls = Vec::new();
    while r.below(4) != 0 {
        let (mut cut, mut spare) = (cuts::cut(r, title.base, &title.memory, &PLACES), 0);
        spoil(r, &mut cut, &mut spare);
        calls.push(Call::Render { ranges: cuts::numbers(r, &cut.ranges), memory: cut.slice, spare });
    }
    calls.extend(in_ranges(r, title));
    calls
}
