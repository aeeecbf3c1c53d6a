//! Inputs of the session program by seed, with what it must print for each.
use crate::inputs::{cut, damage};
use crate::modes::{Call, Session, asking, session};
use crate::random::Random;

/// A session as the session program's input, with the first render's memory, and as many of its calls as 65,536 bytes hold; it may then be
/// damaged. Also how many of these calls are empty updates.
fn program(r: &mut Random, damaged: bool, Session { opens, mut calls, .. }: Session) -> (Vec<u8>, usize) {
    let memory = calls.iter().find_map(|c| if let Call::Render { memory, .. } = c { Some(memory.clone()) } else { None });
    let memory = memory.unwrap_or_default();
    let block = |d: &[u8]| [&(d.len() as u32).to_le_bytes()[..], d].concat();
    loop {
        let coded = calls.iter().flat_map(|c| match c {
            Call::Update { expected, input, .. } => [&[0][..], &expected.to_le_bytes(), &block(input)].concat(),
            Call::Render { .. } => vec![1],
            Call::Section { .. } => unreachable!("the session program has single renders alone"),
        });
        let mut d = [block(&opens[0].parameters), block(&memory), (calls.len() as u32).to_le_bytes().to_vec(), coded.collect()].concat();
        if d.len() <= 65_536 {
            match r.below(3) {
                _ if !damaged => {}
                0 => cut(r, &mut d),
                1 => damage(r, &mut d),
                _ => d.extend(r.bytes(1)),
            }
            let empty = calls.iter().filter(|c| matches!(c, Call::Update { input, .. } if input.is_empty())).count();
            return (d, empty);
        }
        calls.pop();
    }
}

/// Writes so many inputs and the oracle's answers to a folder, every third of them damaged; with empty updates among the calls if it is
/// asked for. Gives how many empty updates stand in those that are not damaged.
pub fn write(seed: u64, count: u64, folder: &str, empty: bool) -> usize {
    let r = &mut Random(seed);
    let mut all = 0;
    for k in 0..count {
        let (damaged, made) = (k % 3 == 2, if empty { asking(r, "small") } else { session(r, "small") });
        let (input, empty) = program(r, damaged, made);
        all += if damaged { 0 } else { empty };
        std::fs::write(format!("{folder}/{k}.out"), oracle::session::program(&input, true)).expect("a folder");
        std::fs::write(format!("{folder}/{k}.in"), input).expect("a folder");
    }
    all
}
