//! The port's updates, renders and sections on the states of the driver `whole`.
use crate::clauses::State;
use crate::sys::{Render, Update, jeqlluna_render, jeqlluna_render_section, jeqlluna_update};

/// The port's update on a state.
pub fn update(s: &mut State, expected: u32, input: &[u8], reply: &mut [u8]) -> Update {
    unsafe {
        jeqlluna_update(
            s.words.as_mut_ptr(), s.words.len(), s.longs.as_mut_ptr(), s.longs.len(), s.floats.as_mut_ptr().cast(), s.floats.len(),
            s.contexts.as_mut_ptr(), s.contexts.len(), s.history.as_mut_ptr().cast(), s.history.len(), expected, input.as_ptr(),
            input.len(), reply.as_mut_ptr(), reply.len(),
        )
    }
}

/// What a render or a section is lent: a section has a count.
#[derive(Clone, Copy)]
pub struct Lent<'a> {
    pub count: Option<u32>,
    pub ranges: &'a [u64],
    pub memory: &'a [u8],
    pub room: usize,
}

impl Lent<'_> {
    /// Its name for a report.
    pub fn name(&self) -> String {
        self.count.map_or("a render".into(), |count| format!("a section of {count}"))
    }
}

/// The port's render or section on a state; frames are held as their bits.
pub fn render(s: &mut State, lent: &Lent, frames: &mut [u32]) -> Render {
    let (words, longs, contexts) = (s.words.as_mut_ptr(), s.longs.as_mut_ptr(), s.contexts.as_mut_ptr());
    let (floats, history) = (s.floats.as_mut_ptr().cast(), s.history.as_mut_ptr().cast());
    let [w, l, f, c, h] = s.lengths().map(|n| n as usize);
    let (ranges, memory, out) = (lent.ranges, lent.memory, frames.as_mut_ptr().cast());
    unsafe {
        match lent.count {
            None => jeqlluna_render(
                words, w, longs, l, floats, f, contexts, c, history, h, ranges.as_ptr(), ranges.len(), memory.as_ptr(), memory.len(), out,
                frames.len(),
            ),
            Some(count) => jeqlluna_render_section(
                words, w, longs, l, floats, f, contexts, c, history, h, count, ranges.as_ptr(), ranges.len(), memory.as_ptr(), memory.len(),
                out, frames.len(),
            ),
        }
    }
}
