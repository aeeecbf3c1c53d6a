//! Many renders in one call, by document 02's sixth request: so many renders of the Rust, one after the other.
use crate::session::Session;
use crate::{take_fourths, take_no_answers};

/// What the renders of a section gave.
#[derive(Default)]
pub struct Section {
    /// Their frames, one behind the other: left and right by turns.
    pub frames: Vec<f32>,
    /// Their rounds in sum.
    pub rounds: u64,
    /// For each whether the Rust had no answer to it, and whether a fourth point in it is by document 02's rule.
    pub unanswered: Vec<bool>,
    pub by_rule: Vec<bool>,
}

impl Session {
    /// A section of so many renders with the ranges of these numbers and this much room for all frames.
    pub fn section(&mut self, count: u32, numbers: &[u64], memory: &[u8], room: usize) -> Result<Section, u32> {
        if let Some(reason) = self.reasons(numbers, memory.len(), count, room).first() {
            return Err(reason.number());
        }
        let mut section = Section::default();
        for _ in 0..count {
            let (frames, rounds) = self.rendered(numbers, memory);
            section.frames.extend(&frames);
            section.rounds += rounds;
            section.unanswered.push(take_no_answers() > 0);
            section.by_rule.push(take_fourths() > 0);
        }
        Ok(section)
    }
}

#[cfg(test)]
mod tests {
    use crate::ranges::whole;
    use crate::session::{Session, lengths};

    /// Two samples, one voice, a final mix of one buffer and a sink.
    fn parameters() -> [u8; 0x34] {
        let mut p = [0; 0x34];
        for (at, v) in [(0, 48000u32), (4, 2), (8, 1), (0x10, 1), (0x14, 1), (0x30, 0x3556_4552)] {
            p[at..at + 4].copy_from_slice(&v.to_le_bytes());
        }
        p
    }

    /// A voice that plays five 16-bit samples once, at pitch 1.
    fn playing() -> Session {
        let (p, one) = (parameters(), 1f32.to_bits());
        let mut d = vec![0; 0x40 + 0x70 + 0x170 + 0x930 + 0x140];
        let (voice, mix, sink) = (0xb0, 0xb0 + 0x170, 0xb0 + 0x170 + 0x930);
        let header = [(0x0c, 0x170), (0x10, 0x70), (0x18, 0x930), (0x1c, 0x140), (0x44, one)];
        let record = [(8, 0x0200_0101), (0x0c, 48000), (0x18, 1), (0x1c, one), (0x20, one), (0x3c, 1), (0x5c, u32::MAX)];
        let wave = [(0x60, 0x10000), (0x68, 10), (0x74, 5), (0xb0, 1 << 16), (0xe8, 1 << 16), (0x120, 1 << 16)];
        let mixed = [(0, one), (8, 1), (0x0c, 1), (0x924, 0x7fff_ffff), (0x928, u32::MAX)];
        let placed = [(0, &header[..]), (voice, &record), (voice, &wave), (mix, &mixed), (sink, &[(0, 0x0101), (0x120, 1)])];
        for (at, fields) in placed {
            for (offset, v) in fields {
                d[at + offset..at + offset + 4].copy_from_slice(&u32::to_le_bytes(*v));
            }
        }
        let mut session = Session::open(&p, lengths(&p).unwrap()).unwrap();
        session.update(0, &d, 0x1000).unwrap();
        session
    }

    const MEMORY: [u8; 10] = [100, 0, 200, 0, 44, 1, 144, 1, 244, 1];

    /// Two samples behind: 0, 0, then 100 to 400 while the buffer lasts, with one round a render; then silence.
    #[test]
    fn renders_one_after_the_other() {
        let mut session = playing();
        let section = session.section(5, &whole(0x10000, &MEMORY), &MEMORY, 20).unwrap();
        let heard: Vec<f32> = section.frames.iter().step_by(2).map(|x| x * 32768.0).collect();
        assert_eq!((section.frames.len(), section.rounds), (20, 3));
        assert_eq!(heard, [0.0, 0.0, 100.0, 200.0, 300.0, 400.0, 0.0, 0.0, 0.0, 0.0]);
        assert_eq!(section.unanswered, [false; 5]);
        assert_eq!((session.slices().longs[0], session.slices().longs[2]), (5, 5), "elapsed renders, played");
    }

    #[test]
    fn none() {
        let mut session = playing();
        let before = session.slices();
        let section = session.section(0, &whole(0x10000, &MEMORY), &MEMORY, 0).unwrap();
        assert_eq!((section.frames, section.rounds), (vec![], 0));
        assert_eq!(session.slices(), before);
    }

    #[test]
    fn refusals() {
        let (mut session, near, far) = (playing(), whole(0x10000, &MEMORY), whole(u64::MAX, &MEMORY));
        let mut asked = |count: u32, numbers: &[u64], room: usize| session.section(count, numbers, &MEMORY, room).err();
        for count in [0, 1, 1024, 1025, u32::MAX] {
            assert_eq!(asked(count, &[0x10000, 1, 10], 0), Some(13));
            assert_eq!(asked(count, &far, 0), Some(5));
        }
        assert_eq!([1025, 1026, u32::MAX].map(|count| asked(count, &near, 0)), [Some(14); 3]);
        assert_eq!(asked(1025, &near, 1025 * 4), Some(14));
        assert_eq!([asked(1, &near, 3), asked(2, &near, 7), asked(1024, &near, 1024 * 4 - 1)], [Some(7); 3]);
        assert_eq!([asked(0, &near, 0), asked(1, &near, 4), asked(1024, &near, 1024 * 4)], [None; 3]);
    }
}
