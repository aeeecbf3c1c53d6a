//! Sample memory in ranges, by document 02's fifth request: what stands where kirikae has guest memory, read byte by byte, and the
//! questions that a render or a section, by the sixth, puts to it and to what else it is given.
use crate::mixer::Mem;
use std::cell::RefCell;

thread_local! {
    static READS: RefCell<Vec<(u64, u64)>> = const { RefCell::new(Vec::new()) };
}

/// The reads made of `Ranges` since the last call: address and length.
pub fn take_reads() -> Vec<(u64, u64)> {
    READS.take()
}

/// The addresses from `base` on, so many as `length`, are the bytes of a slice from `start` on.
#[derive(Clone, Copy, Debug, PartialEq)]
pub struct Range {
    pub base: u64,
    pub start: u64,
    pub length: u64,
}

impl Range {
    /// The range of three numbers.
    pub fn new(base: u64, start: u64, length: u64) -> Range {
        Range { base, start, length }
    }

    /// Whether an address is one of the range's.
    pub fn has(&self, address: u64) -> bool {
        address >= self.base && address - self.base < self.length
    }

    /// The address behind the last one. No sum goes round here.
    pub fn end(&self) -> u128 {
        u128::from(self.base) + u128::from(self.length)
    }

    /// The place behind the part's last byte.
    pub fn part_end(&self) -> u128 {
        u128::from(self.start) + u128::from(self.length)
    }
}

/// The ranges of these numbers, three each; one or two that are left over are none.
pub fn parse(numbers: &[u64]) -> Vec<Range> {
    numbers.chunks_exact(3).map(|n| Range::new(n[0], n[1], n[2])).collect()
}

/// The numbers of one range: all of a slice, from an address on.
pub fn whole(base: u64, bytes: &[u8]) -> Vec<u64> {
    vec![base, 0, bytes.len() as u64]
}

/// Sample memory in ranges that are allowed.
pub struct Ranges<'a> {
    pub ranges: &'a [Range],
    pub bytes: &'a [u8],
}

impl Ranges<'_> {
    /// The byte at an address, in the first range that has it.
    fn byte(&self, address: u64) -> Option<u8> {
        let range = self.ranges.iter().find(|r| r.has(address))?;
        self.bytes.get((range.start + (address - range.base)) as usize).copied()
    }
}

impl Mem for Ranges<'_> {
    /// Each byte by itself; an address that no range has fails the whole read.
    fn read(&self, address: u64, length: u64) -> Option<Vec<u8>> {
        READS.with_borrow_mut(|reads| reads.push((address, length)));
        (0..length).map(|k| self.byte(address.wrapping_add(k))).collect()
    }
}

/// Why a render or a section is refused.
#[derive(Clone, Copy, Debug, PartialEq)]
pub enum Reason {
    /// There are more than 16 ranges.
    Many,
    /// A part lies outside the slice.
    Part,
    /// A base lies below the end of the range before.
    Below,
    /// A range ends above 2^63.
    Far,
    /// There are more than 1,024 renders.
    Count,
    /// The frame slice is too short.
    Frames,
}

impl Reason {
    /// The question to which it is the "no".
    pub fn number(self) -> u32 {
        match self {
            Reason::Many | Reason::Part | Reason::Below => 13,
            Reason::Far => 5,
            Reason::Count => 14,
            Reason::Frames => 7,
        }
    }
}

/// All reasons to refuse so many renders with these ranges of so many bytes, and room for so many floats where `floats` are made, in the
/// sequence in which they are asked. The state is whole.
pub fn reasons(ranges: &[Range], bytes: usize, count: u32, room: usize, floats: usize) -> Vec<Reason> {
    let asked = [
        (Reason::Many, ranges.len() > 16),
        (Reason::Part, ranges.iter().any(|r| r.part_end() > bytes as u128)),
        (Reason::Below, ranges.windows(2).any(|pair| u128::from(pair[1].base) < pair[0].end())),
        (Reason::Far, ranges.iter().any(|r| r.end() > 1 << 63)),
        (Reason::Count, count > 1024),
        (Reason::Frames, room < floats),
    ];
    asked.into_iter().filter(|(_, holds)| *holds).map(|(reason, _)| reason).collect()
}

#[cfg(test)]
mod tests {
    use super::{Ranges, Reason, parse, reasons, take_reads, whole};
    use crate::Memory;
    use crate::mixer::Mem;

    const BYTES: [u8; 8] = [0, 1, 2, 3, 4, 5, 6, 7];

    /// A read of these ranges.
    fn read(numbers: &[u64], address: u64, length: u64) -> Option<Vec<u8>> {
        Ranges { ranges: &parse(numbers), bytes: &BYTES }.read(address, length)
    }

    #[test]
    fn reads() {
        // 10 to 12 are the bytes 5 to 7, 13 and 14 the bytes 0 and 1, 16 and 17 the bytes 1 and 2; between the first two an empty range.
        let ranges = [10, 5, 3, 13, 8, 0, 13, 0, 2, 16, 1, 2, 99];
        assert_eq!(read(&ranges, 10, 5), Some(vec![5, 6, 7, 0, 1]), "ranges that touch");
        assert_eq!(read(&ranges, 12, 2), Some(vec![7, 0]));
        assert_eq!(read(&ranges, 16, 2), Some(vec![1, 2]), "a part that is shared");
        assert_eq!([(13, 3), (14, 3), (9, 2), (17, 2), (15, 1)].map(|(at, n)| read(&ranges, at, n)), [const { None }; 5], "gaps");
        assert_eq!([9, 15, 99, u64::MAX].map(|at| read(&ranges, at, 0)), [const { Some(vec![]) }; 4], "no byte");
        assert_eq!(read(&[], 0, 1), None);
        assert_eq!(read(&[], 0, 0), Some(vec![]));
        assert_eq!(read(&[10, 0], 10, 1), None, "numbers left over");
        take_reads();
        read(&ranges, 3, 4);
        assert_eq!(take_reads(), [(3, 4)]);
    }

    /// Document 01's stand-in, one slice at a base, reads the same.
    #[test]
    fn one_range() {
        for base in [0, 3, 1 << 40, (1 << 63) - 8] {
            let (one, ranges) = (Memory { base, bytes: &BYTES }, parse(&whole(base, &BYTES)));
            for at in -12i64..12 {
                for length in 0..12 {
                    let address = base.wrapping_add_signed(at);
                    let many = Ranges { ranges: &ranges, bytes: &BYTES };
                    assert_eq!(many.read(address, length), one.read(address, length), "{length} bytes at {address:x}");
                }
            }
        }
    }

    #[test]
    fn refusals() {
        use Reason::{Below, Count, Far, Frames, Many, Part};
        const END: u64 = 1 << 63;
        const LAST: u64 = u64::MAX;
        let asked = |numbers: &[u64], room: usize| reasons(&parse(numbers), 8, 1, room, 4);
        let empty = |n: usize| [9, 8, 0].repeat(n);
        assert_eq!(asked(&[], 4), []);
        assert_eq!(asked(&empty(16), 4), []);
        assert_eq!(asked(&empty(17), 3), [Many, Frames]);
        assert_eq!(asked(&[5, 0, 8], 4), []);
        assert_eq!(asked(&[5, 1, 8], 4), [Part]);
        assert_eq!(asked(&[5, 9, 0], 4), [Part]);
        assert_eq!(asked(&[5, LAST, 1], 4), [Part]);
        assert_eq!(asked(&[5, 0, 8, 13, 0, 8], 4), []);
        assert_eq!(asked(&[5, 0, 8, 12, 0, 8], 4), [Below]);
        assert_eq!(asked(&[LAST, 0, 1, 0, 0, 1], 4), [Below, Far]);
        assert_eq!(asked(&[END - 8, 0, 8], 4), []);
        assert_eq!(asked(&[END - 7, 0, 8], 4), [Far]);
        assert_eq!(asked(&[5, 0, 8, END, 0, 1], 3), [Far, Frames]);
        assert_eq!(asked(&[LAST, 1, LAST, 0, 0, 0], 0), [Part, Below, Far, Frames]);
        assert_eq!(reasons(&[], 8, 1024, 4096, 4096), []);
        assert_eq!(reasons(&[], 8, 1025, 4100, 4100), [Count]);
        assert_eq!(reasons(&parse(&[END, 0, 1]), 8, u32::MAX, 0, 1), [Far, Count, Frames]);
        assert_eq!([Many, Part, Below, Far, Count, Frames].map(Reason::number), [13, 13, 13, 5, 14, 7]);
    }
}
