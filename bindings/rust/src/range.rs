//! Sample memory in ranges.

/// A range of sample memory: the addresses `base` to `base + length - 1` are the bytes of the lent slice from `start` on.
///
/// A render takes up to 16. They ascend and don't overlap in address; their parts of the slice may stand in any sequence and overlap. A
/// length may be 0. A read succeeds where each of its addresses lies in a range: it may cross ranges that touch, whether or not their
/// parts do; a gap fails it.
///
/// ```
/// use jeqlluna::Range;
///
/// // A clip that was loaded in two parts, the second part first, at the addresses 0x10000 to 0x1002f.
/// let memory = [0u8; 48];
/// let ranges = [Range { base: 0x10000, start: 16, length: 32 }, Range { base: 0x10020, start: 0, length: 16 }];
/// // The same addresses where the parts stand one behind the other: all of the slice.
/// let range = [Range::whole(0x10000, &memory)];
/// # assert_eq!(range, [Range { base: 0x10000, start: 0, length: 48 }]);
/// # assert_eq!(ranges[0].base + ranges[0].length, ranges[1].base);
/// ```
#[repr(C)]
#[derive(Clone, Copy, Debug, Default, PartialEq, Eq, Hash)]
pub struct Range {
    /// The first address.
    pub base: u64,
    /// Where its part of the slice begins.
    pub start: u64,
    /// How many addresses, and bytes of the slice, there are.
    pub length: u64,
}

/// Numbers of a range, as the library takes them.
pub(crate) const NUMBERS: usize = 3;

impl Range {
    /// All of a slice, from an address on.
    pub const fn whole(base: u64, memory: &[u8]) -> Range {
        Range { base, start: 0, length: memory.len() as u64 }
    }
}
