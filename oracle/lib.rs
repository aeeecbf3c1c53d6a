//! kirikae's audio renderer, as oracle/edits.py leaves it.
pub mod dsp;
pub mod mixer;
pub mod ranges;
pub mod renderer;
pub mod sections;
pub mod session;

use std::cell::Cell;

thread_local! {
    static ROUNDS: Cell<u64> = const { Cell::new(0) };
    static EMPTY: Cell<[u64; 2]> = const { Cell::new([0; 2]) };
    static NO_ANSWERS: Cell<u64> = const { Cell::new(0) };
    static FOURTHS: Cell<u64> = const { Cell::new(0) };
    static STILL: Cell<Still> = const { Cell::new(Still { formats: [0; 4], channels: [0; 6] }) };
}

/// Counts a round of `fetch` that got past its first test.
pub fn count_round() {
    ROUNDS.set(ROUNDS.get() + 1);
}

/// The rounds counted since the last call.
pub fn take_rounds() -> u64 {
    ROUNDS.replace(0)
}

/// Counts an empty update that follows document 02's rule, and whether it tells a position that isn't 0.
pub fn count_empty(told: bool) {
    let [all, telling] = EMPTY.get();
    EMPTY.set([all + 1, telling + u64::from(told)]);
}

/// The empty updates counted since the last call, and those of them that tell a position that isn't 0.
pub fn take_empty() -> [u64; 2] {
    EMPTY.replace([0; 2])
}

/// Stands where kirikae reads a fourth point of three, and panics: counts that the Rust has no answer, and gives what shows wherever it is
/// taken for one.
#[cold]
pub fn no_answer() -> f32 {
    NO_ANSWERS.set(NO_ANSWERS.get() + 1);
    f32::NAN
}

/// How often the Rust had no answer since the last call: never where the oracle follows document 02's rules.
pub fn take_no_answers() -> u64 {
    NO_ANSWERS.replace(0)
}

/// Counts a resample whose fourth point is by document 02's rule.
pub fn count_fourth() {
    FOURTHS.set(FOURTHS.get() + 1);
}

/// The resamples with such a point counted since the last call: none where the oracle is the Rust alone.
pub fn take_fourths() -> u64 {
    FOURTHS.replace(0)
}

/// Voices that were rendered without a new sample, by format (16-bit PCM, float PCM, ADPCM, silence) and by number of channels, 1 to 6.
#[derive(Clone, Copy, Default)]
pub struct Still {
    pub formats: [u64; 4],
    pub channels: [u64; 6],
}

/// Counts a voice that is rendered without a new sample.
pub fn count_still(format: u8, channels: usize) {
    let mut still = STILL.get();
    let kind = match format {
        2 => 0,
        5 => 1,
        6 => 2,
        _ => 3,
    };
    still.formats[kind] += 1;
    still.channels[channels - 1] += 1;
    STILL.set(still);
}

/// The voices counted since the last call: none where the oracle is the Rust alone.
pub fn take_still() -> Still {
    STILL.take()
}

/// Stands where kirikae has guest memory; sample memory comes through `mixer::Mem`.
pub mod mem {
    pub struct GuestMemory;

    impl GuestMemory {
        pub fn read(&self, _addr: u64, _len: u64) -> Option<Vec<u8>> {
            None
        }
    }
}

/// Sample memory as document 01 has it: one slice at a base. A read succeeds if it lies wholly inside, or takes no byte.
pub struct Memory<'a> {
    pub base: u64,
    pub bytes: &'a [u8],
}

impl mixer::Mem for Memory<'_> {
    fn read(&self, addr: u64, len: u64) -> Option<Vec<u8>> {
        if len == 0 {
            return Some(Vec::new());
        }
        let at = usize::try_from(addr.checked_sub(self.base)?).ok()?;
        let end = at.checked_add(usize::try_from(len).ok()?)?;
        self.bytes.get(at..end).map(<[u8]>::to_vec)
    }
}
