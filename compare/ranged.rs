//! What the renders of sessions have reached of memory in ranges: which reads crossed which ranges, and which reasons refused a render.
use crate::cuts::{END, MOST};
use crate::title::{KINDS, PLACES};
use oracle::ranges::{Range, Reason, parse};

/// The reasons for a refusal, and their words.
const REASONS: [Reason; 5] = [Reason::Many, Reason::Part, Reason::Below, Reason::Far, Reason::Frames];
const WORDS: [&str; 5] = ["more than 16", "a part outside", "a base below", "an end above 2^63", "frames too short"];

/// Reads and refusals by what they are. Those by kind are of what stands in a title's memory where the read begins.
#[derive(Default)]
pub struct Ranged {
    /// Reads that cross to a part that doesn't go on in the slice; of these, those that are cut inside a number (of ADPCM data inside a
    /// frame of 8 bytes); and reads of which some addresses lie in a range and some in none.
    crossed: [u64; 5],
    inside: [u64; 5],
    gapped: [u64; 5],
    /// Reads that cross to a part that does go on in the slice; over an empty range; from three ranges or more; reads of a part that is
    /// shared; reads that lie outside every range. The Rust makes no read of 0 bytes.
    straight: u64,
    over_empty: u64,
    three: u64,
    shared: u64,
    outside: u64,
    /// Renders that succeed with so many ranges; with one or two numbers left over.
    ranges: [u64; MOST + 1],
    over: [u64; 3],
    /// Those with a range that no voice reads; with a slice of no bytes and a range; with an empty range at the slice's end; with an end
    /// at 2^63.
    unread: u64,
    no_bytes: u64,
    empty_at_end: u64,
    at_limit: u64,
    /// Renders that are refused for one reason alone; for two and more, where each pair is counted; and for reasons of all three numbers.
    alone: [u64; 5],
    pairs: [[u64; 5]; 5],
    three_numbers: u64,
    /// Refusals by a part that is empty, by a part whose end is past 2^64; by the end of a range before past 2^64; by the first range's end
    /// alone, and by a later one's alone; by 17 ranges, no more; by an end of 2^63 + 1.
    empty_part: u64,
    part_round: u64,
    end_round: u64,
    first_far: u64,
    later_far: u64,
    one_too_many: u64,
    one_too_far: u64,
}

/// The addresses of a read that a range has.
fn overlap(range: &Range, address: u64, length: u64) -> u128 {
    let (from, to) = (u128::from(address), u128::from(address) + u128::from(length));
    to.min(range.end()).saturating_sub(from.max(range.base.into()))
}

/// Whether two parts of the slice have a byte in common.
fn share(a: &Range, b: &Range) -> bool {
    u128::from(a.start) < b.part_end() && u128::from(b.start) < a.part_end() && a.length > 0 && b.length > 0
}

impl Ranged {
    /// Counts a read from ranges that are allowed; memory stands at a base.
    fn read(&mut self, ranges: &[Range], address: u64, length: u64, base: u64) {
        let touched: Vec<&Range> = ranges.iter().filter(|r| overlap(r, address, length) > 0).collect();
        let inside: u128 = touched.iter().map(|r| overlap(r, address, length)).sum();
        let place = address.wrapping_sub(base);
        let (whole, kind) = (inside == length.into(), PLACES.iter().position(|p| place < p.end as u64));
        if touched.is_empty() {
            self.outside += 1;
            return;
        }
        if !whole {
            kind.into_iter().for_each(|k| self.gapped[k] += 1);
            return;
        }
        self.shared += u64::from(touched.iter().any(|a| ranges.iter().any(|b| a.base != b.base && share(a, b))));
        self.three += u64::from(touched.len() > 2);
        if touched.len() > 1 {
            let straight = touched.windows(2).all(|w| w[0].part_end() == w[1].start.into());
            self.straight += u64::from(straight);
            let between = |r: &Range| r.length == 0 && r.base > address && u128::from(r.base - address) < length.into();
            self.over_empty += u64::from(ranges.iter().any(between));
            for k in kind.into_iter().filter(|_| !straight) {
                self.crossed[k] += 1;
                self.inside[k] += u64::from(touched[1..].iter().any(|r| (r.base - base) % [2, 2, 2, 4, 8][k] != 0));
            }
        }
    }

    /// Counts a render that succeeds, with the reads that were made; the title's memory stands at a base.
    pub fn render(&mut self, numbers: &[u64], bytes: usize, reads: &[(u64, u64)], base: u64) {
        let ranges = parse(numbers);
        self.ranges[ranges.len()] += 1;
        self.over[numbers.len() % 3] += 1;
        let unread = |r: &Range| r.length > 0 && reads.iter().all(|&(address, length)| overlap(r, address, length) == 0);
        self.unread += u64::from(!reads.is_empty() && ranges.iter().any(unread));
        self.no_bytes += u64::from(bytes == 0 && !ranges.is_empty());
        self.empty_at_end += u64::from(bytes > 0 && ranges.iter().any(|r| r.length == 0 && r.start == bytes as u64));
        self.at_limit += u64::from(ranges.iter().any(|r| r.end() == END.into()));
        for &(address, length) in reads {
            self.read(&ranges, address, length, base);
        }
    }

    /// Counts a render that is refused for these reasons.
    pub fn refused(&mut self, numbers: &[u64], bytes: usize, reasons: &[Reason]) {
        let (ranges, has) = (parse(numbers), |reason| reasons.contains(&reason));
        let only = |reason| reasons == [reason];
        for (a, &first) in REASONS.iter().enumerate() {
            self.alone[a] += u64::from(only(first));
            for (b, &second) in REASONS.iter().enumerate().skip(a + 1) {
                self.pairs[a][b] += u64::from(has(first) && has(second));
            }
        }
        self.three_numbers += u64::from(reasons[0].number() == 13 && has(Reason::Far) && has(Reason::Frames));
        let outside = |r: &&Range| r.part_end() > bytes as u128;
        self.empty_part += u64::from(only(Reason::Part) && ranges.iter().filter(outside).all(|r| r.length == 0));
        self.part_round += u64::from(only(Reason::Part) && ranges.iter().filter(outside).all(|r| r.part_end() > u64::MAX.into()));
        let below = |w: &&[Range]| u128::from(w[1].base) < w[0].end();
        let by_round = ranges.windows(2).filter(below).all(|w| w[0].end() > u64::MAX.into());
        self.end_round += u64::from(has(Reason::Below) && !has(Reason::Part) && !has(Reason::Many) && by_round);
        let far: Vec<usize> = (0..ranges.len()).filter(|&k| ranges[k].end() > END.into()).collect();
        self.first_far += u64::from(only(Reason::Far) && far[0] == 0);
        self.later_far += u64::from(only(Reason::Far) && far[0] > 0);
        self.one_too_many += u64::from(only(Reason::Many) && ranges.len() == MOST + 1);
        self.one_too_far += u64::from(only(Reason::Far) && far.iter().all(|&k| ranges[k].end() == u128::from(END) + 1));
    }

    /// Reads that cross ranges, and reads with a gap.
    #[allow(dead_code)]
    pub fn across(&self) -> (u64, u64) {
        (self.crossed.iter().sum::<u64>() + self.straight, self.gapped.iter().sum())
    }

    /// Each thing that the mode `ranges` must reach, and how often it did.
    pub fn reads(&self) -> Vec<(String, u64)> {
        let mut all = Vec::new();
        for (k, name) in KINDS.iter().enumerate() {
            all.push((format!("{name} across ranges apart in the slice"), self.crossed[k]));
            all.push((format!("{name} cut inside a number"), self.inside[k]));
            all.push((format!("{name} with a gap"), self.gapped[k]));
        }
        for (count, n) in self.ranges.iter().enumerate() {
            all.push((format!("{count} ranges"), *n));
        }
        for (what, n) in [
            ("a read across ranges that go on in the slice", self.straight),
            ("a read over an empty range", self.over_empty),
            ("a read from three ranges or more", self.three),
            ("a read of a shared part", self.shared),
            ("a read outside every range", self.outside),
            ("one number left over", self.over[1]),
            ("two numbers left over", self.over[2]),
            ("a range that no voice reads", self.unread),
            ("ranges of no bytes", self.no_bytes),
            ("an empty range at the slice's end", self.empty_at_end),
            ("an end at 2^63", self.at_limit),
        ] {
            all.push((what.into(), n));
        }
        all
    }

    /// Each thing that the mode `ranges_refused` must reach likewise.
    pub fn refusals(&self) -> Vec<(String, u64)> {
        let mut all = Vec::new();
        for (a, first) in WORDS.iter().enumerate() {
            all.push((format!("{first} alone"), self.alone[a]));
            for (b, second) in WORDS.iter().enumerate().skip(a + 1) {
                all.push((format!("{first} and {second}"), self.pairs[a][b]));
            }
        }
        for (what, n) in [
            ("13, 5 and 7 at once", self.three_numbers),
            ("an empty part outside", self.empty_part),
            ("a part whose end is past 2^64", self.part_round),
            ("a base behind an end past 2^64", self.end_round),
            ("an end above 2^63 of the first range", self.first_far),
            ("an end above 2^63 of a later range alone", self.later_far),
            ("17 ranges, no more", self.one_too_many),
            ("an end of 2^63 + 1", self.one_too_far),
        ] {
            all.push((what.into(), n));
        }
        all
    }
}
