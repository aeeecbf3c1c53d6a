//! What a run of the driver `whole` has tried, clause by clause, and what it has not.
use crate::clauses::{Clause, Field, Rule};
use crate::whole_states::{FIRST, Hit, LAST, MIDDLE, ONLY};

/// A clause's counts; those by row are of the first, a middle, the last and the only row.
#[derive(Clone, Default)]
struct Counts {
    /// States that break it and nothing else.
    alone: [u64; 4],
    /// States that break it and one other clause.
    pairs: u64,
    /// Whole states with its field at a limit.
    limit: [u64; 4],
    /// The values that were outside in a state that breaks it alone, a bit for each, and those at a limit in a whole state.
    outside: u32,
    inside: u32,
}

pub struct Tally {
    clauses: Vec<Counts>,
    pair: Vec<u64>,
    pub states: u64,
    whole: u64,
    more: u64,
    largest: u64,
    /// Calls by the answer that they should give.
    pub answers: [u64; 15],
    /// Sections likewise.
    pub sections: [u64; 15],
    /// Updates with an empty input likewise.
    pub empty: [u64; 8],
    /// Opens likewise.
    pub opens: [u64; 4],
    /// Broken states tried with memory too far, a reply slice too short, frames too short and ranges that 13 refuses.
    pub before: [u64; 4],
    /// Broken states tried with a section of too many renders.
    pub large: u64,
    pub compared: u64,
    pub differ: u64,
}

impl Tally {
    /// Nothing counted yet, for so many clauses.
    pub fn new(n: usize) -> Tally {
        let clauses = vec![Counts::default(); n];
        let (pair, answers, sections, empty, opens) = (vec![0; n * n], [0; 15], [0; 15], [0; 8], [0; 4]);
        let [states, whole, more, largest, large, compared, differ] = [0; 7];
        Tally { clauses, pair, states, whole, more, largest, answers, sections, empty, opens, before: [0; 4], large, compared, differ }
    }

    /// Counts a state by the clauses that it breaks, and by what was aimed at.
    pub fn state(&mut self, found: u64, hits: &[Hit], largest: bool) {
        self.states += 1;
        self.largest += u64::from(largest);
        let (a, b) = (found.trailing_zeros() as usize, 63 - (found | 1).leading_zeros() as usize);
        match found.count_ones() {
            0 => self.whole += 1,
            1 => {}
            2 => {
                self.pair[a * self.clauses.len() + b] += 1;
                self.clauses[a].pairs += 1;
                self.clauses[b].pairs += 1;
            }
            _ => self.more += 1,
        }
        for h in hits {
            let c = &mut self.clauses[h.aim.clause];
            if found == 0 && h.aim.inside {
                c.limit[h.row] += 1;
                c.inside |= 1 << h.value;
            }
            if found == 1 << h.aim.clause && !h.aim.inside {
                c.alone[h.row] += 1;
                c.outside |= 1 << h.value;
            }
        }
    }

    /// Prints the counts, and what should have been hit and never was; whether there is such a thing.
    pub fn print(&self, list: &[Clause]) -> bool {
        let mut never = vec![];
        println!("broken alone (first, middle, last row) | with another | at a limit and whole (rows likewise) | values outside, inside");
        for (clause, c) in list.iter().zip(&self.clauses) {
            let rows = !matches!(clause.field, Field::Parameter(_) | Field::Length(_));
            let by_row = |n: &[u64; 4]| format!("{:7} {:7} {:7}", n[FIRST], n[MIDDLE], n[LAST]);
            let shown = |n: &[u64; 4]| if rows { by_row(n) } else { format!("{:23}", n[ONLY]) };
            let (outside, inside) = (c.outside.count_ones(), c.inside.count_ones());
            println!("{:28} {} | {:7} | {} | {outside} {inside}", clause.name, shown(&c.alone), c.pairs, shown(&c.limit));
            let wanted = if rows { vec![FIRST, MIDDLE, LAST] } else { vec![ONLY] };
            if wanted.iter().any(|&k| c.alone[k] == 0 || c.limit[k] == 0) || c.pairs == 0 || !tried(clause, c) {
                never.push(clause.name.clone());
            }
        }
        let n = list.len();
        let pairs = (0..n).flat_map(|a| (a + 1..n).map(move |b| (a, b)));
        let (hit, missed): (Vec<_>, Vec<_>) = pairs.partition(|&(a, b)| self.pair[a * n + b] != 0);
        never.extend(missed.iter().map(|&(a, b)| format!("{} with {}", list[a].name, list[b].name)));
        println!("pairs of clauses broken together and nothing else: {} of {}", hit.len(), hit.len() + missed.len());
        println!("{} states: {} whole, {} broken in more than two clauses", self.states, self.whole, self.more);
        println!("{} states have the largest counts", self.largest);
        let [far, reply, frames, ranges] = self.before;
        println!("of the broken ones with memory too far {far}, with a reply slice too short {reply}, with frames too short {frames},");
        println!("  with ranges that 13 refuses {ranges}, with sections that 14 refuses {}", self.large);
        let [yes, four, five, six, seven, thirteen, fourteen] = [0, 4, 5, 6, 7, 13, 14].map(|n| self.answers[n]);
        println!("calls that should answer 0: {yes}, 4: {four}, 5: {five}, 6: {six}, 7: {seven}, 13: {thirteen}, 14: {fourteen}");
        let sections = [0, 4, 5, 7, 13, 14].map(|n| self.sections[n]);
        println!("of these, sections that should answer 0, 4, 5, 7, 13, 14: {sections:?}");
        let [yes_empty, _, _, _, four_empty, _, six_empty, _] = self.empty;
        println!("of these, updates with an empty input that should answer 0: {yes_empty}, 4: {four_empty}, 6: {six_empty}");
        println!("opens that should answer 0 to 3: {:?}", self.opens);
        let others = [yes, four, five, six, seven, thirteen, far, reply, frames, ranges, self.large, self.largest];
        if others.contains(&0) || sections.contains(&0) || [yes_empty, four_empty, six_empty].contains(&0) || self.opens.contains(&0) {
            never.push("an answer, or a refusal that comes after 4".into());
        }
        for name in &never {
            println!("never hit: {name}");
        }
        !never.is_empty()
    }
}

/// Whether every kind of value was tried. Numbers outside: one below, one above, the largest, three whose lowest bits are allowed, any.
fn tried(clause: &Clause, c: &Counts) -> bool {
    let (outside, inside) = match (clause.field, clause.rule) {
        // The slices of a count that is too large to make are those of another count, and so are broken too.
        (Field::Parameter(1 | 2 | 6), Rule::Between(low, _)) => (0b111_1110 | u32::from(low > 0), 0b11),
        (Field::Parameter(_), _) => (0b1_0010, 0b11),
        (Field::Length(_), _) => (0b1111, 0b1),
        (Field::Fraction, _) => (0xfff0, 0b1111),
        (_, Rule::Channels | Rule::Sum { .. }) => (0b111_1111, 0b11),
        _ => (0b111_1110, 0b11),
    };
    c.outside & outside == outside && c.inside & inside == inside
}
