//! Question 4's list with one wrong entry: what the driver must notice.
use crate::clauses::{Clause, DESTINATION, Field, MIX, Rule, SINK, SPLITTER, VOICE, list};

/// Entries with another rule: the clause, what is wrong, the rule.
const RULES: [(&str, &str, Rule); 12] = [
    ("voice channels", "0 for a voice in use", Rule::Between(0, 6)),
    ("voice channels", "no 0 for a voice that isn't in use", Rule::Between(1, 6)),
    ("voice channel number 3", "below 64 for any voice count", Rule::Between(0, 63)),
    ("voice fraction", "1 too", Rule::Float(|x| 0.0 <= x && x <= 1.0)),
    ("voice fraction", "negative too", Rule::Float(|x| x < 1.0)),
    ("voice fraction", "NaN too", Rule::Float(|x| !(x < 0.0 || x >= 1.0))),
    ("voice fraction", "not 0", Rule::Float(|x| 0.0 < x && x < 1.0)),
    ("voice fraction", "not -0", Rule::Float(|x| x.is_sign_positive() && x < 1.0)),
    ("voice fraction", "no subnormal number", Rule::Float(|x| x == 0.0 || f32::MIN_POSITIVE <= x && x < 1.0)),
    ("mix offset", "mixes that are not used left out", Rule::Sum { used: true }),
    ("mix buffer count", "at most the mix buffers of the parameters", Rule::UpTo { parameter: 2, less: 0 }),
    ("splitter list", "at most 128 for any destination count", Rule::Between(0, 128)),
];

/// Clauses that docs/QUESTIONS.md hasn't: fields that may hold anything.
const MORE: [(&str, Field, i64); 14] = [
    ("sample rate at most 48000", Field::Parameter(0), 48000),
    ("revision word below 2^31", Field::Parameter(9), 0x7fff_ffff),
    ("voice format at most 255", Field::Word(VOICE, 3), 255),
    ("voice queue count at most 4", Field::Word(VOICE, 6), 4),
    ("voice flush count at most 4", Field::Word(VOICE, 8), 4),
    ("voice decoding flags at most 65535", Field::Word(VOICE, 9), 65535),
    ("voice mix number at most 31", Field::Word(VOICE, 10), 31),
    ("voice loop count at most 2^31", Field::Word(VOICE, 30), 1 << 31),
    ("mix destination at most 31", Field::Word(MIX, 2), 31),
    ("mix splitter at most 31", Field::Word(MIX, 3), 31),
    ("sink input 0 at most 95", Field::Word(SINK, 3), 95),
    ("sink input 5 at most 95", Field::Word(SINK, 8), 95),
    ("splitter list's last number at most 127", Field::Word(SPLITTER, 128), 127),
    ("destination mix at most 31", Field::Word(DESTINATION, 1), 31),
];

/// The list with a change of one of its clauses.
fn changed(k: usize, change: impl Fn(&mut Clause)) -> Vec<Clause> {
    let mut list = list();
    change(&mut list[k]);
    list
}

/// Every wrong list with its name: each clause left out, each limit moved by one, other rules, clauses too many.
pub fn wrong_lists() -> Vec<(String, Vec<Clause>)> {
    let right = list();
    let mut wrong = vec![];
    for (k, c) in right.iter().enumerate() {
        let mut without = list();
        without.remove(k);
        wrong.push((format!("{}: left out", c.name), without));
        let shifts: &[(&str, [i64; 2])] = match c.rule {
            Rule::Float(_) => &[],
            Rule::Sum { .. } | Rule::Right => &[("one more too", [0, 1]), ("one less too", [-1, 0]), ("one more instead", [1, 1])],
            _ => &[("most one more", [0, 1]), ("most one less", [0, -1]), ("least one more", [1, 0]), ("least one less", [-1, 0])],
        };
        // What is at least 0 allows nothing more by a least value of -1.
        let zero = matches!(c.rule, Rule::Between(0, _) | Rule::UpTo { .. });
        for (what, shift) in shifts.iter().take(if zero { 3 } else { 4 }) {
            wrong.push((format!("{}: {what}", c.name), changed(k, |c| c.shift = *shift)));
        }
    }
    for (name, what, rule) in RULES {
        let k = right.iter().position(|c| c.name == name).expect("a clause");
        wrong.push((format!("{name}: {what}"), changed(k, |c| c.rule = rule)));
    }
    for (name, field, most) in MORE {
        let mut more = list();
        more.push(Clause { name: name.into(), field, rule: Rule::Between(0, most), shift: [0, 0] });
        wrong.push((format!("too many: {name}"), more));
    }
    wrong
}
