//! Numbers and words, held to include/jeqlluna.h; what is compared of the header is its text.
use crate::Refusal;
use alloc::string::{String, ToString};
use alloc::vec::Vec;
extern crate std;

fn header() -> String {
    let path = concat!(env!("CARGO_MANIFEST_DIR"), "/../../include/jeqlluna.h");
    std::fs::read_to_string(path).expect(path)
}

/// The text between two marks, at each place where it stands.
fn between<'a>(text: &'a str, from: &str, to: &str) -> Vec<&'a str> {
    text.split(from).skip(1).filter_map(|rest| rest.split(to).next()).collect()
}

#[test]
fn words_of_the_header() {
    let header = header();
    let names: Vec<(&str, u32)> = between(&header, "enum {", "};")[0]
        .lines()
        .filter_map(|line| line.trim().split_once(" = "))
        .map(|(name, rest)| (name, rest.split([',', ' ']).next().unwrap().parse().unwrap()))
        .collect();
    assert_eq!(names.len(), 18);
    for (name, number) in names {
        let words = between(&header, &(String::from("case ") + name + ":\n        return \""), "\"")[0];
        match Refusal::check(number) {
            Ok(()) => assert_eq!(number, 0),
            Err(refusal) => {
                assert_eq!(refusal.number(), number);
                assert_eq!(refusal.to_string(), std::format!("{words} (refusal {number})"));
                assert!(!matches!(refusal, Refusal::Other(_)));
            }
        }
    }
}

/// A number that the crate does not know is an error like the others.
#[test]
fn unknown_numbers() {
    let words = between(&header(), "default:\n        return \"", "\"")[0].to_string();
    for number in [10, 19, 1000, u32::MAX] {
        let refusal = Refusal::check(number).unwrap_err();
        assert_eq!((refusal, refusal.number()), (Refusal::Other(number), number));
        assert_eq!(refusal.to_string(), std::format!("{words} (refusal {number})"));
    }
}

#[test]
fn version_of_the_header() {
    assert_eq!(between(&header(), "#define JEQLLUNA_VERSION \"", "\""), [env!("CARGO_PKG_VERSION")]);
}
