//! The list that the program `replay` judges is small and leaves nothing out.

use compare::judge::Which;
use compare::list::{cases, file, shown, Room, Shows, LENGTHS};
use std::collections::BTreeMap;

/// How often each thing is shown by a policy.
fn counts(which: Which) -> BTreeMap<Shows, usize> {
    let mut counts = BTreeMap::new();
    for (_, case) in cases().iter().filter(|(by, _)| *by == which) {
        shown(which, case).into_iter().for_each(|shows| *counts.entry(shows).or_default() += 1);
    }
    counts
}

#[test]
fn every_rule_and_every_refusal_is_listed() {
    // Rule 7 is OpenSSL's alone. A policy has no codes and no purpose.
    let openssl = (1..=15).map(Shows::Broken);
    let chrome = (1..=20).filter(|rule| *rule != 7).map(Shows::Broken);
    let policy = [2, 3, 4, 5, 7].map(|number| Shows::Refused(1, number));
    let all = [(Which::Openssl, openssl.collect::<Vec<_>>()), (Which::Chrome, chrome.chain(policy).collect())];
    for (which, own) in all {
        let counts = counts(which);
        println!("{which:?}: {counts:?}");
        let chain = (2..=8).map(|number| Shows::Refused(0, number));
        for shows in own.into_iter().chain(chain).chain([Shows::Accepted]) {
            assert!(counts.get(&shows).is_some_and(|count| *count >= 3), "{which:?}: {shows:?}");
        }
    }
}

#[test]
fn every_length_and_every_room_is_listed() {
    for which in [Which::Openssl, Which::Chrome] {
        let counts = counts(which);
        let rooms = (0..=6).map(Room::Few).chain([Room::Short, Room::Exact, Room::More]);
        for shows in LENGTHS.map(Shows::Length).into_iter().chain(rooms.map(Shows::Lent)) {
            assert!(counts.contains_key(&shows), "{which:?}: {shows:?}");
        }
    }
}

#[test]
fn it_is_small() {
    let size = file().len();
    assert!(size < 500_000, "{size} bytes");
}
