//! Which words are an answer, and which one.

use udrasmil::{Answer, Bundle, Place, Policy, Position, Refusal, Rule, Word};

const ROOM: usize = 7;

fn openssl(words: [u64; 8]) -> Option<Answer> {
    Answer::decode(Policy::OpenSsl, &words, ROOM)
}

fn chrome(words: [u64; 8]) -> Option<Answer> {
    Answer::decode(Policy::Chrome, &words, ROOM)
}

fn position(number: u32) -> Position {
    Position::new(number).unwrap()
}

fn broken(rule: u32, place: Place, total: usize, written: usize) -> Option<Answer> {
    Some(Answer::Broken { rule: Rule::new(rule).unwrap(), place, total, written })
}

fn refused(number: u32, bundle: Bundle, word: u32) -> Option<Answer> {
    let place = Place::Word(Word::new(word).unwrap());
    Some(Answer::Refused { refusal: Refusal::new(number).unwrap(), bundle, place })
}

#[test]
fn every_kind_of_answer_is_read() {
    assert_eq!(openssl([0; 8]), Some(Answer::Accepted));
    assert_eq!(openssl([1, 0, 0, 0, 0, 1, 1, 1]), broken(1, Place::Nothing, 1, 1));
    assert_eq!(openssl([1, 0, 2, 15, 0, 15, 2, 2]), broken(15, Place::Certificate(position(15)), 2, 2));
    assert_eq!(openssl([1, 0, 3, 1, 0, 14, 424, 2]), broken(14, Place::Pair(position(1), position(0)), 424, 2));
    assert_eq!(chrome([1, 0, 3, 0, 2, 17, 3, 2]), broken(17, Place::Pair(position(0), position(2)), 3, 2));
    assert_eq!(openssl([5, 0, 1, 132, 0, 0, 0, 0]), refused(5, Bundle::Chain, 132));
    assert_eq!(chrome([8, 0, 1, 8191, 0, 0, 0, 0]), refused(8, Bundle::Chain, 8191));
    assert_eq!(chrome([2, 1, 1, 0, 0, 0, 0, 0]), refused(2, Bundle::Policy, 0));
}

/// By both policies nothing is read.
#[test]
fn other_words_are_no_answer() {
    let good = [[0; 8], [1, 0, 2, 3, 0, 2, 2, 2], [1, 0, 3, 1, 0, 14, 2, 2], [5, 0, 1, 132, 0, 0, 0, 0]];
    let unanswered = good.iter().flat_map(|words| (0..8).map(move |at| (words, at, u64::MAX)));
    let changed = [
        (&good[0], 6, 1),
        (&good[1], 1, 1),
        (&good[1], 2, 0),
        (&good[1], 2, 1),
        (&good[1], 2, 3),
        (&good[1], 3, 16),
        (&good[1], 4, 1),
        (&good[1], 5, 0),
        (&good[1], 5, 1),
        (&good[1], 5, 13),
        (&good[1], 5, 21),
        (&good[1], 6, 0),
        (&good[1], 6, 1),
        (&good[1], 6, 425),
        (&good[1], 7, 1),
        (&good[2], 5, 2),
        (&good[2], 2, 2),
        (&good[3], 0, 9),
        (&good[3], 1, 2),
        (&good[3], 2, 0),
        (&good[3], 3, 8192),
        (&good[3], 3, 1 << 32),
        (&good[3], 6, 1),
        (&good[3], 7, 1),
    ];
    for (words, at, value) in unanswered.chain(changed) {
        let mut words = *words;
        words[at] = value;
        assert_eq!((openssl(words), chrome(words)), (None, None), "{words:?}");
    }
}

#[test]
fn a_policy_has_its_own_rules_and_bundles() {
    let of_rule = |rule| [1, 0, 2, 1, 0, rule, 1, 1];
    assert!(openssl(of_rule(7)).is_some() && chrome(of_rule(7)).is_none());
    assert!(openssl(of_rule(16)).is_none() && chrome(of_rule(16)).is_some());
    assert_eq!(openssl([2, 1, 1, 0, 0, 0, 0, 0]), None);
}

#[test]
fn written_entries_follow_from_the_room() {
    let words = |written| [1, 0, 2, 1, 0, 2, 5, written];
    for (lent, written) in [(0, 0), (2, 0), (3, 1), (14, 4), (15, 5), (1272, 5)] {
        for tried in 0..=6 {
            let read = Answer::decode(Policy::OpenSsl, &words(tried), lent);
            assert_eq!(read.is_some(), tried == written, "{lent} words lent, {tried} written");
        }
    }
}

/// Rules and refusals that there are have a sentence, and no other can be made.
#[test]
fn every_number_has_its_sentence() {
    for policy in [Policy::OpenSsl, Policy::Chrome] {
        let sentences = (0..99).filter_map(Rule::new).map(|rule| rule.sentence(policy));
        assert_eq!(sentences.filter(|sentence| !sentence.is_empty()).count(), 20);
    }
    let sentences = (0..99).filter_map(Refusal::new).map(Refusal::sentence);
    assert_eq!(sentences.filter(|sentence| !sentence.is_empty()).count(), 7);
}
