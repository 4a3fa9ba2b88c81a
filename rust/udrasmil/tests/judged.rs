//! The wrapper says of generated bundles what the plain judge's words say, and touches no other word of a lent room.

use generate::{case, Case};
use udrasmil::{Answer, Policy, Report};

const SEED: u64 = 20_261_115;
const CASES: u64 = 3000;
const UNTOUCHED: u32 = 0xA5A5_A5A5;

/// A judge as the plain one answers, and the same judge behind the wrapper.
struct Pair<'a> {
    policy: Policy,
    plain: &'a dyn Fn(&mut [u32]) -> [u64; 8],
    proved: &'a dyn Fn(&mut Report) -> Answer,
}

#[test]
fn openssl_answers_as_the_plain_judge() {
    for index in 0..CASES {
        let Case { words, bytes, report, .. } = &case(SEED, index);
        let plain = |room: &mut [u32]| plain::judge_openssl(words, bytes, room);
        let proved = |report: &mut Report| udrasmil::openssl(words, bytes, report);
        agree(index, *report, &Pair { policy: Policy::OpenSsl, plain: &plain, proved: &proved });
    }
}

#[test]
fn chrome_answers_as_the_plain_judge() {
    for index in 0..CASES {
        let Case { words, bytes, pwords, pbytes, report } = &case(SEED, index);
        let plain = |room: &mut [u32]| plain::judge_chrome(words, bytes, pwords, pbytes, room);
        let proved = |report: &mut Report| udrasmil::chrome(words, bytes, pwords, pbytes, report);
        agree(index, *report, &Pair { policy: Policy::Chrome, plain: &plain, proved: &proved });
    }
}

fn agree(index: u64, lent: usize, pair: &Pair) {
    let (mut one, mut other) = (vec![UNTOUCHED; lent], vec![UNTOUCHED; lent]);
    let expected = Answer::decode(pair.policy, &(pair.plain)(&mut one), lent);
    assert_eq!(Some((pair.proved)(&mut Report::lent(&mut other))), expected, "case {index}");
    assert_eq!(one, other, "the lent room of case {index}");

    let mut whole = Report::new();
    (pair.proved)(&mut whole);
    let rules = whole.entries().map(|entry| entry.rule.number());
    let expected = plain::entries(pair.plain).into_iter().map(|entry| entry[0]);
    assert!(rules.eq(expected), "the report of case {index}");
}
