//! Nothing is timed that isn't the same on both sides.

use bench::chains::all;
use bench::times::times;
use bench::Sides;
use compare::judge::{plain, Judge};

type Openssl = fn(&[u64], &[u8], &mut [u32]) -> [u64; 8];

fn beside_plain(openssl: Openssl) -> Sides {
    Sides { proved: Judge { name: "wrong".into(), openssl, chrome: None }, plain: plain() }
}

#[test]
fn the_judges_agree_on_what_is_timed() {
    Sides::linked().agree(&all()).expect("the same answers and reports");
}

#[test]
fn a_judge_that_differs_is_not_timed() {
    let wrongs: [Openssl; 3] = [
        |_, _, _| [0; 8],
        |words, bytes, report| (plain().openssl)(words, bytes, &mut report.to_vec()),
        |words, bytes, report| {
            report.iter_mut().rev().take(1).for_each(|word| *word = 0);
            (plain().openssl)(words, bytes, report)
        },
    ];
    for wrong in wrongs {
        assert!(beside_plain(wrong).agree(&all()).is_err());
    }
}

#[test]
fn a_small_run_gives_ratios() {
    let (sides, chains) = (Sides::linked(), all());
    for (timed, which) in sides.work(&chains) {
        let ratio = times(&sides, which, &timed.case, 1).ratio();
        assert!(ratio.is_finite() && ratio > 0.0, "{}: {ratio}", timed.name);
    }
}
