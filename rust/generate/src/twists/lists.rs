//! Rules 17, 18 and 20: the calendar and the lists of fingerprints.

use super::position;
use crate::model::*;
use crate::rng::Rng;

const JULY_2019: u64 = 1_561_939_200;
/// Each date with the spans that end and begin with it; July 2019 lies within one.
const DATES: [(u64, [usize; 2]); 5] = [
    (1_341_100_800, [0, 1]),
    (1_427_846_400, [1, 2]),
    (1_519_862_400, [2, 3]),
    (JULY_2019, [3, 3]),
    (1_598_918_400, [3, 4]),
];
const SPANS: [u64; 5] = [315_532_800, 157_852_800, 102_643_200, 71_280_000, 34_387_200];

/// Ten years from here end before July 2019, which the first date's don't.
const LONG_AGO: u64 = 1_200_000_000;

/// Dates at each bound of the calendar, one second to either side.
pub fn calendar(rng: &mut Rng, scene: &mut Scene) {
    let (date, spans) = if rng.percent(10) { (LONG_AGO, [0, 0]) } else { *rng.pick(&DATES) };
    let not_before = date + rng.below(3) - 1;
    let span = if rng.percent(15) { rng.index(SPANS.len()) } else { *rng.pick(&spans) };
    let not_after = match rng.below(8) {
        0 => not_before - 1,
        1 => JULY_2019 - rng.below(2),
        2 | 3 if span == 0 => JULY_2019 - rng.below(2),
        _ => not_before + SPANS[span] + rng.below(3) - 1,
    };
    let now = if not_after < not_before { not_after } else { rng.between(not_before, not_after) };
    scene.chain.now = now;
    for cert in &mut scene.chain.certificates {
        (cert.not_before, cert.not_after) = (now - 100, now + 100);
    }
    let leaf = &mut scene.chain.certificates[0];
    (leaf.not_before, leaf.not_after) = (not_before, not_after);
    if rng.percent(85) {
        let root = scene.chain.certificates.last().expect("at least two certificates");
        scene.lists[KNOWN_ROOTS].push(root.fingerprint.clone());
    }
}

pub fn revoked(rng: &mut Rng, scene: &mut Scene) {
    let at = position(rng, scene);
    let mut fingerprint = scene.chain.certificates[at].fingerprint.clone();
    match rng.below(5) {
        0 => fingerprint.make_ascii_lowercase(),
        1 => drop(fingerprint.pop()),
        2 => fingerprint.push(0),
        _ => {}
    }
    let crl = &mut scene.lists[CRL];
    let place = rng.index(crl.len() + 1);
    crl.insert(place, fingerprint);
}

/// A root that needs an exception, and exceptions at any position.
pub fn symantec(rng: &mut Rng, scene: &mut Scene) {
    let root = scene.chain.certificates.len() - 1;
    let at = if rng.percent(85) { root } else { rng.index(root) };
    scene.lists[SYMANTEC_ROOTS].push(scene.chain.certificates[at].fingerprint.clone());
    if rng.percent(75) {
        let excepted = position(rng, scene);
        scene.lists[SYMANTEC_EXCEPTIONS].push(scene.chain.certificates[excepted].fingerprint.clone());
    }
}
