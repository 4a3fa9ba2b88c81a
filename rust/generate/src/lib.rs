//! Bundles for comparing judges: sound ones with every rule kept and broken, and damaged ones at every boundary.
//!
//! A case depends on the seed and its index alone, so any single one can be made again.

pub mod model;
pub mod rng;
pub mod simple;
pub mod write;

mod chain;
mod damage;
mod names;
mod twists;

use model::Scene;
use rng::Rng;
use write::{Bundle, Layout};

/// What a judge is given.
#[derive(Clone)]
pub struct Case {
    pub words: Vec<u64>,
    pub bytes: Vec<u8>,
    pub pwords: Vec<u64>,
    pub pbytes: Vec<u8>,
    /// Words lent for the report.
    pub report: usize,
}

/// Of a hundred cases, how many are damaged after they have been written.
const DAMAGED: u64 = 30;

pub fn case(seed: u64, index: u64) -> Case {
    let rng = &mut Rng::new(seed, index);
    let mut scene = chain::acceptable(rng);
    for _ in 0..rng.weighted(&[25, 40, 22, 13]) {
        twists::twist(rng, &mut scene);
    }
    let (mut chain, mut policy) = written(rng, &scene);
    if rng.percent(DAMAGED) {
        damage::damage(rng, &mut chain, &mut policy);
    }
    let report = report_words(rng);
    Case { words: chain.words, bytes: chain.bytes, pwords: policy.words, pbytes: policy.bytes, report }
}

fn written(rng: &mut Rng, scene: &Scene) -> (Bundle, Bundle) {
    let layouts = [Layout::Packed, Layout::Loose, Layout::Overlapping];
    let (chain, policy) = (*rng.pick(&layouts), *rng.pick(&layouts));
    (write::chain(rng, chain, &scene.chain), write::policy(rng, policy, &scene.lists))
}

/// Few words; whole entries, one word less or more (totals are mostly small, so often the exact size); plenty.
fn report_words(rng: &mut Rng) -> usize {
    match rng.below(10) {
        0..4 => rng.below(7) as usize,
        4..9 => (3 * rng.between(1, 8) + rng.below(3) - 1) as usize,
        _ => rng.between(1200, 1300) as usize,
    }
}
