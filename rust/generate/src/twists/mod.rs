//! Twists move a chain to an edge of some rule: some of them break it there, others just don't.

mod constraints;
mod fields;
mod hosts;
mod issuing;
mod lists;
mod parts;
mod wreck;

use crate::model::*;
use crate::rng::Rng;

type Twist = fn(&mut Rng, &mut Scene);

/// Each twist with its weight.
const TWISTS: &[(u64, Twist)] = &[
    (4, fields::dates),
    (2, fields::signatures),
    (3, fields::unique_identifiers),
    (6, fields::keys),
    (2, fields::versions),
    (2, parts::bare_first_version),
    (6, parts::key_usage),
    (6, parts::extended_key_usage),
    (3, parts::authority),
    (5, parts::path_length),
    (2, parts::empty_alt_name),
    (4, parts::empty_subject),
    (4, parts::key_identifiers),
    (4, issuing::respell_issuer),
    (4, issuing::change_issuer),
    (4, issuing::change_key_ids),
    (9, constraints::near_dns),
    (7, constraints::near_directory),
    (6, constraints::near_ip),
    (4, constraints::odd_alt_name),
    (5, constraints::self_issued),
    (5, constraints::common_name),
    (5, constraints::odd_constraint),
    (8, hosts::host_and_names),
    (5, hosts::common_name_only),
    (3, hosts::dots_and_stars),
    (5, hosts::public_suffix),
    (7, hosts::bound_root),
    (9, lists::calendar),
    (4, lists::revoked),
    (5, lists::symantec),
    (1, wreck::wreck),
];

/// Applies one twist. Chains of fewer than two certificates only break rule 1, and stay as they are.
pub fn twist(rng: &mut Rng, scene: &mut Scene) {
    if scene.chain.certificates.len() < 2 {
        return;
    }
    let weights: Vec<u64> = TWISTS.iter().map(|(weight, _)| *weight).collect();
    TWISTS[rng.weighted(&weights)].1(rng, scene);
}

/// A position, the ends being likelier than the rest.
fn position(rng: &mut Rng, scene: &Scene) -> usize {
    let n = scene.chain.certificates.len();
    match rng.below(6) {
        0 => 0,
        1 => n - 1,
        2 => 1,
        3 => n - 2,
        _ => rng.index(n),
    }
}

fn any_certificate<'a>(rng: &mut Rng, scene: &'a mut Scene) -> &'a mut Certificate {
    let at = position(rng, scene);
    &mut scene.chain.certificates[at]
}

/// A position above the leaf.
fn authority_position(rng: &mut Rng, scene: &Scene) -> usize {
    position(rng, scene).max(1)
}
