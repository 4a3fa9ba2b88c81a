//! Rules 5 and 7 to 12: the parts of a certificate.

use super::{any_certificate, authority_position, position};
use crate::model::*;
use crate::names::*;
use crate::rng::Rng;

/// A leaf of the first version without extensions, or with some that no part tells of.
pub fn bare_first_version(rng: &mut Rng, scene: &mut Scene) {
    if rng.percent(60) {
        scene.chain.host = None;
    }
    let host = scene.chain.host.clone().unwrap_or_default();
    let leaf = &mut scene.chain.certificates[0];
    leaf.strip();
    leaf.version = rng.below(3);
    leaf.other_extensions = rng.percent(40);
    (leaf.issuer_uid, leaf.subject_uid) = (None, None);
    leaf.subject = vec![vec![attribute(COMMON_NAME, &host)]];
}

pub fn key_usage(rng: &mut Rng, scene: &mut Scene) {
    let cert = any_certificate(rng, scene);
    let bits =
        if rng.percent(30) { 0 } else { *rng.pick(&[1, 2, 4, 8, 16, 32, 64, 128, 256, 511, 511 - 32, 511 - 21]) };
    cert.ku = rng.percent(90).then(|| Part { mark: any_mark(rng), holds: bits });
}

pub fn extended_key_usage(rng: &mut Rng, scene: &mut Scene) {
    let cert = any_certificate(rng, scene);
    let usages = match rng.below(5) {
        0 => vec![],
        1 => vec![6],
        2 => vec![1, 6],
        3 => vec![5, 0],
        _ => vec![rng.between(1, 7)],
    };
    cert.eku = Some(Part { mark: any_mark(rng), holds: usages });
}

pub fn authority(rng: &mut Rng, scene: &mut Scene) {
    let at = authority_position(rng, scene);
    let cert = &mut scene.chain.certificates[at];
    match rng.below(4) {
        0 => cert.bc = None,
        1 => cert.bc = Some(Part { mark: 3, holds: BasicConstraints { ca: false, path: None } }),
        2 => cert.ku = Some(Part { mark: 3, holds: 511 - 32 }),
        _ => cert.ku = None,
    }
}

pub fn path_length(rng: &mut Rng, scene: &mut Scene) {
    let at = position(rng, scene);
    let i = at as i64;
    let path = Some(*rng.pick(&[i - 2, i - 1, i - 1, i, -1, 0, i64::MIN, i64::MAX]));
    let cert = &mut scene.chain.certificates[at];
    let ca = if at == 0 { rng.percent(20) } else { rng.percent(90) };
    cert.bc = Some(Part { mark: any_mark(rng), holds: BasicConstraints { ca, path } });
}

pub fn empty_alt_name(rng: &mut Rng, scene: &mut Scene) {
    let cert = any_certificate(rng, scene);
    let names = if rng.percent(70) { vec![] } else { vec![GeneralName::Unsupported] };
    cert.san = Some(Part { mark: any_mark(rng), holds: names });
}

/// Mostly the leaf's subject: none at all, or one RDN without attributes.
pub fn empty_subject(rng: &mut Rng, scene: &mut Scene) {
    let at = if rng.percent(80) { 0 } else { position(rng, scene) };
    let subject = if rng.percent(75) { vec![] } else { vec![vec![]] };
    if at > 0 && rng.percent(70) {
        scene.chain.certificates[at - 1].issuer = subject.clone();
    }
    let cert = &mut scene.chain.certificates[at];
    cert.subject = subject;
    match &mut cert.san {
        Some(san) if rng.percent(90) => san.mark = *rng.pick(&[1, 2, 3, 3, 3]),
        san => *san = None,
    }
}

pub fn key_identifiers(rng: &mut Rng, scene: &mut Scene) {
    let cert = any_certificate(rng, scene);
    match (rng.below(6), &mut cert.aki, &mut cert.ski) {
        (0, Some(aki), _) => aki.mark = 3,
        (1, _, Some(ski)) => ski.mark = 3,
        (2, aki, _) => *aki = None,
        (3, Some(aki), _) => aki.holds.key_id = None,
        (4, _, ski) => *ski = None,
        (_, aki, ski) => (*aki, *ski) = (None, None),
    }
}
