//! Rules 2, 3, 4 and 6: single words and texts of a certificate.

use super::any_certificate;
use crate::model::*;
use crate::names::identifier;
use crate::rng::Rng;

pub fn dates(rng: &mut Rng, scene: &mut Scene) {
    let now = scene.chain.now;
    let cert = any_certificate(rng, scene);
    match rng.below(6) {
        0 => cert.not_before = now,
        1 => cert.not_before = now + 1,
        2 => cert.not_after = now,
        3 => cert.not_after = now - 1,
        4 => (cert.not_before, cert.not_after) = (0, u64::MAX),
        _ => (cert.not_before, cert.not_after) = (u64::MAX, 0),
    }
}

pub fn signatures(rng: &mut Rng, scene: &mut Scene) {
    let cert = any_certificate(rng, scene);
    match rng.below(4) {
        0 => cert.inner_signature.push(0),
        1 => cert.outer_signature.truncate(1),
        2 => (cert.inner_signature, cert.outer_signature) = (Text::new(), Text::new()),
        _ => cert.inner_signature = identifier(rng, 3),
    }
}

pub fn unique_identifiers(rng: &mut Rng, scene: &mut Scene) {
    let cert = any_certificate(rng, scene);
    cert.version = *rng.pick(&[0, 1, 1, 2, 3, 4, 4, u64::from(u32::MAX)]);
    let uid = Some(Text::new());
    match rng.below(3) {
        0 => cert.issuer_uid = uid,
        1 => cert.subject_uid = uid,
        _ => (cert.issuer_uid, cert.subject_uid) = (uid.clone(), uid),
    }
}

pub fn keys(rng: &mut Rng, scene: &mut Scene) {
    let cert = any_certificate(rng, scene);
    cert.key = *rng.pick(&[RSA, RSA, DSA, OTHER_KEY]);
    cert.rsa_bits = *rng.pick(&[0, 1000, 1023, 1024, 1025, u64::MAX]);
}

/// Without UIDs a version matters only to rule 7.
pub fn versions(rng: &mut Rng, scene: &mut Scene) {
    let cert = any_certificate(rng, scene);
    (cert.issuer_uid, cert.subject_uid) = (None, None);
    cert.version = *rng.pick(&[0, 1, 4, u64::from(u32::MAX)]);
}
