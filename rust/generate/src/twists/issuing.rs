//! Rule 13: who names whom as issuer, and with which key.

use crate::model::*;
use crate::names::*;
use crate::rng::Rng;

/// A certificate below the root.
fn issued<'a>(rng: &mut Rng, scene: &'a mut Scene) -> &'a mut Certificate {
    let below_root = scene.chain.certificates.len() - 1;
    &mut scene.chain.certificates[rng.index(below_root)]
}

/// Both spellings carry spaces and letters of both cases; the name stays the same.
pub fn respell_issuer(rng: &mut Rng, scene: &mut Scene) {
    let below_root = scene.chain.certificates.len() - 1;
    let at = rng.index(below_root);
    let value = *rng.pick(&[&b"  Some   Name  "[..], b"   ", b"", b"A  B", b"x", b"\tt  "]);
    let other = match rng.below(4) {
        0 => value.iter().copied().filter(|byte| *byte != b' ').collect(),
        1 => text(&[value, b"\t"]),
        _ => respelled(rng, value),
    };
    let oid = *rng.pick(&[UNIT, b"", b"\xFFodd", b"odd.oid", b"odd.oid"]);
    let other_oid = if rng.percent(15) { other_case(rng, b"odd.oid") } else { oid.to_vec() };
    scene.chain.certificates[at + 1].subject.push(vec![attribute(oid, value)]);
    let subject = scene.chain.certificates[at + 1].subject.clone();
    let issuer = &mut scene.chain.certificates[at].issuer;
    *issuer = subject;
    issuer.last_mut().expect("just pushed")[0] = attribute(&other_oid, &other);
}

pub fn change_issuer(rng: &mut Rng, scene: &mut Scene) {
    let issuer = &mut issued(rng, scene).issuer;
    let rdn = rng.index(issuer.len().max(1));
    match rng.below(7) {
        0 => issuer.push(vec![]),
        1 => drop(issuer.pop()),
        2 => issuer.reverse(),
        3 => issuer.iter_mut().for_each(|rdn| rdn.reverse()),
        4 => issuer.get_mut(rdn).into_iter().for_each(|rdn| rdn.push(attribute(UNIT, b"more"))),
        5 => issuer.iter_mut().flatten().for_each(|attribute| attribute.oid.push(b'1')),
        _ => issuer.iter_mut().flatten().for_each(|attribute| attribute.value.push(b'.')),
    }
}

pub fn change_key_ids(rng: &mut Rng, scene: &mut Scene) {
    let below_root = scene.chain.certificates.len() - 1;
    let at = rng.index(below_root);
    let serial = scene.chain.certificates[at + 1].serial.clone();
    if rng.percent(30) {
        scene.chain.certificates[at + 1].ski = None;
    }
    let cert = &mut scene.chain.certificates[at];
    let mut aki = cert.aki.take().unwrap_or(Part { mark: 1, holds: AuthorityKey::default() });
    match rng.below(6) {
        0 => aki.holds.key_id = Some(identifier(rng, 4)),
        1 => aki.holds.key_id.iter_mut().for_each(|key_id| key_id.push(0)),
        2 => aki.holds.serial = Some(identifier(rng, 2)),
        3 => aki.holds.serial = Some(serial),
        4 => aki.holds.serial = Some(Text::new()),
        _ => aki.holds.issuer = Some(identifier(rng, 2)),
    }
    cert.aki = Some(aki);
}
