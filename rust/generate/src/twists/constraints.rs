//! Rules 14 and 16: constraints close to the names under them.

use super::{authority_position, position};
use crate::model::*;
use crate::names::*;
use crate::rng::Rng;

/// Puts a constraint above the certificate at `below`, into either list; sometimes the list's other rows go.
fn constrain(rng: &mut Rng, scene: &mut Scene, below: usize, constraint: GeneralName) {
    let n = scene.chain.certificates.len();
    let above = rng.between(below as u64 + 1, n as u64 - 1) as usize;
    // One below the root is what both policies ask.
    let above = if rng.percent(70) { above.min(n - 2).max(below + 1) } else { above };
    let nc = scene.chain.certificates[above].constraints();
    let list = if rng.percent(60) { &mut nc.permitted } else { &mut nc.excluded };
    if rng.percent(60) {
        list.clear();
    }
    let at = rng.index(list.len() + 1);
    list.insert(at, constraint);
}

/// A certificate that some other stands above: mostly the leaf.
fn constrained_position(rng: &mut Rng, scene: &Scene) -> usize {
    let n = scene.chain.certificates.len();
    if rng.percent(70) {
        return 0;
    }
    rng.index(n - 1)
}

fn random_dns(rng: &mut Rng) -> Text {
    let head = *rng.pick(&[&b""[..], b"", b"x.", b"X.", b"b", b".", b"x.y.", b"*."]);
    let body = *rng.pick(&[&b"a.com"[..], b"a.com", b"A.com", b"com", b""]);
    let tail = *rng.pick(&[&b""[..], b"", b"", b".", b"..", b"..."]);
    text(&[head, body, tail])
}

/// A name and a constraint on it that differ by a label, a dot or case.
pub fn near_dns(rng: &mut Rng, scene: &mut Scene) {
    let below = constrained_position(rng, scene);
    let name = random_dns(rng);
    let constraint = match rng.below(8) {
        0 => name.clone(),
        1 => text(&[&name, b"."]),
        2 => name.get(1..).unwrap_or_default().to_vec(),
        3 => name.iter().position(|byte| *byte == b'.').map_or(Text::new(), |dot| name[dot..].to_vec()),
        // All its dots gone: so many cleanings would make the two equal.
        6 => name.iter().rposition(|byte| *byte != b'.').map_or(Text::new(), |last| name[..=last].to_vec()),
        _ => random_dns(rng),
    };
    let constraint = if rng.percent(40) { other_case(rng, &constraint) } else { constraint };
    let names = scene.chain.certificates[below].san_names();
    if rng.percent(60) {
        names.retain(|name| !matches!(name, GeneralName::Dns(_)));
        scene.chain.host = None;
    }
    scene.chain.certificates[below].san_names().push(GeneralName::Dns(name));
    constrain(rng, scene, below, GeneralName::Dns(constraint));
}

pub fn near_directory(rng: &mut Rng, scene: &mut Scene) {
    let below = constrained_position(rng, scene);
    let cert = &mut scene.chain.certificates[below];
    let mut constraint = respelled_name(rng, &cert.subject);
    change_subtree(rng, &mut constraint);
    if rng.percent(40) {
        let mut name = cert.subject.clone();
        change_subtree(rng, &mut name);
        cert.san_names().push(GeneralName::Directory(name));
    }
    constrain(rng, scene, below, GeneralName::Directory(constraint));
}

fn change_subtree(rng: &mut Rng, name: &mut Name) {
    match rng.below(9) {
        0 => name.clear(),
        1 => drop(name.pop()),
        2 => name.iter_mut().for_each(|rdn| rdn.reverse()),
        3 => name.reverse(),
        4 => name.push(vec![]),
        5 => name.push(vec![attribute(UNIT, b"more")]),
        6 => name.iter_mut().for_each(|rdn| rdn.truncate(1)),
        7 => name.iter_mut().for_each(|rdn| rdn.iter_mut().skip(1).for_each(|other| other.value.push(b'x'))),
        _ => name.iter_mut().for_each(serve_twice),
    }
}

/// Twice the same attribute: it may serve twice, if the name's own RDN is as long.
fn serve_twice(rdn: &mut Rdn) {
    if let [first, second, ..] = &mut rdn[..] {
        *second = first.clone();
    } else if let Some(first) = rdn.first().cloned() {
        rdn.push(first);
    }
}

pub fn near_ip(rng: &mut Rng, scene: &mut Scene) {
    let below = constrained_position(rng, scene);
    let short = rng.percent(50);
    let length = if short { 4 } else { 16 };
    let addr: Text = (0..length).map(|_| rng.word() as u8).collect();
    let mut mask = vec![0xFF; length];
    let bits = rng.index(length);
    mask[bits] = *rng.pick(&[0xFF, 0xF0, 0xFE, 0x0F, 0]);
    mask[bits + 1..].fill(*rng.pick(&[0, 0, 0xFF]));
    let mut base = addr.clone();
    if rng.percent(50) {
        base[rng.index(length)] ^= *rng.pick(&[1, 0x80, 0x10]);
    }
    let mut range = [base, mask].concat();
    match rng.below(8) {
        0 => range.truncate(length),
        1 => range.resize(if short { 32 } else { 8 }, 0),
        2 => range.push(0),
        _ => {}
    }
    if rng.percent(10) {
        // No address has this length, though the range would fit it.
        range = [&addr[1..], &vec![0xFF; length - 1]].concat();
    }
    let addr = if rng.percent(15) { addr[1..].to_vec() } else { addr };
    scene.chain.certificates[below].san_names().push(GeneralName::Ip(addr));
    constrain(rng, scene, below, GeneralName::Ip(range));
}

/// Names of kinds 3 and 4, an empty directory name, under constraints that may be empty.
pub fn odd_alt_name(rng: &mut Rng, scene: &mut Scene) {
    let below = constrained_position(rng, scene);
    let odd = [GeneralName::Other, GeneralName::Unsupported, GeneralName::Directory(vec![])];
    scene.chain.certificates[below].san_names().push(rng.pick(&odd).clone());
    let n = scene.chain.certificates.len();
    let above = rng.between(below as u64 + 1, n as u64 - 1) as usize;
    let nc = scene.chain.certificates[above].constraints();
    match rng.below(3) {
        0 => *nc = NameConstraints::default(),
        1 => nc.permitted.push(rng.pick(&odd).clone()),
        _ => {}
    }
}

/// A certificate with its issuer's name is exempt for OpenSSL: it gets a name that its constraints forbid.
pub fn self_issued(rng: &mut Rng, scene: &mut Scene) {
    let below = constrained_position(rng, scene);
    let certificates = &mut scene.chain.certificates;
    let name = if rng.percent(30) { vec![] } else { certificates[below + 1].subject.clone() };
    if rng.percent(30) {
        certificates[below + 1].subject = name.clone();
    }
    certificates[below].issuer = respelled_name(rng, &name);
    certificates[below].subject = name.clone();
    if below > 0 {
        certificates[below - 1].issuer = respelled_name(rng, &name);
    }
    if below == 0 && rng.percent(50) {
        certificates[below].san_names().retain(|name| !matches!(name, GeneralName::Dns(_)));
        scene.chain.host = None;
    }
    let forbidden = if rng.percent(50) { GeneralName::Dns(Text::new()) } else { GeneralName::Directory(vec![]) };
    constrain(rng, scene, below, forbidden);
}

/// Without a DNS name in the leaf's SAN its common names are constrained, with one they aren't.
pub fn common_name(rng: &mut Rng, scene: &mut Scene) {
    let below = if rng.percent(85) { 0 } else { position(rng, scene).min(scene.chain.certificates.len() - 2) };
    let name = random_dns(rng);
    let constraint = if rng.percent(50) { name.clone() } else { random_dns(rng) };
    let cert = &mut scene.chain.certificates[below];
    cert.san_names().retain(|name| !matches!(name, GeneralName::Dns(_)));
    if rng.percent(25) {
        cert.san_names().push(GeneralName::Dns(b"un derived@".to_vec()));
    } else if rng.percent(50) {
        cert.san = None;
    }
    let oid = *rng.pick(&[COMMON_NAME, COMMON_NAME, COMMON_NAME, b"2.5.4.3 ", b"2.5.4.4"]);
    let name_attribute = attribute(oid, &name);
    match rng.below(3) {
        0 => cert.subject.insert(0, vec![name_attribute]),
        1 => cert.subject.iter_mut().for_each(|rdn| rdn.push(name_attribute.clone())),
        _ => cert.subject.push(vec![attribute(UNIT, b"u"), name_attribute]),
    }
    scene.chain.host = None;
    constrain(rng, scene, below, GeneralName::Dns(constraint));
}

/// Rule 16: texts that may not be a constraint, at any position.
pub fn odd_constraint(rng: &mut Rng, scene: &mut Scene) {
    let odd = *rng.pick(&[&b"*"[..], b"", b".", b"..", b"zz.com.", b"zz.com..", b"*.zz.com", b"z*", b".zz.com", b"ZZ"]);
    let at = if rng.percent(20) { 0 } else { authority_position(rng, scene) };
    let nc = scene.chain.certificates[at].constraints();
    let list = if rng.percent(40) { &mut nc.permitted } else { &mut nc.excluded };
    list.push(GeneralName::Dns(odd.to_vec()));
    if rng.percent(20) {
        list.push(GeneralName::Ip(b"*".to_vec()));
    }
}
