//! Rules 15 and 19: hosts, the names that stand for them, and the domains of the lists.

use crate::model::*;
use crate::names::*;
use crate::rng::Rng;

fn domain(rng: &mut Rng) -> Text {
    rng.pick(&DOMAINS).as_bytes().to_vec()
}

fn host_under(rng: &mut Rng, domain: &[u8]) -> Text {
    let head = *rng.pick(&[&b""[..], b"x.", b"x.", b"X.", b".", b"x.y.", b"*.", b"xx"]);
    let tail = *rng.pick(&[&b""[..], b"", b"", b".", b".."]);
    match rng.below(16) {
        0 => Text::new(),
        1 => b"*".to_vec(),
        2 => b"*.".to_vec(),
        3 => b"..".to_vec(),
        _ => text(&[head, domain, tail]),
    }
}

fn name_for(rng: &mut Rng, domain: &[u8]) -> Text {
    let head = *rng.pick(&[&b""[..], b"*.", b"*.", b"*.", b"x.", b"*x.", b".", b"x@", b"*.*."]);
    let tail = *rng.pick(&[&b""[..], b"", b"", b".", b"..", b" "]);
    match rng.below(16) {
        0 => Text::new(),
        1 => b"*.".to_vec(),
        2 => b"*..".to_vec(),
        3 => b"*.com".to_vec(),
        4 => b"*".to_vec(),
        _ => text(&[head, domain, tail]),
    }
}

/// A host and a SAN that may name it.
pub fn host_and_names(rng: &mut Rng, scene: &mut Scene) {
    let domain = domain(rng);
    let host = host_under(rng, &domain);
    let leaf = &mut scene.chain.certificates[0];
    let mut names: Vec<_> = (0..rng.between(1, 2)).map(|_| GeneralName::Dns(name_for(rng, &domain))).collect();
    if rng.percent(25) {
        names.push(GeneralName::Dns(host.clone()));
    }
    if rng.percent(15) {
        // The text of another kind names no host, with or without a DNS name beside it.
        names = vec![GeneralName::Ip(host.clone())];
    } else if rng.percent(10) {
        names = vec![GeneralName::Ip(host.clone()), GeneralName::Dns(b"elsewhere.example".to_vec())];
    }
    leaf.san = Some(Part { mark: 3, holds: names });
    scene.chain.host = Some(if rng.percent(40) { other_case(rng, &host) } else { host });
    if rng.percent(50) {
        scene.chain.certificates.iter_mut().for_each(|cert| cert.nc = None);
    }
}

/// Only the common name can name the host, unless a DNS name of the SAN, even a bad one, switches it off.
pub fn common_name_only(rng: &mut Rng, scene: &mut Scene) {
    let domain = domain(rng);
    let host = host_under(rng, &domain);
    let leaf = &mut scene.chain.certificates[0];
    let value = if rng.percent(60) { host.clone() } else { name_for(rng, &domain) };
    let oid = *rng.pick(&[COMMON_NAME, COMMON_NAME, COMMON_NAME, b"2.5.4.3.", b"2.5.4.11"]);
    leaf.subject.insert(0, vec![attribute(UNIT, b""), attribute(oid, &value)]);
    match rng.below(4) {
        0 => leaf.san = None,
        1 => leaf.san = Some(Part { mark: 1, holds: vec![GeneralName::Unsupported] }),
        2 => leaf.san = Some(Part { mark: 2, holds: vec![GeneralName::Dns(b"@".to_vec())] }),
        _ => leaf.san_names().retain(|name| !matches!(name, GeneralName::Dns(_))),
    }
    scene.chain.host = Some(host);
    scene.chain.certificates.iter_mut().for_each(|cert| cert.nc = None);
}

/// Names that are hardly more than dots and stars.
pub fn dots_and_stars(rng: &mut Rng, scene: &mut Scene) {
    let hosts =
        [&b""[..], b".", b"..", b"x.", b"x..", b"x...", b"a.b..", b"*", b"*.", b"*..", b"com", b"x.com", b"x@.com"];
    let names = [&b""[..], b".", b"*", b"*.", b"*..", b"*..", b"*...", b"x.", b"x", b"*.com", b"*.com", b"*.x@.com"];
    scene.chain.host = Some(rng.pick(&hosts).to_vec());
    let names = (0..rng.between(1, 2)).map(|_| GeneralName::Dns(rng.pick(&names).to_vec())).collect();
    scene.chain.certificates[0].san = Some(Part { mark: 3, holds: names });
    scene.chain.certificates.iter_mut().for_each(|cert| cert.nc = None);
    if rng.percent(50) {
        scene.lists[*rng.pick(&[PUBLIC_SUFFIX, INDIA_DOMAINS])].push(b"*.".to_vec());
    }
}

/// A list's domain that may stand for the host.
fn listed_domain(rng: &mut Rng, host: &[u8]) -> Text {
    let parent = host.iter().position(|byte| *byte == b'.').map_or(&b"com"[..], |dot| &host[dot + 1..]);
    let lowered = host.to_ascii_lowercase();
    match rng.below(9) {
        0 => host.to_vec(),
        1 => lowered,
        2 => host.to_ascii_uppercase(),
        3 => text(&[b"*.", &lowered]),
        4 | 5 => text(&[b"*.", &parent.to_ascii_lowercase()]),
        6 => text(&[b"*.", parent, b"."]),
        7 => lowered.strip_suffix(b".").unwrap_or(&lowered).to_vec(),
        _ => b"*.".to_vec(),
    }
}

/// Under a public suffix a wildcard of the SAN doesn't help.
pub fn public_suffix(rng: &mut Rng, scene: &mut Scene) {
    let mut host = scene.chain.host.clone().unwrap_or_else(|| domain(rng));
    if rng.percent(30) {
        host.push(b'.');
    }
    let listed = listed_domain(rng, &host);
    scene.lists[PUBLIC_SUFFIX].push(listed);
    if rng.percent(60) {
        let wildcard = text(&[b"*.", host.strip_suffix(b".").unwrap_or(&host)]);
        scene.chain.certificates[0].san = Some(Part { mark: 3, holds: vec![GeneralName::Dns(wildcard)] });
    }
    scene.chain.host = Some(host);
}

/// A root that is trusted for some domains only.
pub fn bound_root(rng: &mut Rng, scene: &mut Scene) {
    let root = scene.chain.certificates.len() - 1;
    let at = if rng.percent(85) { root } else { rng.index(root) };
    let fingerprint = scene.chain.certificates[at].fingerprint.clone();
    let mut host = scene.chain.host.clone().unwrap_or_else(|| domain(rng));
    if rng.percent(25) {
        host.push(b'.');
    }
    if rng.percent(30) {
        host = other_case(rng, &host);
    }
    let listed = listed_domain(rng, &host);
    for (trusted, domains) in [(INDIA_TRUSTED, INDIA_DOMAINS), (ANSSI_TRUSTED, ANSSI_DOMAINS)] {
        if rng.percent(60) {
            scene.lists[trusted].push(fingerprint.clone());
        }
        if rng.percent(80) {
            scene.lists[domains].push(listed.clone());
        }
    }
    scene.chain.host = rng.percent(90).then_some(host);
}
