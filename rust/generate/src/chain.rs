//! A chain that both policies accept, with lists to go with it. Twists then move it to the edges.

use crate::model::*;
use crate::names::*;
use crate::rng::Rng;

/// Begin and longest span of each period of Chrome's calendar; the first also has an end.
const PERIODS: [(u64, u64, u64); 5] = [
    (1_000_000_000, 1_341_100_799, 315_532_800),
    (1_341_100_800, 1_427_846_399, 157_852_800),
    (1_427_846_400, 1_519_862_399, 102_643_200),
    (1_519_862_400, 1_598_918_399, 71_280_000),
    (1_598_918_400, 1_900_000_000, 34_387_200),
];
const LAST_OF_THE_FIRST: u64 = 1_561_939_199;

pub fn acceptable(rng: &mut Rng) -> Scene {
    let n = length(rng);
    let domain = rng.pick(&DOMAINS).as_bytes();
    let host = text(&[*rng.pick(&[&b""[..], b"x.", b"www-2."]), domain]);
    let base = base_name(rng);
    let (not_before, not_after) = leaf_dates(rng);
    let now = rng.between(not_before, not_after);
    let mut certificates: Vec<_> = (0..n).map(|i| certificate(rng, i, &base, now)).collect();
    if let Some(leaf) = certificates.first_mut() {
        (leaf.not_before, leaf.not_after) = (not_before, not_after);
        be_a_leaf(rng, leaf, &host, domain);
    }
    join(rng, &mut certificates);
    let spelled_host = if rng.percent(50) { host } else { other_case(rng, &host) };
    let host = rng.percent(80).then_some(spelled_host);
    let lists = lists(rng, &certificates);
    for authority in certificates.iter_mut().skip(1) {
        if rng.percent(30) {
            authority.nc = Some(Part { mark: any_mark(rng), holds: kept_constraints(rng, domain, &base) });
        }
    }
    Scene { chain: Chain { certificates, host, now }, lists }
}

/// From 0 to 16, mostly short.
fn length(rng: &mut Rng) -> usize {
    match rng.weighted(&[1, 1, 18, 35, 20, 20, 4, 1]) {
        small @ 0..=4 => small,
        5 => rng.between(5, 8) as usize,
        6 => rng.between(9, 15) as usize,
        _ => 16,
    }
}

fn leaf_dates(rng: &mut Rng) -> (u64, u64) {
    let period = rng.index(PERIODS.len());
    let (first, last, longest) = PERIODS[period];
    let not_before = match rng.below(5) {
        0 => first,
        1 => last,
        _ => rng.between(first, last),
    };
    let span = if rng.percent(40) { longest } else { rng.between(0, longest) };
    let not_after = not_before + span;
    (not_before, if period == 0 { not_after.min(LAST_OF_THE_FIRST) } else { not_after })
}

fn certificate(rng: &mut Rng, i: usize, base: &Name, now: u64) -> Certificate {
    let signature = identifier(rng, 3);
    let mut subject = base.clone();
    subject.push(vec![attribute(COMMON_NAME, format!("Authority  {i}").as_bytes())]);
    let mut cert = Certificate {
        fingerprint: identifier(rng, 6),
        version: rng.weighted(&[0, 0, 9, 1]) as u64,
        serial: identifier(rng, 2),
        outer_signature: signature.clone(),
        inner_signature: signature,
        not_before: now - rng.below(1000) * 100_000,
        not_after: now + rng.below(1000) * 100_000,
        subject,
        key: *rng.pick(&[RSA, RSA, OTHER_KEY]),
        rsa_bits: *rng.pick(&[1024, 2048, 4096]),
        policies: rng.below(4),
        aia: rng.below(4),
        other_extensions: rng.percent(50),
        ..Certificate::default()
    };
    cert.issuer_uid = rng.percent(5).then(|| identifier(rng, 2));
    cert.subject_uid = rng.percent(5).then(Text::new);
    be_an_authority(rng, &mut cert, i);
    cert
}

fn be_an_authority(rng: &mut Rng, cert: &mut Certificate, i: usize) {
    let usages = rng.pick(&[vec![0], vec![0, 1], vec![6, 0], vec![7, 2, 0, 5]]).clone();
    cert.eku = rng.percent(25).then(|| Part { mark: any_mark(rng), holds: usages });
    let least = i.saturating_sub(1) as i64;
    let path = *rng.pick(&[None, None, Some(least), Some(least + 1), Some(20), Some(i64::MAX)]);
    cert.bc = Some(Part { mark: any_mark(rng), holds: BasicConstraints { ca: true, path } });
    let bits = 32 | (rng.below(512) & rng.below(512));
    cert.ku = rng.percent(70).then(|| Part { mark: any_mark(rng), holds: bits });
    cert.ski = Some(Part { mark: mild_mark(rng), holds: identifier(rng, 4) });
}

/// A leaf is no authority, and its SAN names the host.
fn be_a_leaf(rng: &mut Rng, leaf: &mut Certificate, host: &[u8], domain: &[u8]) {
    leaf.bc = rng.percent(30).then(|| Part { mark: any_mark(rng), holds: BasicConstraints { ca: false, path: None } });
    let bits = *rng.pick(&[1, 4, 16]) | (rng.below(512) & rng.below(512));
    leaf.ku = rng.percent(70).then(|| Part { mark: any_mark(rng), holds: bits });
    if rng.percent(50) {
        leaf.ski = None;
    }
    let wildcard = text(&[b"*.", domain]);
    let named = if rng.percent(50) { host.to_vec() } else { wildcard };
    let mut names = vec![GeneralName::Dns(if rng.percent(50) { named.clone() } else { other_case(rng, &named) })];
    for _ in 0..rng.weighted(&[3, 2, 1]) {
        names.push(kept_name(rng, domain, &leaf.subject));
    }
    rng.shuffle(&mut names);
    leaf.san = Some(Part { mark: any_mark(rng), holds: names });
    if rng.percent(30) {
        let common_name = leaf.subject.last_mut().expect("a subject ends with its common name");
        common_name[0].value = host.to_vec();
    }
}

/// A SAN name that the constraints of `kept_constraints` allow.
fn kept_name(rng: &mut Rng, domain: &[u8], subject: &Name) -> GeneralName {
    match rng.below(6) {
        0 => GeneralName::Dns(domain.to_vec()),
        1 => GeneralName::Dns(text(&[b"deep.under.", domain])),
        2 => GeneralName::Directory(respelled_name(rng, subject)),
        3 => GeneralName::Ip(vec![10, rng.word() as u8, 2, 3]),
        4 => GeneralName::Ip([vec![0x20, 0x01], vec![rng.word() as u8; 14]].concat()),
        _ => GeneralName::Unsupported,
    }
}

/// Constraints that every certificate of the chain keeps.
fn kept_constraints(rng: &mut Rng, domain: &[u8], base: &Name) -> NameConstraints {
    let mut nc = NameConstraints::default();
    let ip_mask = [[10, 0, 0, 0], [255, 0, 0, 0]].concat();
    let long_mask = [vec![0x20, 0x01], vec![0; 14], vec![0xFF; 2], vec![0; 14]].concat();
    if rng.percent(50) {
        nc.permitted.push(GeneralName::Dns(other_case(rng, domain)));
    }
    if rng.percent(40) {
        nc.permitted.push(GeneralName::Directory(respelled_name(rng, base)));
    }
    if rng.percent(40) {
        nc.permitted.extend([GeneralName::Ip(ip_mask), GeneralName::Ip(long_mask)]);
    }
    if rng.percent(40) {
        nc.excluded.push(GeneralName::Dns(b"evil.example".to_vec()));
    }
    if rng.percent(30) {
        nc.excluded.push(GeneralName::Ip([[192, 168, 0, 0], [255, 255, 0, 0]].concat()));
    }
    if rng.percent(30) {
        nc.excluded.push(GeneralName::Directory(vec![vec![attribute(COUNTRY, b"zz")]]));
    }
    if rng.percent(20) {
        nc.excluded.push(rng.pick(&[GeneralName::Other, GeneralName::Unsupported]).clone());
    }
    rng.shuffle(&mut nc.permitted);
    nc
}

/// Each certificate names the next as its issuer; the root names itself.
pub fn join(rng: &mut Rng, certificates: &mut [Certificate]) {
    let n = certificates.len();
    for i in 0..n {
        let issuer = certificates[(i + 1).min(n - 1)].clone();
        let cert = &mut certificates[i];
        cert.issuer = respelled_name(rng, &issuer.subject);
        let key_id = issuer.ski.map(|ski| ski.holds).unwrap_or_default();
        let aki = AuthorityKey {
            key_id: Some(key_id),
            issuer: rng.percent(20).then(|| identifier(rng, 3)),
            serial: rng.percent(20).then_some(issuer.serial),
        };
        if i + 1 < n || rng.percent(50) {
            cert.aki = Some(Part { mark: mild_mark(rng), holds: aki });
        }
    }
}

fn lists(rng: &mut Rng, certificates: &[Certificate]) -> Lists {
    let mut lists: Lists = std::array::from_fn(|_| Vec::new());
    for list in &mut lists {
        *list = (0..rng.below(4)).map(|_| identifier(rng, 6)).collect();
    }
    for domains in [PUBLIC_SUFFIX, INDIA_DOMAINS, ANSSI_DOMAINS] {
        lists[domains] = [&b"com"[..], b"*.us", b"uk", b"*.fr", b""].iter().map(|domain| domain.to_vec()).collect();
        rng.shuffle(&mut lists[domains]);
        lists[domains].truncate(rng.index(5));
    }
    if let Some(root) = certificates.last().filter(|_| rng.percent(50)) {
        lists[KNOWN_ROOTS].push(root.fingerprint.clone());
    }
    lists
}
