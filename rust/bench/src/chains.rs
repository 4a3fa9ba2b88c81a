//! The chains that are timed. Both policies accept each, so that every rule is asked to its end.

use crate::REPORT_WORDS;
use generate::model::*;
use generate::rng::Rng;
use generate::write::{self, Layout};
use generate::Case;

const NOW: u64 = 1_740_000_000;
const DAY: u64 = 86_400;

const COMMON_NAME: &str = "2.5.4.3";
const COUNTRY: &str = "2.5.4.6";
const ORGANISATION: &str = "2.5.4.10";
/// SHA-256 with RSA, as certificates name it.
const SIGNATURE: [u8; 15] = [0x30, 13, 6, 9, 0x2A, 0x86, 0x48, 0x86, 0xF7, 13, 1, 1, 11, 5, 0];
const SERVER_AUTH: u64 = 0;
const CLIENT_AUTH: u64 = 1;
const DIGITAL_SIGNATURE: u64 = 1;
const KEY_ENCIPHERMENT: u64 = 4;
const SIGN_CERTIFICATES_AND_LISTS: u64 = 32 | 64;
const NO_MARK: u64 = 1;
const CRITICAL: u64 = 3;

/// Names in the large SAN, and constraints that they are held against.
const MANY: usize = 300;

/// What is timed, with its name.
pub struct Timed {
    /// As it is printed.
    pub name: &'static str,
    /// The two bundles, and a whole report's room.
    pub case: Case,
}

/// All that is timed.
pub fn all() -> Vec<Timed> {
    let permitted = |count| sites(count, "example.org");
    let excluded = |count| sites(count, "example.net");
    [
        ("3 certificates", chain(3)),
        ("4 certificates", constrained_ca()),
        ("16 certificates", chain(16)),
        ("300 names, 300 permitted", many_names(permitted(MANY), vec![])),
        ("300 names, 300 excluded", many_names(vec![], excluded(MANY))),
        ("300 names, 150 and 150", many_names(permitted(MANY / 2), excluded(MANY / 2))),
    ]
    .into_iter()
    .map(|(name, chain)| Timed { name, case: case(&chain) })
    .collect()
}

fn case(chain: &Chain) -> Case {
    let rng = &mut Rng::new(0, 0);
    let root = &chain.certificates[chain.certificates.len() - 1];
    let bundle = write::chain(rng, Layout::Packed, chain);
    let policy = write::policy(rng, Layout::Packed, &lists(&root.fingerprint));
    Case { words: bundle.words, bytes: bundle.bytes, pwords: policy.words, pbytes: policy.bytes, report: REPORT_WORDS }
}

/// Lists as long as upstream's. The root is the last of the known ones, and nothing else is listed.
fn lists(root: &Text) -> Lists {
    let prints = |kind: usize, count: usize| (0..count).map(|number| fingerprint(1000 * kind + number)).collect();
    let domains = |count: usize| (0..count).map(|number| format!("*.d{number}.uk").into_bytes()).collect();
    let mut known: Vec<Text> = prints(2, 130);
    known.push(root.clone());
    [
        domains(243),
        prints(1, 192),
        known,
        prints(3, 61),
        prints(4, 11),
        prints(5, 3),
        domains(7),
        prints(6, 1),
        domains(13),
    ]
}

/// A chain as servers send it: each certificate is the next one's work, and the leaf names the host and some others.
fn chain(n: usize) -> Chain {
    let mut certificates: Vec<Certificate> = (0..n).map(|i| certificate(i, n)).collect();
    let leaf = &mut certificates[0];
    let names = ["example.org", "static.example.org", "mail.example.org", "www.example.org"];
    leaf.san_names().extend(names.map(dns));
    leaf.subject = vec![named(COMMON_NAME, "www.example.org")];
    leaf.bc = part(CRITICAL, BasicConstraints { ca: false, path: None });
    leaf.ku = part(CRITICAL, DIGITAL_SIGNATURE | KEY_ENCIPHERMENT);
    Chain { certificates, host: Some(b"www.example.org".to_vec()), now: NOW }
}

/// A chain of four in which the lowest CA may only name what is under its owner's domains.
fn constrained_ca() -> Chain {
    let mut chain = chain(4);
    let constraints = chain.certificates[1].constraints();
    constraints.permitted = vec![dns("example.com"), dns("example.org"), GeneralName::Directory(vec![])];
    constraints.excluded = vec![GeneralName::Ip(vec![0; 8]), GeneralName::Ip(vec![0; 32])];
    chain
}

/// A leaf of many names under a CA of many constraints. Permitted constraints cover a like share of the names each.
fn many_names(permitted: Vec<GeneralName>, excluded: Vec<GeneralName>) -> Chain {
    let mut chain = chain(3);
    let sites = permitted.len().max(1);
    let name = |number: usize| dns(&format!("host{number:03}.site{:03}.example.org", number % sites));
    *chain.certificates[0].san_names() = (0..MANY).map(name).collect();
    chain.certificates[0].subject = vec![named(ORGANISATION, "Example")];
    chain.host = Some(format!("host{:03}.site{:03}.example.org", MANY - 1, (MANY - 1) % sites).into_bytes());
    *chain.certificates[1].constraints() = NameConstraints { permitted, excluded };
    chain
}

/// Constraints that differ in their first label.
fn sites(count: usize, domain: &str) -> Vec<GeneralName> {
    (0..count).map(|number| dns(&format!("site{number:03}.{domain}"))).collect()
}

fn certificate(i: usize, n: usize) -> Certificate {
    let issuer = (i + 1).min(n - 1);
    let aki = AuthorityKey { key_id: Some(key_id(issuer)), ..AuthorityKey::default() };
    Certificate {
        fingerprint: fingerprint(i),
        version: 2,
        serial: (0..16).map(|byte| (17 * i + byte) as u8).collect(),
        outer_signature: SIGNATURE.to_vec(),
        inner_signature: SIGNATURE.to_vec(),
        not_before: NOW - 30 * DAY,
        not_after: NOW + 60 * DAY,
        issuer: subject(issuer),
        subject: subject(i),
        key: RSA,
        rsa_bits: 2048,
        aki: part(NO_MARK, aki),
        ski: part(NO_MARK, key_id(i)),
        eku: if i + 1 < n { part(NO_MARK, vec![SERVER_AUTH, CLIENT_AUTH]) } else { None },
        bc: part(CRITICAL, BasicConstraints { ca: true, path: None }),
        ku: part(CRITICAL, SIGN_CERTIFICATES_AND_LISTS),
        policies: NO_MARK,
        aia: NO_MARK,
        other_extensions: true,
        ..Certificate::default()
    }
}

fn subject(i: usize) -> Name {
    let authority = format!("Example Trust Services CA {i}");
    vec![named(COUNTRY, "US"), named(ORGANISATION, "Example Trust Services"), named(COMMON_NAME, &authority)]
}

fn named(oid: &str, value: &str) -> Rdn {
    vec![Attribute { oid: oid.into(), value: value.into() }]
}

fn dns(name: &str) -> GeneralName {
    GeneralName::Dns(name.into())
}

fn part<T>(mark: u64, holds: T) -> Option<Part<T>> {
    Some(Part { mark, holds })
}

fn key_id(i: usize) -> Text {
    (0..20).map(|byte| (31 * i + 7 * byte) as u8).collect()
}

/// 64 digits that differ from the first on.
fn fingerprint(number: usize) -> Text {
    let mixed = (number as u64 + 1).wrapping_mul(0x9E37_79B9_7F4A_7C15);
    format!("{mixed:016X}").repeat(4).into_bytes()
}
