//! Document 01's specimens, asked of the proved judge and of the plain one.

use generate::model::*;
use generate::rng::Rng;
use generate::simple;
use generate::write::{self, Bundle, Layout};

const NONE: u32 = 65_535;

fn packed(chain: &Chain) -> Bundle {
    write::chain(&mut Rng::new(0, 0), Layout::Packed, chain)
}

/// The entries that both judges give.
fn both(plain: impl Fn(&mut [u32]) -> [u64; 8], proved: impl Fn(&mut [u32]) -> [u64; 8]) -> Vec<[u32; 3]> {
    let entries = plain::entries(plain);
    assert_eq!(plain::entries(proved), entries, "the proved judge beside the plain one");
    entries
}

fn openssl(chain: &Chain) -> Vec<[u32; 3]> {
    let Bundle { words, bytes } = &packed(chain);
    both(|report| plain::judge_openssl(words, bytes, report), |report| udrasmil::raw::openssl(words, bytes, report))
}

fn chrome(chain: &Chain, lists: &Lists) -> Vec<[u32; 3]> {
    let Bundle { words, bytes } = &packed(chain);
    let policy = write::policy(&mut Rng::new(0, 0), Layout::Packed, lists);
    both(
        |report| plain::judge_chrome(words, bytes, &policy.words, &policy.bytes, report),
        |report| udrasmil::raw::chrome(words, bytes, &policy.words, &policy.bytes, report),
    )
}

#[test]
fn the_simple_chain_is_accepted() {
    for n in 2..=16 {
        assert!(openssl(&simple::chain(n)).is_empty());
        assert!(chrome(&simple::chain(n), &simple::lists()).is_empty());
    }
}

#[test]
fn fewer_than_two_certificates_give_one_entry() {
    let chain = Chain { certificates: vec![], host: None, now: 0 };
    assert_eq!(openssl(&chain), [[1, NONE, NONE]]);
    assert_eq!(packed(&chain).words.len(), 16);
}

/// Whether a leaf with this SAN name stands for this host.
fn named(san: &str, host: &str) -> (bool, bool) {
    let mut chain = simple::chain(2);
    chain.host = Some(host.into());
    chain.certificates[0].san_names().push(GeneralName::Dns(san.into()));
    (openssl(&chain).is_empty(), chrome(&chain, &simple::lists()).is_empty())
}

#[test]
fn wildcards() {
    assert_eq!(named("*.a.com", "a.com"), (true, true));
    assert_eq!(named("*.a.com", "x.a.com"), (true, true));
    assert_eq!(named("*.a.com", "x.y.a.com"), (false, false));
    assert_eq!(named("*.a.com", ".a.com"), (false, false));
    for host in ["", ".", "x.", "x..", "*."] {
        assert!(!named("*..", host).1, "`*..` is cleaned to `*.`, which matches nothing");
    }
    assert_eq!(named("A.com.", "a.COM"), (false, true));
    assert_eq!(named("a.com.", "A.com."), (true, true));
}

/// Whether a leaf with these dates under a known root lasts short enough.
fn lasts(not_before: u64, not_after: u64) -> bool {
    let (mut chain, mut lists) = (simple::chain(2), simple::lists());
    (chain.certificates[0].not_before, chain.certificates[0].not_after) = (not_before, not_after);
    lists[KNOWN_ROOTS].push(chain.certificates[1].fingerprint.clone());
    !chrome(&chain, &lists).contains(&[17, 0, 1])
}

#[test]
fn calendar() {
    assert!(lasts(1_598_918_400, 1_633_305_600));
    assert!(!lasts(1_598_918_400, 1_633_305_601));
    assert!(lasts(1_598_918_399, 1_598_918_399 + 34_387_201));
    assert!(lasts(1_341_100_799, 1_561_939_199));
    assert!(!lasts(1_341_100_799, 1_561_939_200));
    assert!(!lasts(1_598_918_400, 1_598_918_399));
}

/// Whether a SAN name is allowed where just this is permitted.
fn permitted(constraint: GeneralName, name: GeneralName) -> (bool, bool) {
    let mut chain = simple::chain(3);
    chain.certificates[0].san_names().push(name);
    chain.certificates[1].constraints().permitted.push(constraint);
    let entry = [14, 1, 0];
    (!openssl(&chain).contains(&entry), !chrome(&chain, &simple::lists()).contains(&entry))
}

#[test]
fn constraints_on_names() {
    let dns = |text: &str| GeneralName::Dns(text.into());
    assert_eq!(permitted(dns("a.com"), dns("x.a.com")), (true, true));
    assert_eq!(permitted(dns("a.com"), dns("ba.com")), (false, false));
    assert_eq!(permitted(dns(".a.com"), dns("a.com")), (false, false));
    assert_eq!(permitted(dns("a.com"), dns("a.com..")), (false, true));
    assert_eq!(permitted(dns("a.com"), dns("a.com...")), (false, false));
    assert_eq!(permitted(dns("A.com"), dns("x.a.COM")), (true, true));
}

#[test]
fn constraints_on_addresses() {
    let ip = |bytes: &[u8]| GeneralName::Ip(bytes.to_vec());
    let range = ip(&[10, 0, 0, 0, 255, 0, 0, 0]);
    assert_eq!(permitted(range.clone(), ip(&[10, 1, 2, 3])), (true, true));
    assert_eq!(permitted(range.clone(), ip(&[11, 1, 2, 3])), (false, false));
    assert_eq!(permitted(range, ip(&[10; 16])), (false, false));
}

#[test]
fn path_lengths_and_key_sizes() {
    let with_path = |at: usize, path: i64| {
        let mut chain = simple::chain(3);
        chain.certificates[at].bc = Some(Part { mark: 3, holds: BasicConstraints { ca: at > 0, path: Some(path) } });
        openssl(&chain)
    };
    assert!(with_path(2, 1).is_empty());
    assert_eq!(with_path(2, 0), [[10, 2, NONE]]);
    assert_eq!(with_path(0, -1), [[10, 0, NONE]]);
    let mut chain = simple::chain(2);
    chain.certificates[0].rsa_bits = 1024;
    chain.certificates[1].rsa_bits = 1023;
    assert_eq!(openssl(&chain), [[6, 1, NONE]]);
}

#[test]
fn whole_report() {
    let mut chain = simple::chain(2);
    chain.certificates[0].not_after = chain.now - 1;
    chain.certificates[1].rsa_bits = 1000;
    let bundle = packed(&chain);
    for judge in [plain::judge_openssl, udrasmil::raw::openssl] {
        let mut report = [7; 6];
        let answer = judge(&bundle.words, &bundle.bytes, &mut report);
        assert_eq!((answer, report), ([1, 0, 2, 0, 0, 2, 2, 2], [2, 0, NONE, 6, 1, NONE]));
        let mut report = [7; 5];
        let answer = judge(&bundle.words, &bundle.bytes, &mut report);
        assert_eq!((answer, report), ([1, 0, 2, 0, 0, 2, 2, 1], [2, 0, NONE, 7, 7]));
        let answer = judge(&bundle.words, &bundle.bytes, &mut []);
        assert_eq!(answer, [1, 0, 2, 0, 0, 2, 2, 0]);
    }
}

#[test]
fn a_version_1_leaf_needs_no_aki() {
    let mut chain = simple::chain(2);
    chain.certificates[0].strip();
    chain.certificates[0].version = 0;
    assert!(openssl(&chain).is_empty());
}
