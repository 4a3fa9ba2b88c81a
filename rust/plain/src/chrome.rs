//! The rules of the Chrome policy, in document 01's order.

use crate::bundle::*;
use crate::common::*;
use crate::report::{Place, Report};
use crate::text::*;
use field::*;

pub fn judge(chain: &Chain, policy: &Policy, report: &mut Report) {
    let n = chain.len();
    if n < 2 {
        return report.add(1, Place::Nothing);
    }
    let root = n - 1;
    report.each(2, 0..n, |i| is_in_date(&chain.at(i)));
    report.each(3, 0..n, |i| signatures_agree(&chain.at(i)));
    report.each(4, 0..n, |i| uid_has_version(&chain.at(i)));
    report.each(5, 0..n, |i| key_usage_has_a_bit(&chain.at(i)));
    report.each(6, 0..n, |i| is_valid_pki(&chain.at(i)));
    report.each(8, 0..root, |i| extended_key_usage_valid(&chain.at(i)));
    report.each(9, 1..n, |i| is_issuing_ca(&chain.at(i)));
    report.each(10, 0..n, |i| path_is_long_enough(&chain.at(i), i));
    report.each(11, 0..n, |i| alt_name_has_a_name(&chain.at(i)));
    report.each(12, 0..1, |i| empty_subject_has_critical_san(&chain.at(i)));
    for i in 0..root {
        if !likely_issued(&chain.at(i + 1), &chain.at(i)) {
            report.add(13, Place::Pair(i, i + 1));
        }
    }
    check_all_name_constraints(chain, report);
    if let Some(host) = chain.host() {
        report.each(15, 0..1, |i| match_san_domain(policy, &chain.at(i), host));
    }
    report.each(16, 1..root, |i| valid_dns_name_constraints(&chain.at(i)));
    if policy.lists(List::KnownRoots, chain.at(root).string(FINGERPRINT)) && !leaf_duration_valid(&chain.at(0)) {
        report.add(17, Place::Pair(0, root));
    }
    report.each(18, 0..n, |i| not_in_crl(policy, &chain.at(i)));
    report.each(19, root..n, |i| valid_root_fingerprint(policy, &chain.at(i)));
    report.each(20, root..n, |_| !is_bad_symantec_root(policy, chain));
}

/// Rule 6.
fn is_valid_pki(cert: &Certificate) -> bool {
    key_is_long(cert) && cert.word(KEY) != key::DSA
}

/// Rule 8, never asked of the root.
fn extended_key_usage_valid(cert: &Certificate) -> bool {
    has_usage(cert, &[usage::SERVER_AUTH, usage::ANY])
}

/// Rule 14: neither the root's constraints nor an exemption.
fn check_all_name_constraints(chain: &Chain, report: &mut Report) {
    for i in 1..chain.len() - 1 {
        let Some(nc) = chain.at(i).name_constraints() else {
            continue;
        };
        for j in 0..i {
            if !check_name_constraints(&chain.at(j), &nc) {
                report.add(14, Place::Pair(i, j));
            }
        }
    }
}

/// Reading: only the certificate's own subject is skipped when empty.
fn check_name_constraints(cert: &Certificate, nc: &NameConstraints) -> bool {
    let subject = cert.subject();
    (subject.is_empty() || check_directory_name_constraints(cert.chain, nc, subject))
        && cert.subject_alt_name().is_none_or(|names| check_san_name_constraints(cert.chain, nc, names))
}

fn check_directory_name_constraints(chain: &Chain, nc: &NameConstraints, name: Name) -> bool {
    within(nc, kind::DIRECTORY, |row| is_subtree_of(chain, chain.directory(row), name))
}

/// Kind 3 fails under any constraints, even under none; kind 4 always passes.
fn check_san_name_constraints(chain: &Chain, nc: &NameConstraints, names: &[GeneralName]) -> bool {
    names.iter().all(|name| match name[0] {
        kind::DNS => check_dns_name_constraints(chain, nc, clean_name(chain.string(name[1]))),
        kind::DIRECTORY => check_directory_name_constraints(chain, nc, chain.directory(name)),
        kind::IP => check_ip_addr_name_constraints(chain, nc, chain.string(name[1])),
        kind::OTHER => false,
        _ => true,
    })
}

/// The name comes cleaned and is cleaned again: twice in all.
fn check_dns_name_constraints(chain: &Chain, nc: &NameConstraints, name: &[u8]) -> bool {
    let name = clean_name(name);
    within(nc, kind::DNS, |row| permit_name(chain.string(row[1]), name))
}

/// Reading: the constraint is cleaned once, so a constraint of one dot covers everything.
fn permit_name(constraint: &[u8], name: &[u8]) -> bool {
    covers(clean_name(constraint), name)
}

fn check_ip_addr_name_constraints(chain: &Chain, nc: &NameConstraints, addr: &[u8]) -> bool {
    within(nc, kind::IP, |row| ip_addr_in_range(chain.string(row[1]), addr))
}

/// Rule 15. Reading: the host is cleaned, for the public suffix and for the match.
fn match_san_domain(policy: &Policy, cert: &Certificate, host: &[u8]) -> bool {
    cert.subject_alt_name().is_some_and(|names| match_san(policy, cert.chain, names, clean_name(host)))
}

/// Under a public suffix only equal names match, wildcards don't.
fn match_san(policy: &Policy, chain: &Chain, names: &[GeneralName], host: &[u8]) -> bool {
    let mut dns_names = names.iter().filter(|name| name[0] == kind::DNS).map(|name| clean_name(chain.string(name[1])));
    if has_public_suffix(policy, host) {
        dns_names.any(|name| same_lowered(name, host))
    } else {
        dns_names.any(|name| match_name(name, host, same_lowered))
    }
}

fn has_public_suffix(policy: &Policy, host: &[u8]) -> bool {
    lists_domain(policy, List::PublicSuffix, host)
}

/// Domains of a list are taken as they stand; the host is lowered.
fn lists_domain(policy: &Policy, list: List, host: &[u8]) -> bool {
    policy.list(list).any(|domain| match_name(domain, host, is_lowered))
}

/// Rule 16, for positions between leaf and root.
fn valid_dns_name_constraints(cert: &Certificate) -> bool {
    cert.name_constraints().is_none_or(|nc| {
        let mut rows = nc.permitted.iter().chain(nc.excluded);
        rows.all(|row| row[0] != kind::DNS || valid_name_constraint(cert.chain.string(row[1])))
    })
}

fn valid_name_constraint(name: &[u8]) -> bool {
    let name = clean_name(name);
    !name.is_empty() && !name.ends_with(b".") && !name.contains(&b'*')
}

/// Five dates and five spans, in seconds.
struct Calendar;

impl Calendar {
    const JULY_2012: u64 = 1_341_100_800;
    const APRIL_2015: u64 = 1_427_846_400;
    const MARCH_2018: u64 = 1_519_862_400;
    const JULY_2019: u64 = 1_561_939_200;
    const SEP_2020: u64 = 1_598_918_400;
    const TEN_YEARS: u64 = 315_532_800;
    const SIXTY_MONTHS: u64 = 157_852_800;
    const THIRTY_NINE_MONTHS: u64 = 102_643_200;
    const EIGHT_TWENTY_FIVE_DAYS: u64 = 71_280_000;
    const THREE_NINETY_EIGHT_DAYS: u64 = 34_387_200;

    /// How long a certificate may last that begins at this moment.
    fn longest(not_before: u64) -> u64 {
        match not_before {
            ..Self::JULY_2012 => Self::TEN_YEARS,
            Self::JULY_2012..Self::APRIL_2015 => Self::SIXTY_MONTHS,
            Self::APRIL_2015..Self::MARCH_2018 => Self::THIRTY_NINE_MONTHS,
            Self::MARCH_2018..Self::SEP_2020 => Self::EIGHT_TWENTY_FIVE_DAYS,
            _ => Self::THREE_NINETY_EIGHT_DAYS,
        }
    }
}

/// Rule 17. Reading: an end before the beginning breaks it.
fn leaf_duration_valid(cert: &Certificate) -> bool {
    let (from, to) = (cert.word(NOT_BEFORE), cert.word(NOT_AFTER));
    let early_enough = from >= Calendar::JULY_2012 || to < Calendar::JULY_2019;
    early_enough && to.checked_sub(from).is_some_and(|duration| duration <= Calendar::longest(from))
}

/// Rule 18: fingerprints are compared as bytes.
fn not_in_crl(policy: &Policy, cert: &Certificate) -> bool {
    !policy.lists(List::Crl, cert.string(FINGERPRINT))
}

/// Rule 19. Reading: the host is lowered here and not cleaned.
fn valid_root_fingerprint(policy: &Policy, root: &Certificate) -> bool {
    let Some(host) = root.chain.host() else {
        return true;
    };
    let kept =
        |trusted, domains| !policy.lists(trusted, root.string(FINGERPRINT)) || lists_domain(policy, domains, host);
    kept(List::IndiaTrusted, List::IndiaDomains) && kept(List::AnssiTrusted, List::AnssiDomains)
}

/// Rule 20. Reading: with two certificates no position can satisfy it.
fn is_bad_symantec_root(policy: &Policy, chain: &Chain) -> bool {
    let root = chain.len() - 1;
    let listed = |list, i| policy.lists(list, chain.at(i).string(FINGERPRINT));
    listed(List::SymantecRoots, root) && !(1..root).any(|i| listed(List::SymantecExceptions, i))
}
