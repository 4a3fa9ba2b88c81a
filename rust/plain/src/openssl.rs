//! The rules of the OpenSSL policy, in document 01's order.

use crate::bundle::*;
use crate::common::*;
use crate::report::{Place, Report};
use crate::text::*;
use field::*;

const COMMON_NAME: &[u8] = b"2.5.4.3";

pub fn judge(chain: &Chain, report: &mut Report) {
    let n = chain.len();
    if n < 2 {
        return report.add(1, Place::Nothing);
    }
    report.each(2, 0..n, |i| is_in_date(&chain.at(i)));
    report.each(3, 0..n, |i| signatures_agree(&chain.at(i)));
    report.each(4, 0..n, |i| uid_has_version(&chain.at(i)));
    report.each(5, 0..n, |i| key_usage_has_a_bit(&chain.at(i)));
    report.each(6, 0..n, |i| key_is_long(&chain.at(i)));
    report.each(7, 0..n, |i| check_auth_subject_key_id(&chain.at(i), i == n - 1, i == 0));
    report.each(8, 0..n, |i| check_purpose(&chain.at(i), i == 0));
    report.each(9, 1..n, |i| is_issuing_ca(&chain.at(i)));
    report.each(10, 0..n, |i| path_is_long_enough(&chain.at(i), i));
    report.each(11, 0..n, |i| alt_name_has_a_name(&chain.at(i)));
    report.each(12, 0..1, |i| empty_subject_has_critical_san(&chain.at(i)));
    for i in 0..n - 1 {
        if !likely_issued(&chain.at(i + 1), &chain.at(i)) {
            report.add(13, Place::Pair(i, i + 1));
        }
    }
    check_name_constraints(chain, report);
    if let Some(host) = chain.host() {
        report.each(15, 0..1, |i| check_hostname(&chain.at(i), host));
    }
}

/// Rule 7. Reading: "no extensions" is word 40 of 0; the soundness check ties the nine parts to it.
fn check_auth_subject_key_id(cert: &Certificate, is_root: bool, is_leaf: bool) -> bool {
    if cert.word(AKI) == CRITICAL || cert.word(SKI) == CRITICAL {
        return false;
    }
    if cert.word(VERSION) < 2 {
        return !cert.has(ANY_EXTENSIONS);
    }
    let names_its_issuer = cert.has(AKI) && cert.has(AKI_KEY_ID);
    (is_root || names_its_issuer) && (is_leaf || cert.has(SKI))
}

/// Rule 8. Reading: the usages are asked at every position, the root's too.
fn check_purpose(cert: &Certificate, is_leaf: bool) -> bool {
    use usage_bit::*;
    let for_servers = DIGITAL_SIGNATURE | KEY_ENCIPHERMENT | KEY_AGREEMENT;
    has_usage(cert, &[usage::SERVER_AUTH]) && (!is_leaf || cert.key_usage().is_none_or(|bits| bits & for_servers != 0))
}

/// Rule 14: the root's constraints too; a self-issued certificate is exempt, the leaf and its CN included.
fn check_name_constraints(chain: &Chain, report: &mut Report) {
    let mut exempt = None;
    for i in 1..chain.len() {
        let Some(nc) = chain.at(i).name_constraints() else {
            continue;
        };
        let exempt = *exempt.get_or_insert_with(|| self_issued(chain));
        for j in 0..i {
            if exempt & (1 << j) == 0 && !check_name_constraints_helper(&chain.at(j), &nc, j == 0) {
                report.add(14, Place::Pair(i, j));
            }
        }
    }
}

/// One bit for each certificate that issued itself.
fn self_issued(chain: &Chain) -> u32 {
    (0..chain.len()).filter(|j| is_self_issued(&chain.at(*j))).fold(0, |bits, j| bits | 1 << j)
}

/// Reading: only the certificate's own subject is skipped when empty.
fn check_name_constraints_helper(cert: &Certificate, nc: &NameConstraints, is_leaf: bool) -> bool {
    let chain = cert.chain;
    let subject = cert.subject();
    (subject.is_empty() || directory_within(chain, nc, subject))
        && cert.subject_alt_name().is_none_or(|names| names.iter().all(|name| nc_match(chain, name, nc)))
        && (!is_leaf || check_san_has_dns(cert) || check_common_name_constraints(cert, nc))
}

/// Kind 3 fails under any constraints, even under none; kind 4 always passes.
fn nc_match(chain: &Chain, name: &GeneralName, nc: &NameConstraints) -> bool {
    match name[0] {
        kind::DNS => dns_within(chain, nc, chain.string(name[1])),
        kind::DIRECTORY => directory_within(chain, nc, chain.directory(name)),
        kind::IP => {
            let addr = chain.string(name[1]);
            within(nc, kind::IP, |row| ip_addr_in_range(chain.string(row[1]), addr))
        }
        kind::OTHER => false,
        _ => true,
    }
}

/// Nothing is cleaned here; `covers` doesn't mind case.
fn dns_within(chain: &Chain, nc: &NameConstraints, name: &[u8]) -> bool {
    within(nc, kind::DNS, |row| covers(chain.string(row[1]), name))
}

fn directory_within(chain: &Chain, nc: &NameConstraints, name: Name) -> bool {
    within(nc, kind::DIRECTORY, |row| is_subtree_of(chain, chain.directory(row), name))
}

/// Reading: values are taken raw, as DNS names.
fn check_common_name_constraints(cert: &Certificate, nc: &NameConstraints) -> bool {
    common_names(cert).all(|name| dns_within(cert.chain, nc, name))
}

/// Reading: any DNS name switches the CN off, even one that is no valid pattern.
fn check_san_has_dns(cert: &Certificate) -> bool {
    cert.subject_alt_name().is_some_and(|names| names.iter().any(|name| name[0] == kind::DNS))
}

fn common_names<'a>(cert: &Certificate<'a>) -> impl Iterator<Item = &'a [u8]> + 'a {
    let chain = cert.chain;
    let attributes = cert.subject().iter().flat_map(|rdn| chain.attributes_of(rdn));
    attributes.filter(|[oid, _]| chain.string(*oid) == COMMON_NAME).map(|[_, value]| chain.string(*value))
}

/// Rule 15. Nothing is cleaned; both sides are lowered once the pattern has been found valid.
fn check_hostname(cert: &Certificate, host: &[u8]) -> bool {
    let chain = cert.chain;
    let stands_for_host = |name: &[u8]| check_valid_pattern(name) && match_name(name, host, same_lowered);
    if check_san_has_dns(cert) {
        let mut names = cert.subject_alt_name().unwrap_or(&[]).iter();
        return names.any(|name| name[0] == kind::DNS && stands_for_host(chain.string(name[1])));
    }
    common_names(cert).any(stands_for_host)
}
