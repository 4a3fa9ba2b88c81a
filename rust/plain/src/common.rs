//! What both policies ask: names, issuing, and the rules on single certificates that they share.

use crate::bundle::*;
use crate::text::*;
use field::*;

/// Bits of the key usage word.
pub mod usage_bit {
    pub const DIGITAL_SIGNATURE: u64 = 1 << 0;
    pub const KEY_ENCIPHERMENT: u64 = 1 << 2;
    pub const KEY_AGREEMENT: u64 = 1 << 4;
    pub const KEY_CERT_SIGN: u64 = 1 << 5;
}

/// Extended key usages that a rule asks for.
pub mod usage {
    pub const SERVER_AUTH: u64 = 0;
    pub const ANY: u64 = 6;
}

/// Keys, as their word numbers them.
pub mod key {
    pub const RSA: u64 = 0;
    pub const DSA: u64 = 1;
}

/// The least size of an RSA key, in bits.
const LEAST_RSA_BITS: u64 = 1024;

// Names. Both policies compare values normalised.

pub fn same_attr(chain: &Chain, one: &Pair, other: &Pair) -> bool {
    chain.string(one[0]) == chain.string(other[0]) && same_normalized(chain.string(one[1]), chain.string(other[1]))
}

/// Attributes are compared in order.
fn same_rdn(chain: &Chain, one: &Pair, other: &Pair) -> bool {
    one[1] == other[1]
        && chain.attributes_of(one).iter().zip(chain.attributes_of(other)).all(|(a, b)| same_attr(chain, a, b))
}

pub fn same_dn(chain: &Chain, one: Name, other: Name) -> bool {
    one.len() == other.len() && one.iter().zip(other).all(|(a, b)| same_rdn(chain, a, b))
}

fn rdn_has_name(chain: &Chain, rdn: &Pair, wanted: &Pair) -> bool {
    chain.attributes_of(rdn).iter().any(|attribute| same_attr(chain, attribute, wanted))
}

/// In any order, and one attribute of the name may serve twice.
fn is_subtree_rdn(chain: &Chain, constraint: &Pair, rdn: &Pair) -> bool {
    constraint[1] <= rdn[1] && chain.attributes_of(constraint).iter().all(|wanted| rdn_has_name(chain, rdn, wanted))
}

pub fn is_subtree_of(chain: &Chain, constraint: Name, name: Name) -> bool {
    constraint.len() <= name.len() && constraint.iter().zip(name).all(|(c, r)| is_subtree_rdn(chain, c, r))
}

/// If some permitted row has the kind, one of them must cover the name; no excluded row of the kind may.
pub fn within(nc: &NameConstraints, kind: u64, covers: impl Fn(&GeneralName) -> bool) -> bool {
    let mut asked = false;
    let mut covered = false;
    for row in nc.permitted.iter().filter(|row| row[0] == kind) {
        asked = true;
        if covers(row) {
            covered = true;
            break;
        }
    }
    (covered || !asked) && !nc.excluded.iter().any(|row| row[0] == kind && covers(row))
}

// The rules on single certificates, as both policies ask them.

/// Rule 2. Reading: both ends count, at every position, though the shown body is strict at the end.
pub fn is_in_date(cert: &Certificate) -> bool {
    let now = cert.chain.now;
    cert.word(NOT_BEFORE) <= now && now <= cert.word(NOT_AFTER)
}

/// Rule 3.
pub fn signatures_agree(cert: &Certificate) -> bool {
    cert.string(INNER_SIGNATURE) == cert.string(OUTER_SIGNATURE)
}

/// Rule 4. Reading: literally the word 2 or 3; an empty UID is still one.
pub fn uid_has_version(cert: &Certificate) -> bool {
    !(cert.has(ISSUER_UID) || cert.has(SUBJECT_UID)) || matches!(cert.word(VERSION), 2 | 3)
}

/// Rule 5.
pub fn key_usage_has_a_bit(cert: &Certificate) -> bool {
    cert.key_usage().is_none_or(|bits| bits != 0)
}

/// Rule 6, the part on RSA.
pub fn key_is_long(cert: &Certificate) -> bool {
    cert.word(KEY) != key::RSA || cert.word(RSA_BITS) >= LEAST_RSA_BITS
}

/// Rule 9, for positions above the leaf.
pub fn is_issuing_ca(cert: &Certificate) -> bool {
    cert.has(BC) && cert.word(BC_CA) == 1 && cert.key_usage().is_none_or(|bits| bits & usage_bit::KEY_CERT_SIGN != 0)
}

/// Rule 10. Reading: the leaf's is compared with zero only.
pub fn path_is_long_enough(cert: &Certificate, position: usize) -> bool {
    let least = position.saturating_sub(1) as i64;
    cert.path_length().is_none_or(|length| length >= least)
}

/// Rule 11. Reading: a name of any kind counts.
pub fn alt_name_has_a_name(cert: &Certificate) -> bool {
    cert.subject_alt_name().is_none_or(|names| !names.is_empty())
}

/// Rule 12, for the leaf. Reading: only the mark is asked, and one RDN without attributes is a subject.
pub fn empty_subject_has_critical_san(cert: &Certificate) -> bool {
    !cert.subject().is_empty() || cert.word(SAN) == CRITICAL
}

pub fn has_usage(cert: &Certificate, wanted: &[u64]) -> bool {
    cert.extended_key_usage().is_none_or(|usages| usages.iter().any(|usage| wanted.contains(usage)))
}

/// Reading: an empty subject with an empty issuer is self-issued.
pub fn is_self_issued(cert: &Certificate) -> bool {
    same_dn(cert.chain, cert.subject(), cert.issuer())
}

/// Rule 13: the issuer stands one above the subject.
pub fn likely_issued(issuer: &Certificate, subject: &Certificate) -> bool {
    same_dn(subject.chain, issuer.subject(), subject.issuer()) && check_auth_key_id(issuer, subject)
}

/// The AKI's issuer field is never compared.
fn check_auth_key_id(issuer: &Certificate, subject: &Certificate) -> bool {
    if !subject.has(AKI) {
        return true;
    }
    let key_id_agrees =
        !issuer.has(SKI) || subject.optional(AKI_KEY_ID).is_none_or(|key_id| key_id == issuer.string(SKI_KEY_ID));
    key_id_agrees && subject.optional(AKI_SERIAL).is_none_or(|serial| serial == issuer.string(SERIAL))
}
