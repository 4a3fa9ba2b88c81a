//! Texts and names, and respellings that mean the same.

use crate::model::*;
use crate::rng::Rng;

pub const COUNTRY: &[u8] = b"2.5.4.6";
pub const ORGANISATION: &[u8] = b"2.5.4.10";
pub const UNIT: &[u8] = b"2.5.4.11";
pub const COMMON_NAME: &[u8] = b"2.5.4.3";

/// Domains under which the leaves' names stand.
pub const DOMAINS: [&str; 5] = ["a.com", "example.org", "shop.b.net", "x-1.co.uk", "a_b.gov.in"];

pub fn text(parts: &[&[u8]]) -> Text {
    parts.concat()
}

pub fn attribute(oid: &[u8], value: &[u8]) -> Attribute {
    Attribute { oid: oid.to_vec(), value: value.to_vec() }
}

/// Some letters in the other case.
pub fn other_case(rng: &mut Rng, text: &[u8]) -> Text {
    let flip = |byte: &u8| if byte.is_ascii_alphabetic() && rng.percent(40) { byte ^ 32 } else { *byte };
    text.iter().map(flip).collect()
}

/// The same value once normalised: case, outer spaces and runs of spaces differ.
pub fn respelled(rng: &mut Rng, value: &[u8]) -> Text {
    let mut out = vec![b' '; rng.weighted(&[6, 1, 1])];
    for byte in other_case(rng, value) {
        out.push(byte);
        if byte == b' ' && rng.percent(50) {
            out.push(b' ');
        }
    }
    out.resize(out.len() + rng.weighted(&[6, 1, 1]), b' ');
    out
}

/// The same name, most often spelled the same way.
pub fn respelled_name(rng: &mut Rng, name: &Name) -> Name {
    let mut out = name.clone();
    if rng.percent(60) {
        return out;
    }
    for attribute in out.iter_mut().flatten() {
        attribute.value = respelled(rng, &attribute.value);
    }
    out
}

/// What all subjects of a chain begin with.
pub fn base_name(rng: &mut Rng) -> Name {
    let country = attribute(COUNTRY, rng.pick(&["DE", "us", "Fr"]).as_bytes());
    let organisation = attribute(ORGANISATION, rng.pick(&["Acme Corp", "b", "Two  Words Ltd"]).as_bytes());
    let unit = attribute(UNIT, rng.pick(&["web", "", "Main Office"]).as_bytes());
    match rng.below(4) {
        0 => vec![vec![country]],
        1 => vec![vec![country], vec![organisation, unit]],
        2 => vec![vec![country, organisation]],
        _ => vec![vec![country], vec![organisation], vec![unit]],
    }
}

/// A fingerprint or key id: any bytes will do.
pub fn identifier(rng: &mut Rng, length: usize) -> Text {
    (0..length).map(|_| if rng.percent(80) { *rng.pick(b"0123456789ABCDEF") } else { rng.word() as u8 }).collect()
}

/// A mark that doesn't say critical.
pub fn mild_mark(rng: &mut Rng) -> u64 {
    rng.between(1, 2)
}

pub fn any_mark(rng: &mut Rng) -> u64 {
    rng.between(1, 3)
}
