//! How a certificate is called: its position, whether it is leaf or root, its common names.

use crate::file::Content;
use crate::layout::{ATTRIBUTES, CERTIFICATES, RDNS};
use crate::shown::quoted;
use udrasmil::Position;

const COMMON_NAME: &[u8] = b"2.5.4.3";
const SUBJECT: usize = 9;

/// For example `0 (leaf, "www.a.com")`.
pub fn called(chain: &Content, position: Position) -> String {
    let at = position.index() as u64;
    let end = match at {
        0 => "leaf, ",
        _ if at + 1 == chain.count(&CERTIFICATES) => "root, ",
        _ => "",
    };
    let names: Vec<String> = common_names(chain, at).map(quoted).collect();
    let names = if names.is_empty() { "no common name".into() } else { names.join(", ") };
    format!("{position} ({end}{names})")
}

/// The common names in a certificate's subject, as far as they can be read.
fn common_names(chain: &Content, certificate: u64) -> impl Iterator<Item = &[u8]> + '_ {
    let of_certificate = move |field| CERTIFICATES.field(chain, certificate, field);
    let rdns = rows(of_certificate(SUBJECT), of_certificate(SUBJECT + 1), chain.count(&RDNS));
    let attributes = rdns.flat_map(move |rdn| {
        let of_rdn = |field| RDNS.field(chain, rdn, field);
        rows(of_rdn(0), of_rdn(1), chain.count(&ATTRIBUTES))
    });
    attributes.filter_map(move |attribute| {
        let text = |field| chain.string(ATTRIBUTES.field(chain, attribute, field));
        text(0).filter(|oid| *oid == COMMON_NAME).and(text(1))
    })
}

/// A range of rows, cut at the count of its section.
fn rows(first: u64, count: u64, rows: u64) -> std::ops::Range<u64> {
    first..first.saturating_add(count).min(rows)
}
