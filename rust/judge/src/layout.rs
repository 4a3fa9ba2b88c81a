//! What the words of a bundle are: the header's words, and sections of rows with their fields.

use crate::file::Content;
use std::fmt;
use udrasmil::Bundle;

/// A section: how its rows are called, and the header's word for their count; the next word is its offset.
pub struct Section {
    pub letter: &'static str,
    pub row: &'static str,
    pub count_word: usize,
    /// A name for each word of a row.
    pub fields: &'static [&'static str],
}

/// Parts of the bytes. Both bundles have this section at the same place of their headers.
pub static STRINGS: Section = Section { letter: "S", row: "string", count_word: 1, fields: &["start", "length"] };
/// OIDs with their values.
pub static ATTRIBUTES: Section = Section { letter: "A", row: "attribute", count_word: 3, fields: &["OID", "value"] };
/// Sets of attributes; a distinguished name is a range of them.
pub static RDNS: Section =
    Section { letter: "R", row: "RDN", count_word: 5, fields: &["first attribute", "count of attributes"] };
/// Names in a SAN or an NC. By its kind, x is a string or, with y, a range of RDNs.
pub static NAMES: Section = Section { letter: "G", row: "general name", count_word: 7, fields: &["kind", "x", "y"] };
/// Usages in an EKU.
pub static USAGES: Section = Section { letter: "U", row: "usage", count_word: 9, fields: &["code"] };
/// The chain, the leaf first.
pub static CERTIFICATES: Section = Section { letter: "C", row: "certificate", count_word: 11, fields: &FIELDS };
/// What the lists of a policy are ranges of.
pub static ENTRIES: Section = Section { letter: "L", row: "list entry", count_word: 3, fields: &["string"] };

static CHAIN_SECTIONS: [&Section; 6] = [&STRINGS, &ATTRIBUTES, &RDNS, &NAMES, &USAGES, &CERTIFICATES];
static POLICY_SECTIONS: [&Section; 2] = [&STRINGS, &ENTRIES];

/// The chain header's words behind its sections.
const CHAIN_REST: [&str; 3] = ["host", "purpose", "now"];
/// The chain header's word for the host.
pub const HOST: usize = 13;
/// The chain header's word for the purpose.
pub const PURPOSE: usize = 14;

/// The policy header's lists. Each has a word for its first entry and one for their count.
const LISTS: [&str; 9] = [
    "public_suffix",
    "crl",
    "known_roots",
    "symantec_roots",
    "symantec_exceptions",
    "india_trusted",
    "india_domains",
    "anssi_trusted",
    "anssi_domains",
];
/// The policy header's word for the first list.
pub const FIRST_LIST: usize = 5;

/// The words of a certificate.
static FIELDS: [&str; 41] = [
    "fingerprint",
    "version",
    "serial",
    "outer signature algorithm",
    "inner signature algorithm",
    "not before",
    "not after",
    "first RDN of the issuer",
    "count of the issuer's RDNs",
    "first RDN of the subject",
    "count of the subject's RDNs",
    "kind of the key",
    "RSA bits",
    "issuer UID",
    "subject UID",
    "mark of the AKI",
    "key id of the AKI",
    "issuer of the AKI",
    "serial of the AKI",
    "mark of the SKI",
    "key id of the SKI",
    "mark of the EKU",
    "first usage of the EKU",
    "count of the EKU's usages",
    "mark of the BC",
    "CA of the BC",
    "word for a path length of the BC",
    "path length of the BC",
    "mark of the KU",
    "bits of the KU",
    "mark of the SAN",
    "first name of the SAN",
    "count of the SAN's names",
    "mark of the NC",
    "first permitted name of the NC",
    "count of the NC's permitted names",
    "first excluded name of the NC",
    "count of the NC's excluded names",
    "mark of the policies",
    "mark of the AIA",
    "word for any extensions",
];

/// The words of a certificate that say whether a part is there.
pub const MARKS: [usize; 9] = [15, 19, 21, 24, 28, 30, 33, 38, 39];

/// What a word is: one of the header, or one of a row.
pub enum Spot {
    Header { bundle: Bundle, word: usize },
    Row { section: &'static Section, row: u64, field: usize },
}

/// The words of the header.
pub fn header_words(bundle: Bundle) -> usize {
    match bundle {
        Bundle::Chain => HOST + CHAIN_REST.len(),
        Bundle::Policy => FIRST_LIST + 2 * LISTS.len(),
    }
}

/// The sections of a bundle, in the header's order.
pub fn sections(bundle: Bundle) -> &'static [&'static Section] {
    match bundle {
        Bundle::Chain => &CHAIN_SECTIONS,
        Bundle::Policy => &POLICY_SECTIONS,
    }
}

/// All that a word is: sections may overlap.
pub fn spots(bundle: Bundle, content: &Content, word: usize) -> impl Iterator<Item = Spot> + '_ {
    let header = (word < header_words(bundle)).then_some(Spot::Header { bundle, word });
    header.into_iter().chain(sections(bundle).iter().filter_map(move |section| section.spot(content, word)))
}

impl Section {
    /// The field of this section that a word is, if it is one.
    fn spot(&'static self, content: &Content, word: usize) -> Option<Spot> {
        let inside = (word as u64).checked_sub(content.word(self.count_word + 1))?;
        let row_words = self.fields.len() as u64;
        let (row, field) = (inside / row_words, (inside % row_words) as usize);
        (row < content.word(self.count_word)).then_some(Spot::Row { section: self, row, field })
    }

    /// A word of a row, 0 where there is none.
    pub fn field(&self, content: &Content, row: u64, field: usize) -> u64 {
        let before = row.checked_mul(self.fields.len() as u64);
        let at = before.and_then(|before| content.word(self.count_word + 1).checked_add(before));
        let word = at.and_then(|at| usize::try_from(at).ok()).and_then(|at| at.checked_add(field));
        word.map_or(0, |word| content.word(word))
    }
}

impl Content {
    /// A word of the bundle, 0 past its end.
    pub fn word(&self, at: usize) -> u64 {
        self.words.get(at).copied().unwrap_or(0)
    }

    /// How many rows the header says that a section has.
    pub fn count(&self, section: &Section) -> u64 {
        self.word(section.count_word)
    }

    /// A string by its number, if it is there and lies in the bytes.
    pub fn string(&self, number: u64) -> Option<&[u8]> {
        if number >= self.count(&STRINGS) {
            return None;
        }
        let start = usize::try_from(STRINGS.field(self, number, 0)).ok()?;
        let length = usize::try_from(STRINGS.field(self, number, 1)).ok()?;
        self.bytes.get(start..start.checked_add(length)?)
    }
}

/// In words, with the place in the bundle behind it.
impl fmt::Display for Spot {
    fn fmt(&self, out: &mut fmt::Formatter<'_>) -> fmt::Result {
        match self {
            Spot::Header { bundle, word } => write!(out, "the {} (header)", header_name(*bundle, *word)),
            Spot::Row { section, row, field } => {
                let Section { letter, row: called, fields, .. } = section;
                write!(
                    out,
                    "the {} of {called} {row} (section {letter}, row {row}, word {field} of it)",
                    fields[*field]
                )
            }
        }
    }
}

fn header_name(bundle: Bundle, word: usize) -> String {
    if word == 0 {
        return "edition".into();
    }
    let is_part = |section: &&&Section| (section.count_word..section.count_word + 2).contains(&word);
    if let Some(section) = sections(bundle).iter().find(is_part) {
        let part = if word == section.count_word { "count" } else { "offset" };
        return format!("{part} of section {}, {}s", section.letter, section.row);
    }
    match bundle {
        Bundle::Chain => CHAIN_REST[word - HOST].into(),
        Bundle::Policy => {
            let (list, part) = ((word - FIRST_LIST) / 2, ["first entry", "count"][(word - FIRST_LIST) % 2]);
            format!("{part} of the list {}", LISTS[list])
        }
    }
}
