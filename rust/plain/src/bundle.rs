//! The two bundles as they lie in the lent words and bytes. `sound` makes them; reading them copies nothing.

use std::ops::Range;

pub const EDITION: u64 = 1;
pub const MOST_WORDS: usize = 8192;
pub const MOST_BYTES: usize = 65536;
pub const MOST_CERTIFICATES: u64 = 16;

/// Words of the chain's header.
pub mod header {
    pub const WORDS: usize = 16;
    pub const STRINGS: usize = 1;
    pub const ATTRIBUTES: usize = 3;
    pub const RDNS: usize = 5;
    pub const NAMES: usize = 7;
    pub const USAGES: usize = 9;
    pub const CERTIFICATES: usize = 11;
    pub const HOST: usize = 13;
    pub const PURPOSE: usize = 14;
    pub const NOW: usize = 15;
}

/// Words of the policy's header.
pub mod policy_header {
    pub const WORDS: usize = 23;
    pub const STRINGS: usize = 1;
    pub const MEMBERS: usize = 3;
    pub const LISTS: usize = 5;
}

/// Words of a certificate's row.
pub mod field {
    pub const FINGERPRINT: usize = 0;
    pub const VERSION: usize = 1;
    pub const SERIAL: usize = 2;
    pub const OUTER_SIGNATURE: usize = 3;
    pub const INNER_SIGNATURE: usize = 4;
    pub const NOT_BEFORE: usize = 5;
    pub const NOT_AFTER: usize = 6;
    pub const ISSUER: usize = 7;
    pub const SUBJECT: usize = 9;
    pub const KEY: usize = 11;
    pub const RSA_BITS: usize = 12;
    pub const ISSUER_UID: usize = 13;
    pub const SUBJECT_UID: usize = 14;
    pub const AKI: usize = 15;
    pub const AKI_KEY_ID: usize = 16;
    pub const AKI_ISSUER: usize = 17;
    pub const AKI_SERIAL: usize = 18;
    pub const SKI: usize = 19;
    pub const SKI_KEY_ID: usize = 20;
    pub const EKU: usize = 21;
    pub const EKU_USAGES: usize = 22;
    pub const BC: usize = 24;
    pub const BC_CA: usize = 25;
    pub const BC_HAS_PATH: usize = 26;
    pub const BC_PATH: usize = 27;
    pub const KU: usize = 28;
    pub const KU_BITS: usize = 29;
    pub const SAN: usize = 30;
    pub const SAN_NAMES: usize = 31;
    pub const NC: usize = 33;
    pub const NC_PERMITTED: usize = 34;
    pub const NC_EXCLUDED: usize = 36;
    pub const POLICIES: usize = 38;
    pub const AIA: usize = 39;
    pub const ANY_EXTENSIONS: usize = 40;

    /// The nine words that say whether a part is present, and how it is marked.
    pub const MARKS: [usize; 9] = [AKI, SKI, EKU, BC, KU, SAN, NC, POLICIES, AIA];
}

/// A part marked critical.
pub const CRITICAL: u64 = 3;

/// Kinds of a general name.
pub mod kind {
    pub const DNS: u64 = 0;
    pub const DIRECTORY: u64 = 1;
    pub const IP: u64 = 2;
    pub const OTHER: u64 = 3;
    pub const UNSUPPORTED: u64 = 4;
}

/// A row of two words: a string, an attribute or an RDN.
pub type Pair = [u64; 2];
/// A general name: kind, x, y.
pub type GeneralName = [u64; 3];
/// A distinguished name: its RDNs.
pub type Name<'a> = &'a [Pair];

/// A sound chain bundle, cut into its sections.
pub struct Chain<'a> {
    pub bytes: &'a [u8],
    pub strings: &'a [Pair],
    pub attributes: &'a [Pair],
    pub rdns: &'a [Pair],
    pub names: &'a [GeneralName],
    pub usages: &'a [u64],
    pub certificates: &'a [[u64; 41]],
    pub host: u64,
    pub now: u64,
}

impl<'a> Chain<'a> {
    pub fn len(&self) -> usize {
        self.certificates.len()
    }

    pub fn at(&self, position: usize) -> Certificate<'_> {
        Certificate { chain: self, words: &self.certificates[position] }
    }

    pub fn host(&self) -> Option<&'a [u8]> {
        self.optional(self.host)
    }

    pub fn string(&self, number: u64) -> &'a [u8] {
        let [start, length] = self.strings[number as usize];
        &self.bytes[start as usize..(start + length) as usize]
    }

    /// 0 for absent, else a string number plus 1.
    pub fn optional(&self, word: u64) -> Option<&'a [u8]> {
        word.checked_sub(1).map(|number| self.string(number))
    }

    pub fn attributes_of(&self, rdn: &Pair) -> &'a [Pair] {
        &self.attributes[range(rdn[0], rdn[1])]
    }

    /// The directory name that a general name of that kind stands for.
    pub fn directory(&self, name: &GeneralName) -> Name<'a> {
        &self.rdns[range(name[1], name[2])]
    }
}

/// One certificate of a sound chain.
#[derive(Clone, Copy)]
pub struct Certificate<'a> {
    pub chain: &'a Chain<'a>,
    words: &'a [u64; 41],
}

/// The two lists of a certificate's name constraints.
#[derive(Clone, Copy)]
pub struct NameConstraints<'a> {
    pub permitted: &'a [GeneralName],
    pub excluded: &'a [GeneralName],
}

impl<'a> Certificate<'a> {
    pub fn word(&self, field: usize) -> u64 {
        self.words[field]
    }

    pub fn has(&self, field: usize) -> bool {
        self.words[field] != 0
    }

    pub fn string(&self, field: usize) -> &'a [u8] {
        self.chain.string(self.words[field])
    }

    pub fn optional(&self, field: usize) -> Option<&'a [u8]> {
        self.chain.optional(self.words[field])
    }

    pub fn issuer(&self) -> Name<'a> {
        &self.chain.rdns[self.range(field::ISSUER)]
    }

    pub fn subject(&self) -> Name<'a> {
        &self.chain.rdns[self.range(field::SUBJECT)]
    }

    pub fn extended_key_usage(&self) -> Option<&'a [u64]> {
        self.has(field::EKU).then(|| &self.chain.usages[self.range(field::EKU_USAGES)])
    }

    pub fn key_usage(&self) -> Option<u64> {
        self.has(field::KU).then(|| self.word(field::KU_BITS))
    }

    /// Reading: asked wherever basic constraints are present, CA or not. The word is two's complement.
    pub fn path_length(&self) -> Option<i64> {
        (self.has(field::BC) && self.has(field::BC_HAS_PATH)).then(|| self.word(field::BC_PATH) as i64)
    }

    pub fn subject_alt_name(&self) -> Option<&'a [GeneralName]> {
        self.has(field::SAN).then(|| self.general_names(field::SAN_NAMES))
    }

    pub fn name_constraints(&self) -> Option<NameConstraints<'a>> {
        self.has(field::NC).then(|| NameConstraints {
            permitted: self.general_names(field::NC_PERMITTED),
            excluded: self.general_names(field::NC_EXCLUDED),
        })
    }

    fn general_names(&self, field: usize) -> &'a [GeneralName] {
        &self.chain.names[self.range(field)]
    }

    fn range(&self, field: usize) -> Range<usize> {
        range(self.words[field], self.words[field + 1])
    }
}

fn range(first: u64, count: u64) -> Range<usize> {
    first as usize..(first + count) as usize
}

/// The nine lists of Chrome's policy, in the header's order.
#[derive(Clone, Copy)]
pub enum List {
    PublicSuffix,
    Crl,
    KnownRoots,
    SymantecRoots,
    SymantecExceptions,
    IndiaTrusted,
    IndiaDomains,
    AnssiTrusted,
    AnssiDomains,
}

pub const LISTS: usize = 9;

/// A sound policy bundle, cut into its sections.
pub struct Policy<'a> {
    pub bytes: &'a [u8],
    pub strings: &'a [Pair],
    pub members: &'a [u64],
    /// First and count of each list.
    pub lists: &'a [u64],
}

impl<'a> Policy<'a> {
    pub fn list(&self, list: List) -> impl Iterator<Item = &'a [u8]> + '_ {
        let at = 2 * list as usize;
        self.members[range(self.lists[at], self.lists[at + 1])].iter().map(|number| self.string(*number))
    }

    pub fn lists(&self, list: List, text: &[u8]) -> bool {
        self.list(list).any(|entry| entry == text)
    }

    fn string(&self, number: u64) -> &'a [u8] {
        let [start, length] = self.strings[number as usize];
        &self.bytes[start as usize..(start + length) as usize]
    }
}
