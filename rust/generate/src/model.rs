//! A chain and its policy lists as values, before they are written as bundles.

pub type Text = Vec<u8>;
pub type Rdn = Vec<Attribute>;
pub type Name = Vec<Rdn>;

#[derive(Clone, PartialEq)]
pub struct Attribute {
    pub oid: Text,
    pub value: Text,
}

#[derive(Clone, PartialEq)]
pub enum GeneralName {
    Dns(Text),
    Directory(Name),
    Ip(Text),
    Other,
    Unsupported,
}

/// A part of a certificate: its mark (1 none, 2 not critical, 3 critical) and what it holds.
#[derive(Clone)]
pub struct Part<T> {
    pub mark: u64,
    pub holds: T,
}

#[derive(Clone, Default)]
pub struct AuthorityKey {
    pub key_id: Option<Text>,
    pub issuer: Option<Text>,
    pub serial: Option<Text>,
}

#[derive(Clone)]
pub struct BasicConstraints {
    pub ca: bool,
    pub path: Option<i64>,
}

#[derive(Clone, Default)]
pub struct NameConstraints {
    pub permitted: Vec<GeneralName>,
    pub excluded: Vec<GeneralName>,
}

/// Keys as their word numbers them.
pub const RSA: u64 = 0;
pub const DSA: u64 = 1;
pub const OTHER_KEY: u64 = 2;

#[derive(Clone, Default)]
pub struct Certificate {
    pub fingerprint: Text,
    pub version: u64,
    pub serial: Text,
    pub outer_signature: Text,
    pub inner_signature: Text,
    pub not_before: u64,
    pub not_after: u64,
    pub issuer: Name,
    pub subject: Name,
    pub key: u64,
    pub rsa_bits: u64,
    pub issuer_uid: Option<Text>,
    pub subject_uid: Option<Text>,
    pub aki: Option<Part<AuthorityKey>>,
    pub ski: Option<Part<Text>>,
    pub eku: Option<Part<Vec<u64>>>,
    pub bc: Option<Part<BasicConstraints>>,
    pub ku: Option<Part<u64>>,
    pub san: Option<Part<Vec<GeneralName>>>,
    pub nc: Option<Part<NameConstraints>>,
    /// Marks alone, 0 for absent.
    pub policies: u64,
    pub aia: u64,
    /// Said even where no part is present.
    pub other_extensions: bool,
}

impl Certificate {
    /// Takes every extension away.
    pub fn strip(&mut self) {
        (self.aki, self.ski, self.eku, self.bc, self.ku) = (None, None, None, None, None);
        (self.san, self.nc) = (None, None);
        (self.policies, self.aia, self.other_extensions) = (0, 0, false);
    }

    /// The names of its SAN, which is made if there is none.
    pub fn san_names(&mut self) -> &mut Vec<GeneralName> {
        &mut self.san.get_or_insert(Part { mark: 1, holds: Vec::new() }).holds
    }

    /// Its constraints, which are made if there are none.
    pub fn constraints(&mut self) -> &mut NameConstraints {
        &mut self.nc.get_or_insert(Part { mark: 3, holds: NameConstraints::default() }).holds
    }
}

pub struct Chain {
    pub certificates: Vec<Certificate>,
    pub host: Option<Text>,
    pub now: u64,
}

/// Chrome's lists, in the order of its `Policy`.
pub const PUBLIC_SUFFIX: usize = 0;
pub const CRL: usize = 1;
pub const KNOWN_ROOTS: usize = 2;
pub const SYMANTEC_ROOTS: usize = 3;
pub const SYMANTEC_EXCEPTIONS: usize = 4;
pub const INDIA_TRUSTED: usize = 5;
pub const INDIA_DOMAINS: usize = 6;
pub const ANSSI_TRUSTED: usize = 7;
pub const ANSSI_DOMAINS: usize = 8;

pub type Lists = [Vec<Text>; 9];

/// What a case is written from.
pub struct Scene {
    pub chain: Chain,
    pub lists: Lists,
}
