//! Rules and refusals in plain words, for whoever has to explain an answer.

use crate::numbers::{Policy, Refusal, Rule};

impl Rule {
    /// What the rule asks by this policy. "The first" and "the second" are the two certificates of an entry.
    pub fn sentence(self, policy: Policy) -> &'static str {
        match (self.number(), policy) {
            (1, _) => "a chain must have at least two certificates",
            (2, _) => "the certificate must be in date",
            (3, _) => "the signature algorithm named inside the certificate and the one named outside must be equal",
            (4, _) => "only a certificate with version word 2 or 3 may have an issuer UID or a subject UID",
            (5, _) => "a key usage must have at least one bit",
            (6, Policy::OpenSsl) => "an RSA key must have at least 1024 bits",
            (6, Policy::Chrome) => "an RSA key must have at least 1024 bits, and a DSA key is not allowed",
            (7, _) => "the key ids of issuer and certificate must be there where they are due, and not critical",
            (8, Policy::OpenSsl) => "the key's usages must allow a server's authentication",
            (8, Policy::Chrome) => "the extended key usages must allow a server's authentication, or any use",
            (9, _) => "a certificate above the leaf must be a CA, and its key usage must allow signing certificates",
            (10, _) => "a path length must not be negative, nor less than the number of certificates down to the leaf",
            (11, _) => "a list of alternative names must not be empty",
            (12, _) => "a leaf with an empty subject needs critical alternative names",
            (13, _) => "the first must name the second as its issuer, and key id and serial must agree",
            (14, _) => "the names of the second must keep to the name constraints of the first",
            (15, _) => "the leaf must name the host",
            (16, _) => "a DNS name in the name constraints must not be empty, end with a dot or have a star",
            (17, _) => "under a root that Chrome knows, the time from the leaf's first day to its last is limited",
            (18, _) => "the certificate must not be on the list of revoked ones",
            (19, _) => "a root that is trusted for some domains only must have one of them as the host",
            (20, _) => "under a Symantec root, a certificate between leaf and root must be on the list of exceptions",
            _ => unreachable!("rules have the numbers 1 to 20"),
        }
    }
}

impl Refusal {
    /// What is wrong with the bundle.
    pub fn sentence(self) -> &'static str {
        match self.number() {
            2 => "the bundle is too small or too large",
            3 => "the edition is not 1",
            4 => "a section begins in the header or ends past the words",
            5 => "a number or a range points outside of its section or of the bytes",
            6 => "a code is above its range, or extensions are denied that are there",
            7 => "a text has a byte over 127",
            8 => "the purpose is not 0, a server's authentication",
            _ => unreachable!("refusals have the numbers 2 to 8"),
        }
    }
}
