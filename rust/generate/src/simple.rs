//! A plain chain, always the same, that both policies accept: tests change one thing in it.

use crate::model::*;
use crate::names::{attribute, COMMON_NAME};

pub const NOW: u64 = 1_700_000_000;

/// At least two certificates, without host, constraints or path lengths.
pub fn chain(n: usize) -> Chain {
    Chain { certificates: (0..n).map(|i| certificate(i, n)).collect(), host: None, now: NOW }
}

pub fn lists() -> Lists {
    std::array::from_fn(|_| Vec::new())
}

fn certificate(i: usize, n: usize) -> Certificate {
    let issuer = (i + 1).min(n - 1);
    let key_id = |i: usize| format!("key {i}").into_bytes();
    let aki = AuthorityKey { key_id: Some(key_id(issuer)), ..AuthorityKey::default() };
    let part = |holds| Some(Part { mark: 3, holds });
    Certificate {
        fingerprint: format!("F{i}").into_bytes(),
        version: 2,
        serial: vec![i as u8],
        not_before: NOW - 1000,
        not_after: NOW + 1000,
        issuer: name(issuer),
        subject: name(i),
        key: RSA,
        rsa_bits: 2048,
        aki: Some(Part { mark: 1, holds: aki }),
        ski: Some(Part { mark: 1, holds: key_id(i) }),
        bc: part(BasicConstraints { ca: i > 0, path: None }),
        ..Certificate::default()
    }
}

fn name(i: usize) -> Name {
    vec![vec![attribute(COMMON_NAME, format!("Name {i}").as_bytes())]]
}
