//! Wrong variants of the plain judge, each one edit away from it. A good generator tells them all from it.

pub type Openssl = fn(&[u64], &[u8], &mut [u32]) -> [u64; 8];
pub type Chrome = fn(&[u64], &[u8], &[u64], &[u8], &mut [u32]) -> [u64; 8];

pub struct Mutant {
    pub name: &'static str,
    pub judge_openssl: Openssl,
    pub judge_chrome: Chrome,
}

include!(concat!(env!("OUT_DIR"), "/mutants.rs"));
