//! The judges that can be compared: the plain one; its mutants and the proved library where they are built in.

use generate::Case;

type Openssl = fn(&[u64], &[u8], &mut [u32]) -> [u64; 8];
type Chrome = fn(&[u64], &[u8], &[u64], &[u8], &mut [u32]) -> [u64; 8];

/// The policy by which a chain is judged.
#[derive(Clone, Copy, Debug, PartialEq, Eq, PartialOrd, Ord)]
pub enum Which {
    Openssl,
    Chrome,
}

pub struct Judge {
    pub name: String,
    pub openssl: Openssl,
    /// None where the proved library is linked without it.
    pub chrome: Option<Chrome>,
}

impl Judge {
    /// The policies by which this judge and the other can both judge.
    pub fn policies(&self, other: &Judge) -> &'static [Which] {
        if self.chrome.is_some() && other.chrome.is_some() {
            &[Which::Openssl, Which::Chrome]
        } else {
            &[Which::Openssl]
        }
    }

    pub fn ask(&self, which: Which, case: &Case, report: &mut [u32]) -> [u64; 8] {
        match which {
            Which::Openssl => (self.openssl)(&case.words, &case.bytes, report),
            Which::Chrome => {
                let chrome = self.chrome.expect("Chrome is asked of a judge that has it");
                chrome(&case.words, &case.bytes, &case.pwords, &case.pbytes, report)
            }
        }
    }
}

pub fn plain() -> Judge {
    Judge { name: "plain".into(), openssl: plain::judge_openssl, chrome: Some(plain::judge_chrome) }
}

#[cfg(feature = "mutants")]
pub fn all_mutants() -> Vec<Judge> {
    let judge = |mutant: &mutants::Mutant| Judge {
        name: mutant.name.into(),
        openssl: mutant.judge_openssl,
        chrome: Some(mutant.judge_chrome),
    };
    mutants::MUTANTS.iter().map(judge).collect()
}

#[cfg(not(feature = "mutants"))]
pub fn all_mutants() -> Vec<Judge> {
    Vec::new()
}

/// "plain", "library", or a mutant's number from 1 on.
pub fn named(name: &str) -> Option<Judge> {
    match name {
        "plain" => Some(plain()),
        "library" => library(),
        number => {
            let at = number.parse::<usize>().ok()?.checked_sub(1)?;
            all_mutants().into_iter().nth(at)
        }
    }
}

#[cfg(feature = "library")]
pub fn library() -> Option<Judge> {
    Some(Judge { name: "library".into(), openssl: udrasmil::raw::openssl, chrome: Some(udrasmil::raw::chrome) })
}

#[cfg(not(feature = "library"))]
pub fn library() -> Option<Judge> {
    None
}
