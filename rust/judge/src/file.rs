//! Bundle files: the count of words, the count of bytes, the words, the bytes. Counts and words have eight bytes each,
//! the low byte first.

use crate::shown;
use std::ffi::OsStr;
use std::fs::File;
use std::io::Read;
use std::path::Path;

/// The most bytes that are read of a file, far more than any bundle has that is not refused.
const MOST_FILE: usize = 1 << 24;

/// The words and bytes of a bundle.
#[derive(Default)]
pub struct Content {
    /// The header and its sections.
    pub words: Vec<u64>,
    /// What the strings are parts of.
    pub bytes: Vec<u8>,
}

/// The content of a bundle file; else one line that says what is wrong with it and how to mend that.
pub fn read(path: impl AsRef<Path>) -> Result<Content, String> {
    let path = path.as_ref();
    let named = shown::plainly(OsStr::as_encoded_bytes(path.as_os_str()));
    let file = bytes_of(path).map_err(|error| format!("{named}: {error}. Give the path of a bundle file."))?;
    decode(&file).map_err(|wrong| format!("{named}: {wrong}. Write it again as samples/README.md says."))
}

fn bytes_of(path: &Path) -> std::io::Result<Vec<u8>> {
    let mut bytes = Vec::new();
    File::open(path)?.take(MOST_FILE as u64 + 1).read_to_end(&mut bytes)?;
    Ok(bytes)
}

/// Finds the words and bytes in a file's bytes, which must hold nothing else.
pub fn decode(file: &[u8]) -> Result<Content, &'static str> {
    if file.len() > MOST_FILE {
        return Err("it is larger than 16 MiB, and no bundle is");
    }
    let Some((counts, rest)) = file.split_at_checked(16) else {
        return Err("it is cut: a bundle file begins with two counts of eight bytes each");
    };
    let [words, bytes] = [0, 8].map(|at| usize::try_from(word_at(counts, at)).ok());
    let cut = "it is cut: its two counts ask for more words and bytes than it has";
    let words_end = words.and_then(|words| words.checked_mul(8)).ok_or(cut)?;
    let (word_bytes, behind) = rest.split_at_checked(words_end).ok_or(cut)?;
    match behind.len().cmp(&bytes.ok_or(cut)?) {
        std::cmp::Ordering::Less => Err(cut),
        std::cmp::Ordering::Greater => Err("it goes on behind the words and bytes that its two counts ask for"),
        std::cmp::Ordering::Equal => {
            let words = (0..words_end).step_by(8).map(|at| word_at(word_bytes, at)).collect();
            Ok(Content { words, bytes: behind.to_vec() })
        }
    }
}

/// The word of eight bytes there.
fn word_at(bytes: &[u8], at: usize) -> u64 {
    bytes[at..at + 8].iter().rev().fold(0, |word, byte| word << 8 | u64::from(*byte))
}
