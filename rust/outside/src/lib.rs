//! Real chains as bundles: PKITS, OpenSSL's own tests and rustls-webpki, with what is expected of each.

use std::path::PathBuf;

/// One chain: its name, what document 01 says of it, its bundle.
pub struct RealChain {
    pub name: String,
    /// "0"; "1" and its entries as `rule,i,j`, a dash for none; or a refusal's number and word.
    pub expected: String,
    pub openssl_said: String,
    pub words: Vec<u64>,
    pub bytes: Vec<u8>,
}

/// One question of OpenSSL's host tests: does this name, as SAN or as CN, stand for this host?
pub struct HostQuestion {
    pub in_san: bool,
    pub name: String,
    pub host: String,
    pub expected: bool,
}

fn data(file: &str) -> PathBuf {
    PathBuf::from(env!("CARGO_MANIFEST_DIR")).join("../../tests/outside").join(file)
}

fn text(file: &str) -> String {
    std::fs::read_to_string(data(file)).expect("the data files stand in tests/outside")
}

pub fn real_chains() -> Vec<RealChain> {
    let records = std::fs::read(data("chains.bin")).expect("the data files stand in tests/outside");
    text("chains.tsv").lines().skip(1).map(|line| real_chain(line, &records)).collect()
}

/// Columns: record, offset, length, suite, case, certificates, host, now, suite's view, OpenSSL's, document 01's.
fn real_chain(line: &str, records: &[u8]) -> RealChain {
    let columns: Vec<&str> = line.split('\t').collect();
    let offset: usize = columns[1].parse().expect("an offset");
    let length: usize = columns[2].parse().expect("a length");
    let (words, bytes) = record(&records[offset..offset + length]);
    RealChain {
        name: format!("{} {}", columns[3], columns[4]),
        expected: columns[10].to_string(),
        openssl_said: columns[9].to_string(),
        words,
        bytes,
    }
}

/// A record: number of words, number of bytes, the words (all little-endian), the bytes.
fn record(record: &[u8]) -> (Vec<u64>, Vec<u8>) {
    let (numbers, _) = record.as_chunks::<8>();
    let number = |at: usize| u64::from_le_bytes(numbers[at]);
    let words = number(0) as usize;
    let bytes = &record[16 + 8 * words..];
    assert_eq!(bytes.len() as u64, number(1), "a record ends with its bytes");
    ((2..2 + words).map(number).collect(), bytes.to_vec())
}

/// Every pair of the listed names, as SAN and as CN; the table lists the pairs that match somewhere.
pub fn host_questions() -> Vec<HostQuestion> {
    let table = text("names.tsv");
    let mut lines = table.lines();
    let names: Vec<&str> = lines.next().expect("a first line of names")[2..].split(' ').collect();
    let listed: Vec<Vec<&str>> = lines.map(|line| line.split('\t').collect()).collect();
    let mut questions = Vec::new();
    for in_san in [true, false] {
        for (name, host) in names.iter().flat_map(|name| names.iter().map(move |host| (*name, *host))) {
            let row = [if in_san { "dns" } else { "cn" }, name, host];
            let expected = listed.iter().any(|columns| columns[..3] == row && columns[4] == "1");
            questions.push(HostQuestion { in_san, name: name.into(), host: host.into(), expected });
        }
    }
    questions
}
