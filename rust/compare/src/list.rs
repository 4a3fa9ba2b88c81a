//! The fixed list of cases, each with a policy and the plain judge's answer, which the program `crates/replay` judges
//! again without Rust.
//!
//! The file is a row of cases. Its numbers have eight bytes each, the low byte first. A case is
//! - the chain's bundle, and then the policy's: the words given, the words with the zeros behind them, the bytes given,
//!   the bytes with the zeros behind them; the words and the bytes given. For OpenSSL the policy's is empty;
//! - three numbers: the policy (0 OpenSSL, 1 Chrome), the words lent for the report, how many words follow;
//! - the eight words of the answer, the words written in the report.

use crate::chosen;
use crate::judge::{plain, Which};
use crate::SEED;
use generate::rng::Rng;
use generate::simple;
use generate::write::{self, Bundle, Layout};
use generate::{case, Case};

/// The lengths of chains that the list has to show. Others only take space.
pub const LENGTHS: [u64; 5] = [0, 1, 2, 3, 16];

/// What a case shows by a policy.
#[derive(Clone, Copy, Debug, PartialEq, Eq, PartialOrd, Ord)]
pub enum Shows {
    Accepted,
    /// A broken rule.
    Broken(u32),
    /// The bundle, 0 chain and 1 policy, and the number.
    Refused(u64, u64),
    /// How many certificates a sound chain has: a few, or as many as there may be.
    Length(u64),
    /// For a report with an entry at least.
    Lent(Room),
}

/// The room for a report: so many words up to six, one too few, just enough, more.
#[derive(Clone, Copy, Debug, PartialEq, Eq, PartialOrd, Ord)]
pub enum Room {
    Few(usize),
    Short,
    Exact,
    More,
}

pub fn shown(which: Which, case: &Case) -> Vec<Shows> {
    let answer = plain().ask(which, case, &mut []);
    let mut shown = match answer[0] {
        0 => vec![Shows::Accepted],
        1 => broken(which, case),
        number => vec![Shows::Refused(answer[1], number)],
    };
    let sound_length = (answer[0] < 2).then(|| case.words[11]);
    shown.extend(sound_length.filter(|length| LENGTHS.contains(length)).map(Shows::Length));
    shown
}

fn broken(which: Which, case: &Case) -> Vec<Shows> {
    let entries = plain::entries(|report| plain().ask(which, case, report));
    let mut rules: Vec<u32> = entries.iter().map(|entry| entry[0]).collect();
    rules.dedup();
    let mut shown: Vec<Shows> = rules.into_iter().map(Shows::Broken).collect();
    let (room, whole) = (case.report, 3 * entries.len());
    shown.extend((room < 7).then_some(Shows::Lent(Room::Few(room))));
    shown.extend((room + 1 == whole).then_some(Shows::Lent(Room::Short)));
    shown.extend((room == whole).then_some(Shows::Lent(Room::Exact)));
    shown.extend((room > whole).then_some(Shows::Lent(Room::More)));
    shown
}

/// The list: bundles without a word, as large as they may be and larger, and the chosen ones of the generated cases.
pub fn cases() -> Vec<(Which, Case)> {
    let by_policy = [(Which::Openssl, chosen::OPENSSL), (Which::Chrome, chosen::CHROME)];
    let generated =
        by_policy.iter().flat_map(|(which, indices)| indices.iter().map(|index| taken(*which, case(SEED, *index))));
    sized().into_iter().chain(generated).collect()
}

/// A case as it stands in the list.
pub fn taken(which: Which, case: Case) -> (Which, Case) {
    match which {
        Which::Openssl => (which, Case { pwords: Vec::new(), pbytes: Vec::new(), ..case }),
        Which::Chrome => (which, case),
    }
}

/// A chain that both policies accept, each bundle once empty, once as long as it may be and once longer.
pub fn sized() -> Vec<(Which, Case)> {
    let sizes: [fn(&mut Bundle); 5] = [
        |bundle| {
            bundle.words.clear();
            bundle.bytes.clear();
        },
        |bundle| bundle.words.resize(8192, 0),
        |bundle| bundle.words.resize(8193, 0),
        |bundle| bundle.bytes.resize(65536, 0),
        |bundle| bundle.bytes.resize(65537, 0),
    ];
    let mut cases = Vec::new();
    for resize in sizes {
        cases.push(taken(Which::Openssl, whole(resize, |_| ())));
        cases.push(taken(Which::Chrome, whole(resize, |_| ())));
        cases.push(taken(Which::Chrome, whole(|_| (), resize)));
    }
    cases
}

fn whole(resize_chain: fn(&mut Bundle), resize_policy: fn(&mut Bundle)) -> Case {
    let rng = &mut Rng::new(SEED, 0);
    let mut chain = write::chain(rng, Layout::Packed, &simple::chain(2));
    let mut policy = write::policy(rng, Layout::Packed, &simple::lists());
    resize_chain(&mut chain);
    resize_policy(&mut policy);
    Case { words: chain.words, bytes: chain.bytes, pwords: policy.words, pbytes: policy.bytes, report: 3 }
}

/// The whole file.
pub fn file() -> Vec<u8> {
    cases().iter().flat_map(|(which, case)| in_file(*which, case)).collect()
}

pub fn in_file(which: Which, case: &Case) -> Vec<u8> {
    let mut report = vec![0; case.report];
    let answer = plain().ask(which, case, &mut report);
    report.truncate(3 * answer[7] as usize);
    let due: Vec<u64> = answer.into_iter().chain(report.into_iter().map(u64::from)).collect();
    let asked = [which as u64, case.report as u64, due.len() as u64];
    let bundles = [bundle(&case.words, &case.bytes), bundle(&case.pwords, &case.pbytes)].concat();
    [bundles, numbers(&asked), numbers(&due)].concat()
}

fn bundle(words: &[u64], bytes: &[u8]) -> Vec<u8> {
    let (given, given_bytes) = (without_zeros(words), without_zeros(bytes));
    let counts = [given.len(), words.len(), given_bytes.len(), bytes.len()].map(|count| count as u64);
    [numbers(&counts), numbers(given), given_bytes.to_vec()].concat()
}

fn numbers(numbers: &[u64]) -> Vec<u8> {
    numbers.iter().flat_map(|number| number.to_le_bytes()).collect()
}

fn without_zeros<T: Copy + Into<u64>>(values: &[T]) -> &[T] {
    let last = values.iter().rposition(|value| (*value).into() != 0);
    &values[..last.map_or(0, |last| last + 1)]
}

/// What the program `replay` has to write: how many cases there are by policy and answer, and how many in all.
pub fn output() -> String {
    let mut counts = [[0; 9]; 3];
    for (which, case) in cases() {
        let answer = plain().ask(which, &case, &mut []);
        counts[which as usize + answer[1] as usize][answer[0] as usize] += 1;
    }
    let names = ["OpenSSL", "Chrome", "Chrome on the policy"];
    let rows = names.iter().zip(counts).flat_map(|(name, counts)| {
        counts.into_iter().enumerate().map(move |(number, count)| format!("{name} {number}: {count}\n"))
    });
    rows.collect::<String>() + &format!("cases: {}\n", cases().len())
}
