//! Puts words at or past the edge of what a sound bundle may hold. Some of the damage does no harm.

use crate::rng::Rng;
use crate::write::Bundle;

const CHAIN_HEADER: usize = 16;
const POLICY_HEADER: usize = 23;

/// A section: the header's word of its count, and the words of a row.
#[derive(Clone, Copy)]
struct Section {
    count: usize,
    row: usize,
}

const STRINGS: Section = Section { count: 1, row: 2 };
const ATTRIBUTES: Section = Section { count: 3, row: 2 };
const RDNS: Section = Section { count: 5, row: 2 };
const NAMES: Section = Section { count: 7, row: 3 };
const USAGES: Section = Section { count: 9, row: 1 };
const CERTIFICATES: Section = Section { count: 11, row: 41 };
const MEMBERS: Section = Section { count: 3, row: 1 };

/// Fields of a certificate that hold a string's number, one plus 1, a range, or a code with its highest value.
const NUMBERS: [usize; 5] = [0, 2, 3, 4, 20];
const OPTIONALS: [usize; 5] = [13, 14, 16, 17, 18];
const RANGES: [(usize, Section); 6] = [(7, RDNS), (9, RDNS), (22, USAGES), (31, NAMES), (34, NAMES), (36, NAMES)];
const MARKS: [usize; 9] = [15, 19, 21, 24, 28, 30, 33, 38, 39];
const CODES: [(usize, u64); 15] = [
    (1, 0xFFFF_FFFF),
    (11, 2),
    (15, 3),
    (19, 3),
    (21, 3),
    (24, 3),
    (25, 1),
    (26, 1),
    (28, 3),
    (29, 511),
    (30, 3),
    (33, 3),
    (38, 3),
    (39, 3),
    (40, 1),
];

/// Damages one of the bundles or both, once to three times.
pub fn damage(rng: &mut Rng, chain: &mut Bundle, policy: &mut Bundle) {
    for _ in 0..rng.weighted(&[0, 6, 3, 1]) {
        if rng.percent(65) {
            damage_chain(rng, chain);
        } else {
            damage_policy(rng, policy);
        }
    }
}

fn damage_chain(rng: &mut Rng, bundle: &mut Bundle) {
    if bundle.words.len() < CHAIN_HEADER {
        return;
    }
    match rng.weighted(&[4, 2, 6, 4, 3, 3, 5, 2, 16, 5, 3, 2, 2]) {
        0 => damage_size(rng, bundle, CHAIN_HEADER),
        1 => bundle.words[0] = *rng.pick(&[0, 2, u64::MAX, (1 << 32) + 1]),
        2 => {
            let section = *rng.pick(&[STRINGS, ATTRIBUTES, RDNS, NAMES, USAGES, CERTIFICATES]);
            damage_section(rng, bundle, section, CHAIN_HEADER);
        }
        3 => damage_string(rng, bundle),
        4 => damage_attribute(rng, bundle),
        5 => damage_range(rng, bundle, RDNS, 0, ATTRIBUTES),
        6 => damage_name(rng, bundle),
        7 => damage_word(rng, bundle, USAGES, 0, 7),
        8 => damage_certificate(rng, bundle),
        9 => damage_byte(rng, bundle),
        10 => bundle.words[14] = *rng.pick(&[1, 1, 2, u64::MAX]),
        11 => bundle.words[13] = edge(rng, bundle.words[1]),
        _ => bundle.words[11] = *rng.pick(&[16, 17, u64::MAX]),
    }
}

fn damage_policy(rng: &mut Rng, bundle: &mut Bundle) {
    if bundle.words.len() < POLICY_HEADER {
        return;
    }
    match rng.weighted(&[3, 3, 5, 4, 4, 6, 8]) {
        0 => damage_size(rng, bundle, POLICY_HEADER),
        1 => bundle.words[0] = *rng.pick(&[0, 2, u64::MAX, (1 << 32) + 1]),
        2 => {
            let section = *rng.pick(&[STRINGS, MEMBERS]);
            damage_section(rng, bundle, section, POLICY_HEADER);
        }
        3 => damage_string(rng, bundle),
        4 => damage_word(rng, bundle, MEMBERS, 0, bundle.words[1].saturating_sub(1)),
        5 => {
            let list = 5 + 2 * rng.index(9);
            let (first, count) = range_edge(rng, bundle.words[3]);
            bundle.words[list..list + 2].copy_from_slice(&[first, count]);
        }
        _ => damage_byte(rng, bundle),
    }
}

/// Too few words for the header, or just enough; as many words or bytes as are allowed, or one more.
fn damage_size(rng: &mut Rng, bundle: &mut Bundle, header: usize) {
    match rng.below(7) {
        0 => bundle.words.truncate(rng.index(header)),
        1 => bundle.words.truncate(header - 1),
        2 => bundle.words.truncate(header),
        3 => bundle.words.resize(8192, 7),
        4 => bundle.words.resize(8193, 7),
        5 => bundle.bytes.resize(65536, 0xEE),
        _ => bundle.bytes.resize(65537, 0xEE),
    }
}

/// Sections at the header's end and at the words' end, and sums that would wrap.
fn damage_section(rng: &mut Rng, bundle: &mut Bundle, section: Section, header: usize) {
    let (count, offset) = (bundle.words[section.count], bundle.words[section.count + 1]);
    let (len, row, header) = (bundle.words.len() as u64, section.row as u64, header as u64);
    let at_the_end = len.saturating_sub(count.saturating_mul(row));
    let choices = [
        (count, header - 1),
        (0, header - 1),
        (0, header),
        (count, header),
        (0, len),
        (0, len + 1),
        (count, at_the_end),
        (count, at_the_end + 1),
        (count.wrapping_add(1), at_the_end),
        (count, u64::MAX),
        (1, u64::MAX - row + 1),
        (0, u64::MAX),
        // Times 2, times 3 and times 1 these come back to almost nothing in 64 bits.
        (1 << 63, offset),
        (0x5555_5555_5555_5556, offset),
        (0u64.wrapping_sub(offset), offset),
        (u64::MAX, offset),
    ];
    let (count, offset) = *rng.pick(&choices);
    bundle.words[section.count] = count;
    bundle.words[section.count + 1] = offset;
}

/// The word at which some row of a section begins, the last being likelier than the rest.
fn row(rng: &mut Rng, bundle: &Bundle, section: Section) -> Option<usize> {
    let rows = usize::try_from(bundle.words[section.count]).ok().filter(|rows| *rows > 0)?;
    let offset = usize::try_from(bundle.words[section.count + 1]).ok()?;
    let row = if rng.percent(30) { rows - 1 } else { rng.index(rows) };
    let at = offset.checked_add(row.checked_mul(section.row)?)?;
    (at.checked_add(section.row)? <= bundle.words.len()).then_some(at)
}

/// Puts a word of some row at the edge of its highest value.
fn damage_word(rng: &mut Rng, bundle: &mut Bundle, section: Section, word: usize, highest: u64) {
    if let Some(at) = row(rng, bundle, section) {
        bundle.words[at + word] = edge(rng, highest);
    }
}

/// Puts a range of some row at the edge of the section it points into.
fn damage_range(rng: &mut Rng, bundle: &mut Bundle, section: Section, word: usize, into: Section) {
    let (first, count) = range_edge(rng, bundle.words[into.count]);
    if let Some(at) = row(rng, bundle, section) {
        bundle.words[at + word..at + word + 2].copy_from_slice(&[first, count]);
    }
}

fn damage_string(rng: &mut Rng, bundle: &mut Bundle) {
    let (start, length) = range_edge(rng, bundle.bytes.len() as u64);
    if let Some(at) = row(rng, bundle, STRINGS) {
        bundle.words[at..at + 2].copy_from_slice(&[start, length]);
    }
}

fn damage_attribute(rng: &mut Rng, bundle: &mut Bundle) {
    let last = bundle.words[1].saturating_sub(1);
    let word = rng.index(2);
    damage_word(rng, bundle, ATTRIBUTES, word, last);
}

fn damage_name(rng: &mut Rng, bundle: &mut Bundle) {
    let last_string = bundle.words[1].saturating_sub(1);
    match rng.below(4) {
        0 => damage_word(rng, bundle, NAMES, 0, 4),
        1 => damage_word(rng, bundle, NAMES, 1, last_string),
        2 => damage_range(rng, bundle, NAMES, 1, RDNS),
        _ => {
            // What a name of no kind holds isn't read.
            if let Some(at) = row(rng, bundle, NAMES) {
                bundle.words[at..at + 3].copy_from_slice(&[5, u64::MAX, u64::MAX]);
            }
        }
    }
}

fn damage_certificate(rng: &mut Rng, bundle: &mut Bundle) {
    let strings = bundle.words[1];
    match rng.weighted(&[3, 3, 4, 8, 5]) {
        0 => {
            let field = *rng.pick(&NUMBERS);
            damage_word(rng, bundle, CERTIFICATES, field, strings.saturating_sub(1));
        }
        1 => {
            let field = *rng.pick(&OPTIONALS);
            damage_word(rng, bundle, CERTIFICATES, field, strings);
        }
        2 => {
            let (field, into) = *rng.pick(&RANGES);
            damage_range(rng, bundle, CERTIFICATES, field, into);
        }
        3 => {
            let (field, highest) = *rng.pick(&CODES);
            damage_word(rng, bundle, CERTIFICATES, field, highest);
        }
        _ => damage_presence(rng, bundle),
    }
}

/// A part comes or goes, its fields staying as they are; or word 40 forgets the parts.
fn damage_presence(rng: &mut Rng, bundle: &mut Bundle) {
    let Some(at) = row(rng, bundle, CERTIFICATES) else {
        return;
    };
    let mark = *rng.pick(&MARKS);
    match rng.below(4) {
        0 => bundle.words[at + 40] = 0,
        1 => bundle.words[at + mark] = *rng.pick(&[0, 1, 3, 4]),
        2 => {
            // Only one part is left for word 40 to forget.
            MARKS.iter().filter(|other| **other != mark).for_each(|other| bundle.words[at + other] = 0);
            bundle.words[at + 40] = rng.below(2);
        }
        // Above 3 a part counts as present, so what it holds goes before its mark.
        _ => bundle.words[at + mark..at + mark + 2].copy_from_slice(&[4, u64::MAX]),
    }
}

fn damage_byte(rng: &mut Rng, bundle: &mut Bundle) {
    if !bundle.bytes.is_empty() {
        let at = rng.index(bundle.bytes.len());
        bundle.bytes[at] = *rng.pick(&[127, 128, 128, 255]);
    }
}

/// The highest allowed value, one less, one more, or any amount more.
fn edge(rng: &mut Rng, highest: u64) -> u64 {
    let more = highest.saturating_add(1);
    *rng.pick(&[highest, highest.saturating_sub(1), more, more, more, more, u64::MAX, 1 << 63, 0])
}

/// Ranges that end with their section, one further, or only after wrapping around.
fn range_edge(rng: &mut Rng, rows: u64) -> (u64, u64) {
    let last = rows.saturating_sub(1);
    let more = rows.saturating_add(1);
    *rng.pick(&[
        (rows, 0),
        (more, 0),
        (0, rows),
        (0, more),
        (last, 1),
        (last, 2),
        (rows, 1),
        (u64::MAX, 1),
        (u64::MAX, 0),
        (1, u64::MAX),
        (2, u64::MAX),
        (1 << 63, 1 << 63),
    ])
}
