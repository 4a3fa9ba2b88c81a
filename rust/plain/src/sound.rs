//! Soundness: every refusal of document 01, for the chain's bundle and for the policy's.
//!
//! The lowest number wins, then the lowest word, over all sections together: they may overlap and stand in any
//! order. So the rows are walked once, and each fault found is told to a listener, which may keep only the lowest.

use crate::bundle::*;

/// Hears of each fault: its number and its word.
pub trait Listener {
    fn fault(&mut self, number: u64, word: usize);
}

impl Listener for Vec<(u64, usize)> {
    fn fault(&mut self, number: u64, word: usize) {
        self.push((number, word));
    }
}

/// Keeps the fault that the answer names.
#[derive(Default)]
pub struct Lowest(pub Option<(u64, usize)>);

impl Listener for Lowest {
    fn fault(&mut self, number: u64, word: usize) {
        let heard = (number, word);
        if self.0.is_none_or(|lowest| heard < lowest) {
            self.0 = Some(heard);
        }
    }
}

/// A section: the header's word of its count (its offset is the next), and the words of a row.
struct Section {
    count: usize,
    row: u64,
}

const CHAIN_SECTIONS: [Section; 6] = [
    Section { count: header::STRINGS, row: 2 },
    Section { count: header::ATTRIBUTES, row: 2 },
    Section { count: header::RDNS, row: 2 },
    Section { count: header::NAMES, row: 3 },
    Section { count: header::USAGES, row: 1 },
    Section { count: header::CERTIFICATES, row: 41 },
];

const POLICY_SECTIONS: [Section; 2] =
    [Section { count: policy_header::STRINGS, row: 2 }, Section { count: policy_header::MEMBERS, row: 1 }];

/// The chain, if its sections could be cut out; it is sound if no fault was told.
pub fn chain<'a>(words: &'a [u64], bytes: &'a [u8], faults: &mut impl Listener) -> Option<Chain<'a>> {
    let whole = header_stands(words, bytes, header::WORDS, &CHAIN_SECTIONS, faults);
    if words.len() < header::WORDS {
        return None;
    }
    // Reading: the count of certificates is looked at only where the header is whole.
    let few = words[header::CERTIFICATES] <= MOST_CERTIFICATES;
    if !few {
        faults.fault(2, 0);
    }
    if words[header::PURPOSE] != 0 {
        faults.fault(8, header::PURPOSE);
    }
    if !whole || !few {
        return None;
    }
    let chain = cut_chain(words, bytes);
    chain_rows(words, &chain, faults);
    Some(chain)
}

/// The policy, if its sections could be cut out; it is sound if no fault was told.
pub fn policy<'a>(words: &'a [u64], bytes: &'a [u8], faults: &mut impl Listener) -> Option<Policy<'a>> {
    if !header_stands(words, bytes, policy_header::WORDS, &POLICY_SECTIONS, faults) {
        return None;
    }
    let policy = Policy {
        bytes,
        strings: section(words, policy_header::STRINGS),
        members: section::<1>(words, policy_header::MEMBERS).as_flattened(),
        lists: &words[policy_header::LISTS..policy_header::WORDS],
    };
    string_rows(words, bytes, policy.strings, faults);
    member_rows(words, &policy, faults);
    list_ranges(words, &policy, faults);
    Some(policy)
}

/// Refusals 2, 3 and 4, as far as the two bundles share them. False if the sections can't be trusted.
fn header_stands(
    words: &[u64],
    bytes: &[u8],
    header_words: usize,
    sections: &[Section],
    faults: &mut impl Listener,
) -> bool {
    let mut stands = words.len() >= header_words && words.len() <= MOST_WORDS && bytes.len() <= MOST_BYTES;
    if !stands {
        faults.fault(2, 0);
    }
    if words.len() < header_words {
        return false;
    }
    if words[0] != EDITION {
        faults.fault(3, 0);
        stands = false;
    }
    for section in sections {
        let (count, offset) = (words[section.count], words[section.count + 1]);
        // Sums are whole numbers: 128 bits hold every one of them.
        let end = u128::from(offset) + u128::from(count) * u128::from(section.row);
        if offset < header_words as u64 || end > words.len() as u128 {
            faults.fault(4, section.count);
            stands = false;
        }
    }
    stands
}

fn cut_chain<'a>(words: &'a [u64], bytes: &'a [u8]) -> Chain<'a> {
    Chain {
        bytes,
        strings: section(words, header::STRINGS),
        attributes: section(words, header::ATTRIBUTES),
        rdns: section(words, header::RDNS),
        names: section(words, header::NAMES),
        usages: section::<1>(words, header::USAGES).as_flattened(),
        certificates: section(words, header::CERTIFICATES),
        host: words[header::HOST],
        now: words[header::NOW],
    }
}

/// The rows of a section that lies within the words.
fn section<const ROW: usize>(words: &[u64], count: usize) -> &[[u64; ROW]] {
    let (rows, offset) = (words[count] as usize, words[count + 1] as usize);
    words[offset..offset + rows * ROW].as_chunks().0
}

/// The word at which a row of a section begins.
fn row_word(words: &[u64], count: usize, row: usize, size: usize) -> usize {
    words[count + 1] as usize + row * size
}

/// Refusals 5, 6 and 7 in every row, used or not.
fn chain_rows(words: &[u64], chain: &Chain, faults: &mut impl Listener) {
    string_rows(words, chain.bytes, chain.strings, faults);
    attribute_rows(words, chain, faults);
    rdn_rows(words, chain, faults);
    name_rows(words, chain, faults);
    for (row, usage) in chain.usages.iter().enumerate() {
        if *usage > 7 {
            faults.fault(6, row_word(words, header::USAGES, row, 1));
        }
    }
    for (row, certificate) in chain.certificates.iter().enumerate() {
        let at = row_word(words, header::CERTIFICATES, row, 41);
        certificate_numbers(chain, certificate, at, faults);
        certificate_codes(certificate, at, faults);
    }
    host(chain, faults);
}

/// Both bundles have their strings' count in the same header word.
fn string_rows(words: &[u64], bytes: &[u8], strings: &[Pair], faults: &mut impl Listener) {
    for (row, [start, length]) in strings.iter().enumerate() {
        if !range_fits(*start, *length, bytes.len()) {
            faults.fault(5, row_word(words, header::STRINGS, row, 2));
        }
    }
}

fn attribute_rows(words: &[u64], chain: &Chain, faults: &mut impl Listener) {
    for (row, [oid, value]) in chain.attributes.iter().enumerate() {
        let at = row_word(words, header::ATTRIBUTES, row, 2);
        number_fits(*oid, chain.strings.len(), at, faults);
        number_fits(*value, chain.strings.len(), at + 1, faults);
        ascii_only(chain.bytes, chain.strings, *value, at + 1, faults);
    }
}

fn rdn_rows(words: &[u64], chain: &Chain, faults: &mut impl Listener) {
    for (row, [first, count]) in chain.rdns.iter().enumerate() {
        if !range_fits(*first, *count, chain.attributes.len()) {
            faults.fault(5, row_word(words, header::RDNS, row, 2));
        }
    }
}

fn name_rows(words: &[u64], chain: &Chain, faults: &mut impl Listener) {
    for (row, [kind, x, y]) in chain.names.iter().enumerate() {
        let at = row_word(words, header::NAMES, row, 3);
        match *kind {
            kind::DNS => {
                number_fits(*x, chain.strings.len(), at + 1, faults);
                ascii_only(chain.bytes, chain.strings, *x, at + 1, faults);
            }
            kind::DIRECTORY if !range_fits(*x, *y, chain.rdns.len()) => faults.fault(5, at + 1),
            kind::DIRECTORY => {}
            kind::IP => number_fits(*x, chain.strings.len(), at + 1, faults),
            kind::OTHER | kind::UNSUPPORTED => {}
            _ => faults.fault(6, at),
        }
    }
}

/// Refusal 5 in a certificate's row. Fields of an absent part aren't asked; a mark above 3 counts as present.
fn certificate_numbers(chain: &Chain, row: &[u64; 41], at: usize, faults: &mut impl Listener) {
    use field::*;
    let strings = chain.strings.len();
    for number in [FINGERPRINT, SERIAL, OUTER_SIGNATURE, INNER_SIGNATURE] {
        number_fits(row[number], strings, at + number, faults);
    }
    for uid in [ISSUER_UID, SUBJECT_UID] {
        optional_fits(row[uid], strings, at + uid, faults);
    }
    if row[AKI] != 0 {
        for optional in [AKI_KEY_ID, AKI_ISSUER, AKI_SERIAL] {
            optional_fits(row[optional], strings, at + optional, faults);
        }
    }
    if row[SKI] != 0 {
        // Reading: a plain string number, so 0 is string 0.
        number_fits(row[SKI_KEY_ID], strings, at + SKI_KEY_ID, faults);
    }
    let ranges = [
        (true, ISSUER, chain.rdns.len()),
        (true, SUBJECT, chain.rdns.len()),
        (row[EKU] != 0, EKU_USAGES, chain.usages.len()),
        (row[SAN] != 0, SAN_NAMES, chain.names.len()),
        (row[NC] != 0, NC_PERMITTED, chain.names.len()),
        (row[NC] != 0, NC_EXCLUDED, chain.names.len()),
    ];
    for (read, first, rows) in ranges {
        if read && !range_fits(row[first], row[first + 1], rows) {
            faults.fault(5, at + first);
        }
    }
}

/// Refusal 6 in a certificate's row.
fn certificate_codes(row: &[u64; 41], at: usize, faults: &mut impl Listener) {
    use field::*;
    for mark in MARKS {
        code_fits(row[mark], CRITICAL, at + mark, faults);
    }
    code_fits(row[VERSION], u64::from(u32::MAX), at + VERSION, faults);
    code_fits(row[KEY], 2, at + KEY, faults);
    if row[BC] != 0 {
        code_fits(row[BC_CA], 1, at + BC_CA, faults);
        code_fits(row[BC_HAS_PATH], 1, at + BC_HAS_PATH, faults);
    }
    if row[KU] != 0 {
        code_fits(row[KU_BITS], 511, at + KU_BITS, faults);
    }
    let some_part = MARKS.iter().any(|mark| row[*mark] != 0);
    if row[ANY_EXTENSIONS] > 1 || (row[ANY_EXTENSIONS] == 0 && some_part) {
        faults.fault(6, at + ANY_EXTENSIONS);
    }
}

fn host(chain: &Chain, faults: &mut impl Listener) {
    optional_fits(chain.host, chain.strings.len(), header::HOST, faults);
    if chain.host != 0 {
        ascii_only(chain.bytes, chain.strings, chain.host - 1, header::HOST, faults);
    }
}

fn member_rows(words: &[u64], policy: &Policy, faults: &mut impl Listener) {
    for (row, number) in policy.members.iter().enumerate() {
        number_fits(*number, policy.strings.len(), row_word(words, policy_header::MEMBERS, row, 1), faults);
    }
}

/// Reading: only entries inside the three lists of names must be ASCII, and the place is the entry's word.
fn list_ranges(words: &[u64], policy: &Policy, faults: &mut impl Listener) {
    let names = [List::PublicSuffix, List::IndiaDomains, List::AnssiDomains].map(|list| list as usize);
    for list in 0..LISTS {
        let (first, count) = (policy.lists[2 * list], policy.lists[2 * list + 1]);
        if !range_fits(first, count, policy.members.len()) {
            faults.fault(5, policy_header::LISTS + 2 * list);
        } else if names.contains(&list) {
            for row in first as usize..(first + count) as usize {
                let at = row_word(words, policy_header::MEMBERS, row, 1);
                ascii_only(policy.bytes, policy.strings, policy.members[row], at, faults);
            }
        }
    }
}

/// Empty ranges are asked too: one that begins at the end of its section fits, one further doesn't.
fn range_fits(first: u64, count: u64, rows: usize) -> bool {
    first.checked_add(count).is_some_and(|end| end <= rows as u64)
}

fn number_fits(number: u64, rows: usize, word: usize, faults: &mut impl Listener) {
    if number >= rows as u64 {
        faults.fault(5, word);
    }
}

/// 0 for absent, else a number plus 1.
fn optional_fits(number_plus_1: u64, rows: usize, word: usize, faults: &mut impl Listener) {
    if number_plus_1 > rows as u64 {
        faults.fault(5, word);
    }
}

fn code_fits(code: u64, most: u64, word: usize, faults: &mut impl Listener) {
    if code > most {
        faults.fault(6, word);
    }
}

/// Refusal 7. A string that can't be read has been refused as 5, which goes before.
fn ascii_only(bytes: &[u8], strings: &[Pair], number: u64, word: usize, faults: &mut impl Listener) {
    let row = usize::try_from(number).ok().and_then(|at| strings.get(at));
    let text = row.and_then(|[start, length]| {
        let (start, length) = (usize::try_from(*start).ok()?, usize::try_from(*length).ok()?);
        bytes.get(start..start.checked_add(length)?)
    });
    if text.is_some_and(|text| !text.is_ascii()) {
        faults.fault(7, word);
    }
}
