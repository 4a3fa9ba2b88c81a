//! What is wrong with a refused bundle: what the damaged word is, what stands there and what should stand there.

use crate::file::Content;
use crate::layout::*;
use crate::shown::quoted;
use udrasmil::{Bundle, Refusal, Word};

const MOST_WORDS: usize = 8192;
const MOST_BYTES: usize = 65_536;
const MOST_CERTIFICATES: u64 = 16;
const MOST_VERSION: u64 = u32::MAX as u64;

/// Three texts for a reader who has the bundle's form at hand.
#[derive(Debug, PartialEq)]
pub struct Damage {
    /// What the word is.
    pub what: String,
    /// What stands there.
    pub stands: String,
    /// What should stand there.
    pub due: String,
}

/// What stands in a damaged word, and what should.
type Wrong = (String, String);

/// The damage for which a bundle was refused at a word.
pub fn damage(refusal: Refusal, bundle: Bundle, word: Word, content: &Content) -> Damage {
    let found = match refusal.number() {
        2 => wrong_size(bundle, content),
        _ => spots(bundle, content, word.index()).find_map(|spot| {
            let (stands, due) = wrong(refusal, content, &spot)?;
            Some(Damage { what: spot.to_string(), stands, due })
        }),
    };
    // A bundle that was refused there has such a fault; if another one is asked about, the refusal's sentence must do.
    found.unwrap_or_else(|| Damage {
        what: "a word".into(),
        stands: content.word(word.index()).to_string(),
        due: format!("something else: {}", refusal.sentence()),
    })
}

/// Refusal 2, which names word 0 for the whole bundle.
fn wrong_size(bundle: Bundle, content: &Content) -> Option<Damage> {
    let (words, bytes, certificates) = (content.words.len(), content.bytes.len(), content.count(&CERTIFICATES));
    let header = header_words(bundle);
    let (stands, due) = if words < header {
        (format!("a bundle of {words} words"), format!("at least {header} words, those of the header"))
    } else if words > MOST_WORDS {
        (format!("a bundle of {words} words"), format!("at most {MOST_WORDS} words"))
    } else if bytes > MOST_BYTES {
        (format!("a bundle of {bytes} bytes"), format!("at most {MOST_BYTES} bytes"))
    } else if bundle == Bundle::Chain && certificates > MOST_CERTIFICATES {
        let count_word = CERTIFICATES.count_word;
        let stands = format!("a bundle of {certificates} certificates, as word {count_word} counts them");
        (stands, format!("at most {MOST_CERTIFICATES} certificates"))
    } else {
        return None;
    };
    Some(Damage { what: "which stands for the whole bundle".into(), stands, due })
}

/// What is wrong with a word of the bundle by this refusal, if it is wrong.
fn wrong(refusal: Refusal, content: &Content, spot: &Spot) -> Option<Wrong> {
    let value = content.at(spot);
    match (refusal.number(), spot) {
        (3, Spot::Header { word: 0, .. }) => Some((value.to_string(), "1".into())),
        (4, Spot::Header { bundle, word }) => misplaced(*bundle, content, *word),
        (5, spot) => outside(content, value, content.at_next(spot), &target(content, spot)?),
        (6, spot) => over(content, value, spot),
        (7, spot) => high(content, value, spot),
        (8, Spot::Header { word: PURPOSE, .. }) => Some((value.to_string(), "0, a server's authentication".into())),
        _ => None,
    }
}

/// Refusal 4: the word is a section's count.
fn misplaced(bundle: Bundle, content: &Content, word: usize) -> Option<Wrong> {
    let section = sections(bundle).iter().find(|section| section.count_word == word)?;
    let (count, offset) = (content.word(word), content.word(word + 1));
    let (header, words, row) = (header_words(bundle), content.words.len(), section.fields.len());
    let end = u128::from(offset) + u128::from(count) * row as u128;
    let is_wrong = offset < header as u64 || end > words as u128;
    let stands = format!("{count}, and behind it the offset {offset}");
    let each = if row == 1 { "a word" } else { &format!("{row} words") };
    let due = format!(
        "a count and an offset whose rows, {each} each, begin at word {header} or later and end by word {words}"
    );
    is_wrong.then_some((stands, due))
}

/// What a word points to.
enum Target {
    /// With the next word a part of the bytes.
    Bytes,
    /// A string.
    Number,
    /// 0 for none, else a string's number plus 1.
    Optional,
    /// With the next word a range of rows.
    Range(&'static Section),
}

/// Nothing where the word is not read, or does not point.
fn target(content: &Content, spot: &Spot) -> Option<Target> {
    let (section, row, field) = match *spot {
        Spot::Header { bundle: Bundle::Chain, word: HOST } => return Some(Target::Optional),
        Spot::Header { bundle: Bundle::Policy, word } => {
            let begins_a_list = word >= FIRST_LIST && (word - FIRST_LIST).is_multiple_of(2);
            return begins_a_list.then_some(Target::Range(&ENTRIES));
        }
        Spot::Header { .. } => return None,
        Spot::Row { section, row, field } => (section, row, field),
    };
    match (section.letter, field) {
        ("S", 0) => Some(Target::Bytes),
        ("A" | "L", _) => Some(Target::Number),
        ("R", 0) => Some(Target::Range(&ATTRIBUTES)),
        ("G", 1) => match NAMES.field(content, row, 0) {
            0 | 2 => Some(Target::Number),
            1 => Some(Target::Range(&RDNS)),
            _ => None,
        },
        ("C", field) => target_of_certificate(content, row, field),
        _ => None,
    }
}

fn target_of_certificate(content: &Content, row: u64, field: usize) -> Option<Target> {
    let with = |mark: usize, target| (CERTIFICATES.field(content, row, mark) != 0).then_some(target);
    match field {
        0 | 2..=4 => Some(Target::Number),
        7 | 9 => Some(Target::Range(&RDNS)),
        13 | 14 => Some(Target::Optional),
        16..=18 => with(15, Target::Optional),
        20 => with(19, Target::Number),
        22 => with(21, Target::Range(&USAGES)),
        31 => with(30, Target::Range(&NAMES)),
        34 | 36 => with(33, Target::Range(&NAMES)),
        _ => None,
    }
}

/// Refusal 5: the word, with the next one if it begins a range, points outside.
fn outside(content: &Content, value: u64, next: u64, target: &Target) -> Option<Wrong> {
    let strings = content.count(&STRINGS);
    let ends_past = |limit: u64| value.checked_add(next).is_none_or(|end| end > limit);
    let (is_wrong, stands, due) = match target {
        Target::Bytes => {
            let bytes = content.bytes.len();
            let due = format!("a start and a length that end within the {bytes} bytes");
            (ends_past(bytes as u64), format!("{value}, and behind it the length {next}"), due)
        }
        Target::Number => (value >= strings, value.to_string(), format!("the number of a string, below {strings}")),
        Target::Optional => {
            let due = format!("0 for none, or the number of a string plus 1, at most {strings}");
            (value > strings, value.to_string(), due)
        }
        Target::Range(section) => {
            let count = content.count(section);
            let due = format!(
                "a first {} and a count that end within the {count} of section {}",
                section.row, section.letter
            );
            (ends_past(count), format!("{value}, and behind it the count {next}"), due)
        }
    };
    is_wrong.then_some((stands, due))
}

/// Refusal 6: a code above its range, or extensions denied that are there.
fn over(content: &Content, value: u64, spot: &Spot) -> Option<Wrong> {
    let Spot::Row { section, row, field } = *spot else {
        return None;
    };
    let of_row = |field| section.field(content, row, field);
    let (most, due) = match (section.letter, field) {
        ("G", 0) => (4, "0 DNS name, 1 directory name, 2 IP address, 3 another, or 4 an unsupported one"),
        ("U", _) => (7, "0 server, 1 client, 2 code signing, 3 e-mail, 4 time stamping, 5 OCSP, 6 any, or 7 another"),
        ("C", 1) => (MOST_VERSION, "a version of at most 32 bits; 2 is X.509 version 3"),
        ("C", 11) => (2, "0 RSA, 1 DSA, or 2 another"),
        ("C", 25 | 26) if of_row(24) != 0 => (1, "0 no, or 1 yes"),
        ("C", 29) if of_row(28) != 0 => (511, "the sum of the usages' bits, at most 511"),
        ("C", 40) if value == 0 && MARKS.iter().any(|mark| of_row(*mark) != 0) => {
            return Some(("0, no extensions".into(), "1, since a part of this certificate is there".into()));
        }
        ("C", 40) => (1, "0 no, or 1 yes"),
        ("C", mark) if MARKS.contains(&mark) => (3, "0 absent, 1 no critical mark, 2 not critical, or 3 critical"),
        _ => return None,
    };
    (value > most).then(|| (value.to_string(), due.into()))
}

/// Refusal 7: the word names a text that has a byte over 127.
fn high(content: &Content, value: u64, spot: &Spot) -> Option<Wrong> {
    let number = match spot {
        Spot::Header { bundle: Bundle::Chain, word: HOST } => value.checked_sub(1)?,
        Spot::Row { section, row, field } => match (section.letter, field) {
            ("A", 1) | ("L", _) => value,
            ("G", 1) if NAMES.field(content, *row, 0) == 0 => value,
            _ => return None,
        },
        Spot::Header { .. } => return None,
    };
    let text = content.string(number).filter(|text| !text.is_ascii())?;
    let stands = format!("{value}, which names the text {}", quoted(text));
    Some((stands, "the number of a text without bytes over 127".into()))
}

impl Content {
    /// The word of a spot.
    fn at(&self, spot: &Spot) -> u64 {
        match *spot {
            Spot::Header { word, .. } => self.word(word),
            Spot::Row { section, row, field } => section.field(self, row, field),
        }
    }

    /// The word behind that of a spot.
    fn at_next(&self, spot: &Spot) -> u64 {
        match *spot {
            Spot::Header { word, .. } => self.word(word + 1),
            Spot::Row { section, row, field } => section.field(self, row, field + 1),
        }
    }
}
