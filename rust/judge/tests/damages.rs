//! Every refusal of a generated bundle is explained by a word that is wrong, and nothing makes the explanation panic.

use generate::rng::Rng;
use generate::{case, Case};
use judge::damage::{damage, Damage};
use judge::file::Content;
use std::collections::BTreeSet;
use udrasmil::{Answer, Bundle, Place, Policy, Refusal, Word};

const SEED: u64 = 20_261_115;
const CASES: u64 = 5000;

/// The refusal of a case by a policy, with the refused bundle's content.
fn refused(policy: Policy, case: Case) -> Option<(Refusal, Bundle, Word, Content)> {
    let Case { words, bytes, pwords, pbytes, .. } = case;
    let answer = match policy {
        Policy::OpenSsl => plain::judge_openssl(&words, &bytes, &mut []),
        Policy::Chrome => plain::judge_chrome(&words, &bytes, &pwords, &pbytes, &mut []),
    };
    let Some(Answer::Refused { refusal, bundle, place: Place::Word(word) }) = Answer::decode(policy, &answer, 0) else {
        return None;
    };
    let content = match bundle {
        Bundle::Chain => Content { words, bytes },
        Bundle::Policy => Content { words: pwords, bytes: pbytes },
    };
    Some((refusal, bundle, word, content))
}

#[test]
fn every_refusal_is_explained() {
    let mut kinds = BTreeSet::new();
    for policy in [Policy::OpenSsl, Policy::Chrome] {
        for index in 0..CASES {
            let Some((refusal, bundle, word, content)) = refused(policy, case(SEED, index)) else {
                continue;
            };
            let found = damage(refusal, bundle, word, &content);
            assert_ne!(found.what, "a word", "case {index}: refusal {refusal} at word {word} of {bundle:?}");
            kinds.insert((bundle == Bundle::Policy, refusal));
        }
    }
    assert_eq!(kinds.len(), 7 + 5, "each refusal of each bundle: {kinds:?}");
}

/// Any question about any bundle has some answer.
#[test]
fn other_questions_are_answered_too() {
    let rng = &mut Rng::new(SEED, 0);
    for index in 0..CASES {
        let Case { words, bytes, .. } = case(SEED, index);
        let content = Content { words, bytes };
        let number = |most| rng.below(most) as u32;
        let [refusal, word, bundle] = [7, 400, 2].map(number);
        let bundle = if bundle == 0 { Bundle::Chain } else { Bundle::Policy };
        let (refusal, word) = (Refusal::new(2 + refusal), Word::new(word));
        let Damage { what, stands, due } = damage(refusal.unwrap(), bundle, word.unwrap(), &content);
        assert!(!what.is_empty() && !stands.is_empty() && !due.is_empty());
    }
}

#[test]
fn one_of_each_kind_in_words() {
    let told = |number, word, words: Vec<u64>, bytes: &[u8]| {
        let content = Content { words, bytes: bytes.to_vec() };
        let Damage { what, stands, due } =
            damage(Refusal::new(number).unwrap(), Bundle::Chain, Word::new(word).unwrap(), &content);
        format!("{what}; {stands}; {due}")
    };
    let header = |changes: &[(usize, u64)], rows: &[u64]| {
        let mut words = vec![1, 0, 16, 0, 16, 0, 16, 0, 16, 0, 16, 0, 16, 0, 0, 0];
        words.extend(rows);
        changes.iter().for_each(|(at, value)| words[*at] = *value);
        words
    };
    assert_eq!(
        told(2, 0, vec![1; 12], &[]),
        "which stands for the whole bundle; a bundle of 12 words; at least 16 words, those of the header"
    );
    assert_eq!(
        told(2, 0, header(&[(11, 17)], &[]), &[]),
        "which stands for the whole bundle; a bundle of 17 certificates, as word 11 counts them; at most 16 certificates"
    );
    assert_eq!(told(3, 0, header(&[(0, 2)], &[]), &[]), "the edition (header); 2; 1");
    assert_eq!(
        told(4, 5, header(&[(5, 1)], &[]), &[]),
        "the count of section R, RDNs (header); 1, and behind it the offset 16; \
         a count and an offset whose rows, 2 words each, begin at word 16 or later and end by word 16"
    );
    assert_eq!(
        told(5, 16, header(&[(1, 1)], &[2, 3]), b"text"),
        "the start of string 0 (section S, row 0, word 0 of it); 2, and behind it the length 3; \
         a start and a length that end within the 4 bytes"
    );
    assert_eq!(
        told(6, 16, header(&[(9, 1)], &[8]), &[]),
        "the code of usage 0 (section U, row 0, word 0 of it); 8; \
         0 server, 1 client, 2 code signing, 3 e-mail, 4 time stamping, 5 OCSP, 6 any, or 7 another"
    );
    assert_eq!(
        told(7, 13, header(&[(1, 1), (13, 1)], &[0, 4]), b"b\xfcro"),
        "the host (header); 1, which names the text \"b\\xfcro\"; the number of a text without bytes over 127"
    );
    assert_eq!(told(8, 14, header(&[(14, 3)], &[]), &[]), "the purpose (header); 3; 0, a server's authentication");
}
