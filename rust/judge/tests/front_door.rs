//! The program as a person meets it: its words on the samples, and one line for whatever can't be judged.

use generate::model::Attribute;
use generate::rng::Rng;
use generate::simple;
use generate::write::{self, Layout};
use std::ffi::OsStr;
use std::path::{Path, PathBuf};
use std::process::Command;

/// What the program said, and its status.
#[derive(Debug, PartialEq)]
struct Outcome {
    text: String,
    trouble: String,
    status: i32,
}

fn judge<A: AsRef<OsStr>>(arguments: &[A]) -> Outcome {
    let output = Command::new(env!("CARGO_BIN_EXE_judge")).args(arguments).output().expect("the program runs");
    Outcome {
        text: String::from_utf8(output.stdout).expect("printable"),
        trouble: String::from_utf8(output.stderr).expect("printable"),
        status: output.status.code().expect("a status"),
    }
}

fn sample(name: &str) -> String {
    format!("{}/../../samples/{name}.bundle", env!("CARGO_MANIFEST_DIR"))
}

/// A file of this test's own.
fn written(name: &str, content: &[u8]) -> PathBuf {
    let path = Path::new(env!("CARGO_TARGET_TMPDIR")).join(name);
    std::fs::write(&path, content).expect("the file can be written");
    path
}

/// A bundle in its file form.
fn filed(words: &[u64], bytes: &[u8]) -> Vec<u8> {
    let counts = [words.len() as u64, bytes.len() as u64];
    let numbers = counts.iter().chain(words).flat_map(|number| number.to_le_bytes());
    numbers.chain(bytes.iter().copied()).collect()
}

fn says(name: &str, status: i32, text: &str) {
    let expected = Outcome { text: text.into(), trouble: String::new(), status };
    assert_eq!(judge(&["openssl", &sample(name)]), expected, "{name}");
}

/// One line on standard error that has this text, nothing on standard output, and status 2.
fn in_trouble<A: AsRef<OsStr>>(arguments: &[A], why: &str) {
    let Outcome { text, trouble, status } = judge(arguments);
    assert_eq!((text.as_str(), status), ("", 2), "{trouble}");
    let is_one_line = trouble.ends_with('\n') && trouble.lines().count() == 1;
    assert!(trouble.starts_with("judge: ") && is_one_line && trouble.contains(why), "{trouble}");
}

#[test]
fn real_chains_are_judged_and_cited() {
    says("valid", 0, "accepted: no rule of OpenSSL is broken\n");
    says(
        "expired",
        1,
        "broken: 1 fault by the rules of OpenSSL\n\
         rule 2, certificate 0 (leaf, \"expired.rootca1.demo.amazontrust.com\"): the certificate must be in date\n",
    );
}

#[test]
fn samples_are_told_in_words() {
    says("accepted", 0, "accepted: no rule of OpenSSL is broken\n");
    says(
        "broken",
        1,
        "broken: 2 faults by the rules of OpenSSL\n\
         rule 2, certificate 0 (leaf, \"Server\"): the certificate must be in date\n\
         rule 6, certificate 1 (root, \"Root CA\"): an RSA key must have at least 1024 bits\n",
    );
    says(
        "short",
        1,
        "broken: 1 fault by the rules of OpenSSL\n\
         rule 1, the chain as a whole: a chain must have at least two certificates\n",
    );
    says(
        "refused",
        3,
        "refused, number 5: a number or a range points outside of its section or of the bytes\n\
         damaged: word 132 of the chain's bundle, the serial of certificate 1 (section C, row 1, word 2 of it)\n\
         there stands: 18\n\
         there should stand: the number of a string, below 18\n",
    );
}

#[test]
fn chrome_takes_its_lists() {
    let lists = sample("policy");
    assert_eq!(judge(&["chrome", &sample("valid"), &lists]).text, "accepted: no rule of Chrome is broken\n");
    let said = judge(&["chrome", &sample("expired"), &lists]);
    let rules = ["rule 2, certificate 0 (leaf, ", "rule 18, certificate 0 (leaf, "];
    assert!(said.status == 1 && rules.iter().all(|rule| said.text.contains(rule)), "{said:?}");
    let said = judge(&["chrome", &sample("valid"), &sample("valid")]);
    assert!(said.status == 3 && said.text.contains(" of the policy's bundle, "), "{said:?}");
}

#[test]
fn bad_arguments_give_one_line() {
    let file = sample("valid");
    let bad: [&[&str]; 7] = [
        &[],
        &["openssl"],
        &[&file],
        &["OpenSSL", &file],
        &["openssl", &file, &file],
        &["chrome", &file],
        &["chrome", &file, &file, &file],
    ];
    for arguments in bad {
        in_trouble(arguments, "give a policy and its bundle files");
    }
}

#[test]
fn bad_files_give_one_line() {
    let whole = std::fs::read(sample("valid")).expect("a sample");
    let in_file = |name: &str, content: &[u8], why: &str| {
        in_trouble(&[OsStr::new("openssl"), written(name, content).as_os_str()], why);
    };
    in_trouble(&["openssl", "no such file"], "no such file: ");
    in_trouble(&["openssl", env!("CARGO_TARGET_TMPDIR")], "irectory");
    in_trouble(&["openssl", "bad\u{1b}[31m\nname"], "bad\\x1b[31m\\x0aname: ");
    in_file("empty", &[], "begins with two counts");
    in_file("counts cut", &whole[..15], "begins with two counts");
    in_file("words cut", &whole[..100], "more words and bytes than it has");
    in_file("bytes cut", &whole[..whole.len() - 1], "more words and bytes than it has");
    in_file("over-long", &[&whole[..], b"x"].concat(), "goes on behind");
    in_file("most words", &[[255; 8], [0; 8]].concat(), "more words and bytes than it has");
    in_file("most bytes", &[[0; 8], [255; 8]].concat(), "more words and bytes than it has");
    let large = written("large", &whole);
    let file = std::fs::File::options().write(true).open(&large).expect("just written");
    file.set_len((1 << 24) + 1).expect("a hole costs nothing");
    in_trouble(&[OsStr::new("openssl"), large.as_os_str()], "larger than 16 MiB");
}

/// A file of the right form is judged, whatever its words say.
#[test]
fn damaged_words_are_refused_or_judged() {
    let whole = std::fs::read(sample("valid")).expect("a sample");
    let rng = &mut Rng::new(7, 0);
    for _ in 0..200 {
        let mut damaged = whole.clone();
        let at = 16 + rng.index(damaged.len() - 16);
        damaged[at] = rng.word() as u8;
        let path = written("damaged", &damaged);
        let said = judge(&[OsStr::new("openssl"), path.as_os_str()]);
        let begin = ["accepted: ", "broken: ", "", "refused, number "][said.status as usize];
        assert!(said.status != 2 && said.text.starts_with(begin) && said.trouble.is_empty(), "byte {at}: {said:?}");
    }
}

/// No byte of a certificate reaches the terminal but printable ones, and a quote can't end a name.
#[test]
fn names_are_shown_safely() {
    let mut chain = simple::chain(3);
    chain.now = 0;
    let names = [&b"\x1b[31m"[..], b"a\"b\\c\n", b""];
    for (certificate, name) in chain.certificates.iter_mut().zip(names) {
        certificate.subject = vec![vec![Attribute { oid: b"2.5.4.3".to_vec(), value: name.to_vec() }]];
    }
    chain.certificates[2].subject.clear();
    let bundle = write::chain(&mut Rng::new(0, 0), Layout::Packed, &chain);
    let path = written("names", &filed(&bundle.words, &bundle.bytes));
    let said = judge(&[OsStr::new("openssl"), path.as_os_str()]).text;
    for line in [
        "rule 2, certificate 0 (leaf, \"\\x1b[31m\"): ",
        "rule 2, certificate 1 (\"a\\\"b\\\\c\\x0a\"): ",
        "rule 2, certificate 2 (root, no common name): ",
        "rule 13, certificates 0 (leaf, \"\\x1b[31m\") and 1 (\"a\\\"b\\\\c\\x0a\"): ",
    ] {
        assert!(said.lines().any(|said| said.starts_with(line)), "{line}\n{said}");
    }
    assert!(said.bytes().all(|byte| matches!(byte, b'\n' | b' '..=b'~')));
}
