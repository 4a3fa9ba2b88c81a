//! Rule 15 of the OpenSSL policy on every pair of names of OpenSSL's own host tests.

use generate::model::*;
use generate::rng::Rng;
use generate::simple;
use generate::write::{self, Layout};
use outside::{host_questions, HostQuestion};

#[test]
fn the_plain_judge_agrees_on_every_pair_of_names() {
    let questions = host_questions();
    let disagreements: Vec<String> = questions
        .iter()
        .filter(|question| stands_for(question) != question.expected)
        .map(|question| format!("{} for {}, in the SAN: {}", question.name, question.host, question.in_san))
        .collect();
    assert!(disagreements.is_empty(), "of {}: {disagreements:#?}", questions.len());
}

fn stands_for(question: &HostQuestion) -> bool {
    let mut chain = simple::chain(2);
    let name: Text = question.name.clone().into();
    let leaf = &mut chain.certificates[0];
    if question.in_san {
        leaf.san_names().push(GeneralName::Dns(name));
    } else {
        leaf.subject = vec![vec![Attribute { oid: b"2.5.4.3".to_vec(), value: name }]];
    }
    chain.host = Some(question.host.clone().into());
    let bundle = write::chain(&mut Rng::new(0, 0), Layout::Packed, &chain);
    plain::judge_openssl(&bundle.words, &bundle.bytes, &mut [])[0] == 0
}
