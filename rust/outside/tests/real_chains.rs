//! The plain judge on real chains, against what an independent reading of document 01 says of them.

use outside::{real_chains, RealChain};

#[test]
fn the_plain_judge_agrees_on_every_real_chain() {
    let chains = real_chains();
    assert_eq!(chains.len(), 471);
    let mut disagreements = 0;
    for chain in &chains {
        let said = spelled(chain);
        if said != chain.expected {
            disagreements += 1;
            println!("{}: expected {}, said {said} (OpenSSL: {})", chain.name, chain.expected, chain.openssl_said);
        }
    }
    assert_eq!(disagreements, 0);
}

/// The judge's answer in the table's spelling.
fn spelled(chain: &RealChain) -> String {
    let judge = |report: &mut [u32]| plain::judge_openssl(&chain.words, &chain.bytes, report);
    let answer = judge(&mut []);
    let none_or_number = |word: u32| if word == 65_535 { "-".to_string() } else { word.to_string() };
    match answer[0] {
        0 => "0".to_string(),
        1 => {
            let spell = |[rule, i, j]: [u32; 3]| format!(" {rule},{},{}", none_or_number(i), none_or_number(j));
            format!("1{}", plain::entries(judge).into_iter().map(spell).collect::<String>())
        }
        number => format!("{number} word {}", answer[3]),
    }
}
