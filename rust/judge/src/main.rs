//! judge POLICY CHAIN [LISTS]: judges the chain in a bundle file by a policy, and says what is wrong with it.
//!
//! POLICY is `openssl`, or `chrome` with LISTS, the bundle file of its lists. `samples/README.md` has the form of a
//! bundle file. The status: 0 accepted, 1 a rule is broken, 2 it can't be judged, 3 a bundle is refused.

use judge::{run, Said};
use std::io::Write;
use std::process::ExitCode;

const UNJUDGED: u8 = 2;

fn main() -> ExitCode {
    let arguments: Vec<_> = std::env::args_os().skip(1).collect();
    match run(&arguments) {
        Ok(Said { text, status }) => match std::io::stdout().write_all(text.as_bytes()) {
            Ok(()) => ExitCode::from(status),
            Err(error) => trouble(&format!("the answer can't be written: {error}")),
        },
        Err(why) => trouble(&why),
    }
}

/// One line on standard error. If that is closed, the status alone must do.
fn trouble(why: &str) -> ExitCode {
    let _ = writeln!(std::io::stderr(), "judge: {why}");
    ExitCode::from(UNJUDGED)
}
