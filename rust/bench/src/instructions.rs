//! Instructions, counted by valgrind's callgrind: this program is run with few calls and with some more, and what the
//! additional calls take is the judge's.

use compare::judge::Which;
use std::process::Command;

const FEW_CALLS: u32 = 1;
const MORE_CALLS: u32 = 11;

/// Which judgement is counted: the policy, the chain by its number, and `proved` or `plain`.
#[derive(Clone, Copy)]
pub struct Asked<'a> {
    /// The policy.
    pub which: Which,
    /// The chain's number.
    pub chain: usize,
    /// The judge.
    pub side: &'a str,
}

impl Asked<'_> {
    /// The instructions of one judgement.
    pub fn instructions(self) -> Result<f64, String> {
        let [few, more] = [FEW_CALLS, MORE_CALLS].map(|calls| self.counted(calls));
        Ok((more? - few?) / f64::from(MORE_CALLS - FEW_CALLS))
    }

    /// The instructions of this program when it makes so many judgements.
    fn counted(self, calls: u32) -> Result<f64, String> {
        let output = self.run(calls).map_err(|error| format!("valgrind can't be run: {error}"))?;
        let said = String::from_utf8_lossy(&output.stderr);
        let count = said.lines().find_map(|line| line.split_once("Collected :")?.1.trim().parse().ok());
        count.filter(|_| output.status.success()).ok_or_else(|| format!("valgrind counts nothing:\n{said}"))
    }

    fn run(self, calls: u32) -> std::io::Result<std::process::Output> {
        Command::new("valgrind")
            .args(["--tool=callgrind", "--callgrind-out-file=/dev/null"])
            .arg(std::env::current_exe()?)
            .args(["calls", &calls.to_string(), &format!("{:?}", self.which), &self.chain.to_string(), self.side])
            .output()
    }
}
