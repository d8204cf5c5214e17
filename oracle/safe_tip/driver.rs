//! Reads the console's lines from standard input and prints what the published safe_tip.rs,
//! compiled unchanged beside this file, answers to them.

mod safe_tip;

/// Stand-in for the crate's `types`: a height is a 64-bit number that starts at 0.
mod types {
    #[derive(Copy, Clone, Debug, Default, PartialEq, Eq, PartialOrd, Ord, Hash)]
    pub struct Height(pub u64);
}

use commonware_utils::{
    N3f1,
    ordered::{Quorum, Set},
};
use safe_tip::SafeTip;
use std::io::{BufRead, Write};
use std::panic::{AssertUnwindSafe, catch_unwind};
use types::Height;

/// A signer's key: a 64-bit number.
#[derive(Clone, Debug, PartialEq, Eq, PartialOrd, Ord, Hash)]
struct Key(u64);

impl commonware_cryptography::PublicKey for Key {}

/// The display: closed until the first set of signers.
#[derive(Default)]
struct Display {
    safe_tip: SafeTip<Key>,
    signers: Option<usize>,
    lines: u64,
    counted: u64,
    refused: u64,
}

impl Display {
    /// The first set opens the display, a later one changes it.
    fn signers(&mut self, keys: Vec<Key>) -> String {
        let set = Set::new(keys).expect("a key stands twice");
        let (n, f, q) = (set.len(), set.max_faults::<N3f1>(), set.quorum::<N3f1>());
        match self.signers {
            None => self.safe_tip.init(&set),
            // The published code asserts the size before it changes anything, and dies of another.
            Some(m) => {
                let change = AssertUnwindSafe(|| self.safe_tip.reconcile(&set));
                if catch_unwind(change).is_err() {
                    self.refused += 1;
                    return format!("refused 11 SetSize: the set has {m} signers, not {n}");
                }
            }
        }
        self.signers = Some(n);
        format!(
            "signers {n} faults {f} quorum {q} safe tip {}",
            self.safe_tip.get().0
        )
    }

    fn tip(&mut self, key: Key, height: Height) -> String {
        let old = self.safe_tip.update(key, height);
        let safe = self.safe_tip.get().0;
        match old {
            Some(old) => {
                self.counted += 1;
                format!("counted, was {}, safe tip {safe}", old.0)
            }
            None => format!("not counted, safe tip {safe}"),
        }
    }

    /// The answer to one line, or nothing for an empty line or a comment.
    fn line(&mut self, line: &str) -> Option<String> {
        self.lines += 1;
        if line.starts_with('#') {
            return None;
        }
        let words: Vec<&str> = line.split([' ', '\t']).filter(|w| !w.is_empty()).collect();
        match words[..] {
            [] => None,
            ["signers", ref keys @ ..] => {
                Some(self.signers(keys.iter().map(|k| Key(number(k))).collect()))
            }
            ["tip", key, height] if self.signers.is_some() => {
                Some(self.tip(Key(number(key)), Height(number(height))))
            }
            _ => panic!(
                "line {}: the published code takes no such line: {line}",
                self.lines
            ),
        }
    }

    fn end(&self) -> String {
        let safe = match self.signers {
            Some(_) => format!("safe tip {}", self.safe_tip.get().0),
            None => "no safe tip".to_string(),
        };
        format!(
            "{} lines, {} tips counted, {} refused, {safe}",
            self.lines, self.counted, self.refused
        )
    }
}

fn number(word: &str) -> u64 {
    word.parse()
        .unwrap_or_else(|_| panic!("no 64-bit number: {word}"))
}

fn main() {
    // A change of size is a panic in the published code: it is answered, not printed.
    std::panic::set_hook(Box::new(|info| {
        let text = info.to_string();
        if !text.contains("Validator set size mismatch") {
            eprintln!("{text}");
        }
    }));
    let mut display = Display::default();
    let mut out = std::io::BufWriter::new(std::io::stdout().lock());
    for line in std::io::stdin().lock().lines() {
        if let Some(answer) = display.line(&line.expect("text")) {
            writeln!(out, "{answer}").expect("standard output");
        }
    }
    writeln!(out, "{}", display.end()).expect("standard output");
}
