//! Runs random feeds through the linked program `hour` and compares what it prints with the model.

use std::collections::BTreeMap;
use std::io::Write;
use std::process::{Command, Stdio};

use crate::feeds::{Case, Rng};
use crate::model::{Book, Edition};

/// The most words that the program reads.
const MOST_WORDS: usize = 16_384;

/// What the program prints of a feed: three statements, or the fault's line.
fn printed(words: &[u32]) -> String {
    let mut book = Book::opened(7);
    if let Err(fault) = book.feed(&words[..words.len().min(MOST_WORDS)]) {
        return fault.to_string();
    }
    let mut text = String::new();
    for number in 1..=3 {
        let edition = Edition::numbered(number).expect("three editions");
        book.draft(edition).and_then(|()| book.issue()).expect("no draft is open");
        text += &book.text().expect("a statement was issued");
    }
    text
}

fn run(program: &str, words: &[u32]) -> std::io::Result<(Vec<u8>, bool)> {
    let mut child = Command::new(program).stdin(Stdio::piped()).stdout(Stdio::piped()).spawn()?;
    let bytes: Vec<u8> = words.iter().flat_map(|word| word.to_le_bytes()).collect();
    // The program may end before it has read all.
    let _ = child.stdin.take().expect("piped").write_all(&bytes);
    let output = child.wait_with_output()?;
    Ok((output.stdout, output.status.success()))
}

fn listed<K: std::fmt::Display>(counts: &BTreeMap<K, u64>) -> String {
    let entries: Vec<String> = counts.iter().map(|(name, count)| format!("{name}: {count}")).collect();
    entries.join(", ")
}

/// Compares `count` feeds with the seeds from `seed` on; says what was compared, or the first difference.
pub fn compare(program: &str, count: u64, seed: u64) -> Result<String, String> {
    let mut by_sort: BTreeMap<String, u64> = BTreeMap::new();
    let mut by_fault: BTreeMap<u32, u64> = BTreeMap::new();
    let mut lines = 0;
    for seed in seed..seed + count {
        let case = Case::random(&mut Rng::new(seed));
        let expected = printed(&case.words);
        let (output, success) = run(program, &case.words).map_err(|error| format!("{program}: {error}"))?;
        if !success || output != expected.as_bytes() {
            return Err(format!(
                "difference at seed {seed}, status 0: {success}\nwords: {:x?}\nprogram:\n{}\nmodel:\n{expected}",
                case.words,
                String::from_utf8_lossy(&output)
            ));
        }
        *by_sort.entry(format!("{:?}", case.sort)).or_default() += 1;
        if let Some(fault) = expected.strip_prefix("fault ") {
            let number = fault.split(' ').next().and_then(|number| number.parse().ok());
            *by_fault.entry(number.expect("a fault has a number")).or_default() += 1;
        } else {
            lines += expected.lines().count() - 6;
        }
    }
    let (sorts, faults) = (listed(&by_sort), listed(&by_fault));
    Ok(format!("{count} feeds ({sorts}) with {lines} lines, faults {faults}: 0 differences"))
}
