//! Counted rows of a coverage report.

use std::collections::BTreeMap;

use crate::parts::Part;

/// How often a part showed one thing.
pub struct Row {
    pub part: &'static Part,
    /// What things of this sort are, as a title of their line.
    pub kind: String,
    pub word: String,
    pub count: u64,
}

/// Adds a line for each part and kind; tells whether nothing is missing.
pub fn show(rows: &[Row], text: &mut String) -> bool {
    let mut lines: Vec<(String, Vec<String>)> = Vec::new();
    for row in rows {
        let title = format!("  part {}, {}", row.part.word, row.kind);
        let word = format!("{}={}", row.word, row.count);
        match lines.last_mut() {
            Some((last, words)) if *last == title => words.push(word),
            _ => lines.push((title, vec![word])),
        }
    }
    for (title, words) in lines {
        *text += &format!("{title}: {}\n", words.join(", "));
    }
    rows.iter().all(|row| row.count > 0)
}

/// A title and a word under it.
pub type Entry = (String, String);

/// How often each of some things was shown, by title and word.
#[derive(Default)]
pub struct Ledger(BTreeMap<Entry, u64>);

impl Ledger {
    pub fn count(&mut self, title: impl ToString, word: impl ToString) {
        let entry = (title.to_string(), word.to_string());
        *self.0.entry(entry).or_default() += 1;
    }

    /// Adds a line for each title of what is wanted; tells whether nothing of it is
    /// missing.
    pub fn show(&self, wanted: &[Entry], text: &mut String) -> bool {
        let mut all = true;
        let mut last = "";
        for entry in wanted {
            let (title, word) = entry;
            let count = self.0.get(entry).copied().unwrap_or(0);
            all &= count > 0;
            if title == last {
                *text += &format!(", {word}={count}");
            } else {
                let end = if last.is_empty() { "" } else { "\n" };
                *text += &format!("{end}  {title}: {word}={count}");
                last = title;
            }
        }
        if !wanted.is_empty() {
            *text += "\n";
        }
        all
    }
}
