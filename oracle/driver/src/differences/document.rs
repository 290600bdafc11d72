//! The rows of docs/DIFFERENCES.md, sections 1 to 3: each table row's number (first cell) and its input (last cell).

/// The document, as it was when the run was built.
const DOCUMENT: &str = include_str!("../../../../docs/DIFFERENCES.md");

/// The sections whose rows have inputs.
const SECTIONS: [&str; 3] = ["1", "2", "3"];

/// A row's number and its input with the answers, as the document has them.
pub struct Entry {
    pub row: &'static str,
    pub input: &'static str,
}

impl Entry {
    /// A row about no call has an input that begins so.
    pub fn has_none(&self) -> bool {
        self.input.starts_with("none")
    }
}

/// All rows of these sections; an error where one has no number of its section, or one that stands twice.
pub fn entries() -> Result<Vec<Entry>, String> {
    let mut entries: Vec<Entry> = Vec::new();
    let mut section = "";
    for line in DOCUMENT.lines() {
        if let Some(head) = line.strip_prefix("## ") {
            section = head.split('.').next().expect("a head");
        }
        if !SECTIONS.contains(&section) || !line.starts_with('|') {
            continue;
        }
        let cells: Vec<&str> = line.split('|').map(str::trim).collect();
        let [_, row, .., input, _] = cells[..] else {
            return Err(format!("no row: {line}"));
        };
        if row == "Row" || row.starts_with("---") {
            continue;
        }
        if row.split('.').next() != Some(section) || entries.iter().any(|entry| entry.row == row) {
            return Err(format!(
                "a row of section {section} without a number of its own: {line}"
            ));
        }
        entries.push(Entry { row, input });
    }
    Ok(entries)
}
