//! The first table of docs/DIFFERENCES.md, whose rows are the rules.

use crate::rules::Rule;

const DOCUMENT: &str = include_str!("../../../docs/DIFFERENCES.md");
const HEADING: &str = "## What calls show\n";

/// A rule without a row, and a row without a rule.
pub fn complaints() -> Vec<String> {
    let rows: Vec<&str> = rows().collect();
    let front = |rule: &Rule| format!("| {} | {} |", rule.row().0, rule.row().1);
    let fronts: Vec<String> = Rule::ALL.iter().map(front).collect();
    let is_of = |row: &str, front: &String| row.starts_with(front.as_str());
    let without_row = fronts
        .iter()
        .filter(|front| !rows.iter().any(|row| is_of(row, front)))
        .map(|front| format!("docs/DIFFERENCES.md has no such row: {front}"));
    let without_rule = rows
        .iter()
        .filter(|row| !fronts.iter().any(|front| is_of(row, front)))
        .map(|row| format!("docs/DIFFERENCES.md has a row without a rule: {row}"));
    without_row.chain(without_rule).collect()
}

/// The rows of the table, without the one that names its columns.
fn rows() -> impl Iterator<Item = &'static str> {
    let table = DOCUMENT.split(HEADING).nth(1).unwrap_or_default();
    let table = table.split("\n## ").next().unwrap_or_default();
    table.lines().filter(|line| line.starts_with("| ")).skip(1)
}
