//! What was measured, as lines of text: a line for each way to do each case.

use crate::turns::Told;

/// One way to do a case, and what came of it.
pub struct Line<'a> {
    pub call: &'a str,
    pub payload: &'a str,
    pub format: &'a str,
    pub way: &'a str,
    pub nanoseconds: f64,
    pub ratio: f64,
}

impl<'a> Line<'a> {
    /// The words of a line, with tabs between them.
    pub fn text(call: &str, payload: &str, format: &str, told: &Told) -> String {
        let Told {
            name,
            nanoseconds,
            ratio,
        } = told;
        format!("{call}\t{payload}\t{format}\t{name}\t{nanoseconds:.3}\t{ratio:.6}")
    }

    fn read(line: &'a str) -> Option<Self> {
        let mut words = line.split('\t');
        let mut word = || words.next();
        Some(Line {
            call: word()?,
            payload: word()?,
            format: word()?,
            way: word()?,
            nanoseconds: word()?.parse().ok()?,
            ratio: word()?.parse().ok()?,
        })
    }

    /// What is timed, however it is done.
    pub fn case(&self) -> (&'a str, &'a str, &'a str) {
        (self.call, self.payload, self.format)
    }
}

/// How a line begins that says why a case was left out.
pub const LEFT_OUT: &str = "left out: ";

/// The lines of measures in a text.
pub fn measures(text: &str) -> Result<Vec<Line<'_>>, String> {
    text.lines()
        .filter(|line| !line.starts_with(LEFT_OUT))
        .map(|line| Line::read(line).ok_or_else(|| format!("no line of measures: {line}")))
        .collect()
}

/// The lines of a text that say what was left out.
pub fn left_out(text: &str) -> impl Iterator<Item = &str> {
    text.lines().filter(|line| line.starts_with(LEFT_OUT))
}
