//! The table, in Markdown, of what one build or two of the program measured. Of the two builds the
//! one is told that flatters us less: the greater ratio, our longer time, the shorter time of the
//! floors. Of str0m both times are told.

use crate::format::Format;
use crate::lines::Line;
use crate::ways::{CRATE, INTO, LIBRARY, LIBRARY_INTO, MEMCPY, PIECES, STR0M, UNIT_INTO};
use std::fmt::Write;

/// A call of which there is a table.
struct Part {
    call: &'static str,
    title: &'static str,
    /// Our ways, and what they are called here.
    ours: &'static [(&'static str, &'static str)],
    pieces: &'static str,
}

const PARTS: [Part; 2] = [
    Part {
        call: "packetize",
        title: "Packetizing",
        ours: &[
            (LIBRARY, "library, `h26x_packetize`"),
            (LIBRARY_INTO, "library, `h26x_packetize_into`"),
            (UNIT_INTO, "crate, `packetize_unit_into`"),
            (INTO, "crate, `packetize_into`"),
            (CRATE, "crate, `packetize`"),
        ],
        pieces: "an allocation and a copy a packet",
    },
    Part {
        call: "take",
        title: "Taking the packets",
        ours: &[
            (LIBRARY, "library, `h26x_depacketize`"),
            (CRATE, "crate, `depacketize`"),
        ],
        pieces: "an append a packet",
    },
];

/// A payload in a format.
type Case<'a> = (&'a str, &'a str);

/// The measures of the builds.
struct Builds<'a>(&'a [Vec<Line<'a>>]);

impl<'a> Builds<'a> {
    /// The cases of a call, those of one payload together.
    fn cases(&self, part: &Part) -> Vec<Case<'a>> {
        let lines = || {
            self.0
                .iter()
                .flatten()
                .filter(|line| line.call == part.call)
        };
        let payloads = distinct(lines().map(|line| line.payload));
        let formats = distinct(lines().map(|line| line.format));
        let all = payloads
            .iter()
            .flat_map(|payload| formats.iter().map(move |format| (*payload, *format)));
        all.filter(|case| !self.of(part, *case, STR0M).is_empty())
            .collect()
    }

    /// What came of one way to do a case, in each build.
    fn of(&self, part: &Part, case: Case, way: &str) -> Vec<&Line<'a>> {
        let wanted = (part.call, case.0, case.1);
        let lines = self.0.iter().flatten();
        lines
            .filter(|line| line.case() == wanted && line.way == way)
            .collect()
    }

    /// The greater ratio; none where the case isn't done in this way.
    fn ratio(&self, part: &Part, case: Case, way: &str) -> Option<f64> {
        let lines = self.of(part, case, way);
        lines.iter().map(|line| line.ratio).reduce(f64::max)
    }

    /// The longer time.
    fn longer(&self, part: &Part, case: Case, way: &str) -> f64 {
        let lines = self.of(part, case, way);
        lines
            .iter()
            .map(|line| line.nanoseconds)
            .fold(0.0, f64::max)
    }

    /// The shorter time.
    fn shorter(&self, part: &Part, case: Case, way: &str) -> f64 {
        let lines = self.of(part, case, way);
        lines
            .iter()
            .map(|line| line.nanoseconds)
            .fold(f64::MAX, f64::min)
    }
}

/// The tables of all calls.
pub fn table(builds: &[Vec<Line>]) -> String {
    let builds = Builds(builds);
    let mut text = String::new();
    for part in &PARTS {
        let cases = builds.cases(part);
        if !cases.is_empty() {
            write!(text, "\n### {}\n\n", part.title).expect("a string");
            text += &counts(&builds, part, &cases);
            text += &head(part);
            text.extend(cases.iter().map(|case| row(&builds, part, *case)));
        }
    }
    text
}

/// The payloads of the short table.
const COMMON: [&str; 3] = [
    "a frame of 8 kB",
    "a unit of 200 kB",
    "fifty units of 20 bytes",
];

/// A short table: the ratios of the Rust crate for a few payloads, one for each call, without DONL.
pub fn summary(builds: &[Vec<Line>]) -> String {
    let builds = Builds(builds);
    let formats = Format::ALL.iter().filter(|format| !format.has_donl);
    let formats: Vec<&str> = formats.map(|format| format.name).collect();
    let mut text = format!("| | {} |\n|---|", formats.join(" | "));
    text += &"---|".repeat(formats.len());
    for payload in COMMON {
        let cell = |format: &&str| {
            let ratio = |part: &Part| builds.ratio(part, (payload, format), CRATE);
            let ratios = PARTS.iter().filter_map(ratio);
            let ratios: Vec<String> = ratios.map(|ratio| format!("{ratio:.2}")).collect();
            format!(" {} |", ratios.join(", "))
        };
        let cells: String = formats.iter().map(cell).collect();
        write!(text, "\n| {payload} |{cells}").expect("a string");
    }
    text
}

/// How many cases are faster by each of our ways, and by how much.
fn counts(builds: &Builds, part: &Part, cases: &[Case]) -> String {
    let of_way = |(way, name): &(&str, &str)| {
        let mut ratios: Vec<f64> = cases
            .iter()
            .filter_map(|case| builds.ratio(part, *case, way))
            .collect();
        if ratios.is_empty() {
            return String::new();
        }
        ratios.sort_by(f64::total_cmp);
        let faster = ratios.iter().filter(|ratio| **ratio < 1.0).count();
        format!(
            "- {name}: faster than str0m in {faster} of {} cases; ratios from {:.2} to {:.2}, {:.2} in the middle\n",
            ratios.len(),
            ratios[0],
            ratios[ratios.len() - 1],
            ratios[ratios.len() / 2],
        )
    };
    part.ours.iter().map(of_way).collect::<String>() + "\n"
}

fn head(part: &Part) -> String {
    let ours: String = part
        .ours
        .iter()
        .map(|(_, name)| format!(" {name} |"))
        .collect();
    let columns = 5 + part.ours.len();
    format!(
        "| Ratio to str0m, and µs | |{ours} str0m | {} | `memcpy` |\n|{}\n",
        part.pieces,
        "---|".repeat(columns),
    )
}

fn row(builds: &Builds, part: &Part, case: Case) -> String {
    let of_way = |(way, _): &(&str, &str)| {
        let time = microseconds(builds.longer(part, case, way));
        let ratio = builds.ratio(part, case, way);
        ratio.map_or(" |".into(), |ratio| format!(" {ratio:.2} ({time}) |"))
    };
    let ours: String = part.ours.iter().map(of_way).collect();
    let theirs = builds.of(part, case, STR0M);
    let theirs: Vec<String> = theirs
        .iter()
        .map(|line| microseconds(line.nanoseconds))
        .collect();
    format!(
        "| {} | {} |{ours} {} | {} | {} |\n",
        case.0,
        case.1,
        theirs.join(", "),
        microseconds(builds.shorter(part, case, PIECES)),
        microseconds(builds.shorter(part, case, MEMCPY)),
    )
}

/// In microseconds, with three digits.
fn microseconds(nanoseconds: f64) -> String {
    let digits = match nanoseconds {
        ..1_000.0 => 3,
        ..10_000.0 => 2,
        ..100_000.0 => 1,
        _ => 0,
    };
    format!("{:.digits$}", nanoseconds / 1_000.0)
}

/// Each word once, in the order in which they come first.
fn distinct<'a>(words: impl Iterator<Item = &'a str>) -> Vec<&'a str> {
    let mut seen = Vec::new();
    for word in words {
        if !seen.contains(&word) {
            seen.push(word);
        }
    }
    seen
}
