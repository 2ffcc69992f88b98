//! Format parameters of SDP read plainly, by a table of what the RFC registers (RFC 6184, 8.1; RFC 7798, 7.1; RFC 9328, 7.2).

use crate::random::Random;

/// What a value may be.
#[derive(Clone, Copy)]
pub enum Kind {
    /// A decimal number from the one to the other.
    Number(u64, u64),
    /// So many hexadecimal digits.
    Digits(usize),
    /// A hexadecimal number up to this one.
    Hexadecimal(u64),
    /// One of the modes.
    Mode,
    /// Any text.
    Text,
}

/// Which way media flows, of who writes a format: the columns of the RFCs' tables.
#[derive(Clone, Copy, Debug, PartialEq)]
pub enum Way {
    Both,
    Receives,
    Sends,
}

impl Way {
    /// That of the other end.
    pub fn of_other(self) -> Self {
        match self {
            Way::Both => Way::Both,
            Way::Receives => Way::Sends,
            Way::Sends => Way::Receives,
        }
    }
}

/// A parameter, what it is in an offer or answer that is sendrecv, recvonly or sendonly, by a letter each as the RFC's table
/// has it (`-` of what is to be ignored), and its value where it is absent.
pub struct Row {
    pub name: &'static str,
    pub columns: &'static str,
    pub kind: Kind,
    pub unsaid: Option<&'static str>,
}

/// Declares the parameters of a codec in the order of the RFC, `PLACE "name" "columns" Kind, value where absent;`, and
/// their places.
macro_rules! rows {
    ($($row:ident $name:literal $columns:literal $kind:expr, $unsaid:expr;)*) => {
        #[allow(non_camel_case_types, clippy::upper_case_acronyms, dead_code)] // of most only what they may be is said
        enum Place { $($row),* }
        $(#[allow(dead_code)] const $row: usize = Place::$row as usize;)*
        pub const ROWS: &[Row] = &[
            $(Row { name: $name, columns: $columns, kind: $kind, unsaid: $unsaid }),*
        ];
    };
}
pub(super) use rows;

/// More than any codec has.
const MOST: usize = 30;

/// A format: the value of each row, and what the table doesn't have.
#[derive(Clone)]
pub struct Format<'a> {
    rows: &'static [Row],
    values: [Option<&'a str>; MOST],
    others: Vec<(&'a str, &'a str)>,
}

/// A refusal: its number in `h26x.h`, and the place of the parameter.
pub type Refused = (u32, usize);

/// The modes of RFC 7798, 7.1, in either case.
const MODES: [&str; 3] = ["SRST", "MRST", "MRMT"];

/// What is wrong with a value.
pub fn fault(kind: Kind, value: &str) -> Option<u32> {
    let are = |radix| !value.is_empty() && value.chars().all(|c| c.is_digit(radix));
    let number = |radix| u64::from_str_radix(value, radix).ok(); // none of more than 64 bits
    let within = |radix, least, most| number(radix).is_some_and(|it| least <= it && it <= most);
    match kind {
        Kind::Number(..) if !are(10) => Some(21),
        Kind::Number(least, most) if !within(10, least, most) => Some(22),
        Kind::Hexadecimal(_) if !are(16) => Some(23),
        Kind::Hexadecimal(most) if !within(16, 0, most) => Some(22),
        Kind::Digits(count) if value.len() != count || !are(16) => Some(23),
        Kind::Mode if !MODES.iter().any(|it| it.eq_ignore_ascii_case(value)) => Some(24),
        _ => None,
    }
}

/// The part that a text begins with, up to a `;` that stands in no braces.
fn first_part(text: &str) -> &str {
    let mut in_braces = false;
    for (at, c) in text.bytes().enumerate() {
        match c {
            b'{' => in_braces = true,
            b'}' => in_braces = false,
            b';' if !in_braces => return &text[..at],
            _ => {}
        }
    }
    text
}

/// Whether each brace of a text is closed.
fn closes(text: &str) -> bool {
    text.bytes().rev().find(|c| matches!(c, b'{' | b'}')) != Some(b'{')
}

impl<'a> Format<'a> {
    /// Reads a text.
    pub fn read(rows: &'static [Row], mut text: &'a str) -> Result<Self, Refused> {
        let mut it = Format {
            rows,
            values: [None; MOST],
            others: Vec::new(),
        };
        if !closes(text) {
            return Err((20, 0));
        }
        let mut place = 0;
        while !text.is_empty() {
            let part = first_part(text);
            text = text.get(part.len() + 1..).unwrap_or("");
            if !part.trim_ascii().is_empty() {
                it.read_part(part).map_err(|fault| (fault, place))?;
                place += 1;
            }
        }
        Ok(it)
    }

    /// Reads a name, and the value behind its `=`.
    fn read_part(&mut self, part: &'a str) -> Result<(), u32> {
        let equals = part.bytes().position(|c| c == b'=').unwrap_or(part.len());
        let (name, value) = (&part[..equals], part.get(equals + 1..).unwrap_or(""));
        let (name, value) = (name.trim_ascii(), value.trim_ascii());
        let Some(row) = self
            .rows
            .iter()
            .position(|row| row.name.eq_ignore_ascii_case(name))
        else {
            self.others.push((name, value));
            return Ok(());
        };
        if self.values[row].is_some() {
            return Err(25);
        }
        self.values[row] = Some(value);
        fault(self.rows[row].kind, value).map_or(Ok(()), Err)
    }

    /// Writes it: what the table has in its order, and the others behind.
    pub fn write(&self, to: &mut String) {
        to.clear();
        let given = self.rows.iter().zip(self.values);
        let given = given.filter_map(|(row, value)| Some((row.name, value?)));
        for (name, value) in given.chain(self.others.iter().copied()) {
            let between = if to.is_empty() { "" } else { ";" };
            to.extend([between, name, "=", value]);
        }
    }

    /// What the table doesn't have.
    pub fn others(&self) -> &[(&'a str, &'a str)] {
        &self.others
    }

    /// The value of a row, where it is given.
    pub fn given(&self, row: usize) -> Option<&'a str> {
        self.values[row]
    }

    /// The same, or what the RFC takes for it.
    pub fn value(&self, row: usize) -> Option<&'a str> {
        self.given(row).or(self.rows[row].unsaid)
    }

    /// The number of a row, where it is given.
    pub fn given_number(&self, row: usize) -> Option<u64> {
        self.given(row).map(number)
    }

    /// The same, or what the RFC takes for it, and 0 where that is none.
    pub fn number(&self, row: usize) -> u64 {
        self.value(row).map_or(0, number)
    }

    /// Whether rows are given.
    pub fn gives(&self, rows: &[usize]) -> bool {
        rows.iter().all(|row| self.given(*row).is_some())
    }

    /// Puts a value into a row.
    pub fn put(&mut self, row: usize, value: Option<&'a str>) {
        self.values[row] = value;
    }

    /// Takes away what rows have.
    pub fn take_away(&mut self, rows: &[usize]) {
        rows.iter().for_each(|row| self.put(*row, None));
    }

    /// Takes away what is to be ignored in a direction of who writes it.
    pub fn ignore(&mut self, way: Way) {
        for (row, value) in self.rows.iter().zip(&mut self.values) {
            if row.columns.as_bytes()[way as usize] == b'-' {
                *value = None;
            }
        }
    }

    /// What is left of it in a direction.
    pub fn heard(&self, way: Way) -> Self {
        let mut it = self.clone();
        it.ignore(way);
        it
    }

    /// Takes the values of another.
    pub fn take_from(&mut self, other: &Format<'a>, rows: &[usize]) {
        rows.iter()
            .for_each(|row| self.put(*row, other.given(*row)));
    }

    /// Whether two formats say the same in rows, absent ones what the RFC takes for them: numbers as numbers, hexadecimal
    /// digits and modes in either case.
    pub fn agrees(&self, other: &Format, rows: &[usize]) -> bool {
        rows.iter().all(
            |row| match (self.rows[*row].kind, self.value(*row), other.value(*row)) {
                (_, None, None) => true,
                (Kind::Number(..), Some(a), Some(b)) => number(a) == number(b),
                (Kind::Digits(_) | Kind::Mode, Some(a), Some(b)) => a.eq_ignore_ascii_case(b),
                (_, Some(a), Some(b)) => a == b,
                _ => false,
            },
        )
    }
}

fn number(text: &str) -> u64 {
    text.parse().expect("a number, as it was read")
}

/// By which rules, what else an end can do, which way its media flow, and whether by multicast.
#[derive(Clone, Copy, Debug)]
pub struct Rules {
    pub webrtc: bool,
    pub any_order: bool,
    pub way: Way,
    pub multicast: bool,
}

impl Rules {
    /// Those of the RFCs, of what else is drawn.
    pub fn draw(random: &mut Random) -> Self {
        Rules {
            webrtc: false,
            any_order: random.one_in(2),
            way: random.of(&[Way::Both, Way::Receives, Way::Sends]),
            multicast: random.one_in(4),
        }
    }
}

/// A stream that is agreed on: its level as a number (of H.264 twice its level_idc), its packetization mode, and where its
/// parameter sets are.
#[derive(Debug, PartialEq)]
pub struct Stream {
    pub level: u64,
    pub mode: Option<u64>,
    pub sets: &'static str,
}
