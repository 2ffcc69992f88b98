//! Where headers of RTSP's messages end, and how long the bodies behind them are (RFC 2326, 4 and 12.14).

use crate::captures::pending::Pending;

const EMPTY_LINE: &[u8] = b"\r\n\r\n";
const CONTENT_LENGTH: &[u8] = b"content-length";

/// What is known of the headers that stand next in a stream. A message may begin anywhere in what was taken for
/// another's header, so what was found is kept, and each byte looked at once.
#[derive(Default)]
pub struct Headers {
    /// Where the next empty line stands, and up to where one was looked for.
    empty_line: Option<u64>,
    looked: u64,
    /// Where the next line stands that says a body's length, and up to where one was looked for.
    length: Option<(u64, usize)>,
    looked_for_length: u64,
}

impl Headers {
    /// Where the header ends of a message that begins at the front.
    pub fn end(&mut self, pending: &Pending) -> Option<u64> {
        let from = pending.front();
        if self.empty_line.is_none_or(|it| it < from) {
            self.looked = self.looked.max(from);
            let rest = pending.from(self.looked);
            let found = rest
                .windows(EMPTY_LINE.len())
                .position(|it| it == EMPTY_LINE);
            // The front of one may stand at the end.
            let passed = found.unwrap_or(rest.len().saturating_sub(EMPTY_LINE.len() - 1));
            self.looked += passed as u64;
            self.empty_line = found.map(|_| self.looked);
        }
        self.empty_line
    }

    /// How long the body is of a message that begins at the front, by the first line that says so.
    pub fn body_len(&mut self, pending: &Pending, end: u64) -> usize {
        let from = pending.front();
        let header = &pending.rest()[..(end - from) as usize];
        // Of the first line the message may have the end alone.
        if let Some(len) = content_length(header) {
            return len;
        }
        let known = self.length.filter(|it| it.0 > from);
        if known.is_some() || self.looked_for_length >= end {
            return known.map_or(0, |it| it.1);
        }
        self.length = next_length(header).map(|(at, len)| (from + at as u64, len));
        self.looked_for_length = self.length.map_or(end, |it| it.0);
        self.length.map_or(0, |it| it.1)
    }
}

/// Where behind the first line the next one stands that says a body's length, and which.
fn next_length(header: &[u8]) -> Option<(usize, usize)> {
    let mut at = 0;
    loop {
        at += header[at..].iter().position(|byte| *byte == b'\n')? + 1;
        if let Some(len) = content_length(&header[at..]) {
            return Some((at, len));
        }
    }
}

/// The length that the line at the front says, which is none where it isn't a number. No more of the line is looked
/// at than tells it.
fn content_length(line: &[u8]) -> Option<usize> {
    let line = without_white(line);
    let (name, rest) = line.split_at_checked(CONTENT_LENGTH.len())?;
    if !name.eq_ignore_ascii_case(CONTENT_LENGTH) {
        return None;
    }
    let value = without_white(without_white(rest).strip_prefix(b":")?);
    let is_of_number = |byte: &&u8| matches!(byte, b'0'..=b'9' | b'+');
    let (number, behind) = value.split_at(value.iter().take_while(is_of_number).count());
    let number = std::str::from_utf8(number).ok()?.parse().ok();
    let is_whole = matches!(without_white(behind), [] | [b'\n', ..]);
    Some(number.filter(|_| is_whole).unwrap_or(usize::MAX))
}

/// Bytes without the white space of a line in front of them.
fn without_white(mut bytes: &[u8]) -> &[u8] {
    let is_white =
        |it: &[u8]| std::str::from_utf8(it).is_ok_and(|it| it.chars().all(char::is_whitespace));
    while bytes.first() != Some(&b'\n') {
        let len = (1..=bytes.len().min(3)).find(|len| is_white(&bytes[..*len]));
        let Some(len) = len else {
            break;
        };
        bytes = &bytes[len..];
    }
    bytes
}
