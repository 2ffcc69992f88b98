// Made from crates/h26x_rtp/src/elements.rt by tools/to-rust.

//! The elements of header extensions (RFC 8285).

use crate::proved::h26x_rtp::header::RtpExtension;

/// Why no element is read where one begins (RFC 8285, 4.2 and 4.3).
#[derive(Debug, Clone, Copy, PartialEq, Eq)]
#[non_exhaustive]
pub enum RtpElementError {
    /// Its length passes the end of the extension, or is behind it.
    PastTheEnd,
}

impl core::fmt::Display for RtpElementError {
    fn fmt(&self, f: &mut core::fmt::Formatter<'_>) -> core::fmt::Result {
        match self {
            RtpElementError::PastTheEnd => {
                write!(f, "an element passes the end of the header extension")
            }
        }
    }
}

impl core::error::Error for RtpElementError {}

/// The form of the elements of a header extension (RFC 8285, 4.2 and 4.3).
#[derive(Debug, Clone, Copy, PartialEq, Eq)]
pub enum ElementForm {
    /// Behind a byte of id and length: ids 1 to 14, 1 to 16 bytes.
    OneByte,
    /// Behind a byte of id and one of length: ids 1 to 255, at most 255 bytes.
    TwoBytes,
}

/// An element of a header extension (RFC 8285, 4.1).
#[derive(Clone, Copy, PartialEq, Eq)]
pub struct RtpElement<'a> {
    /// Its local identifier, which an `a=extmap` line of SDP says the meaning of.
    pub id: u8,
    /// Its bytes.
    pub bytes: &'a [u8],
}

/// Of bytes it tells how many there are.
impl<'a> core::fmt::Debug for RtpElement<'a> {
    fn fmt(&self, f: &mut core::fmt::Formatter<'_>) -> core::fmt::Result {
        use crate::support::Count;
        f.debug_struct("RtpElement")
            .field("id", &self.id)
            .field("bytes", &Count(self.bytes.len()))
            .finish()
    }
}

/// An element, and where in its header extension it is.
#[derive(Debug, Clone, Copy, PartialEq, Eq)]
pub struct PlacedElement<'a> {
    /// Where its bytes begin.
    pub place: usize,
    /// The element; the next one begins behind its bytes, or padding does.
    pub element: RtpElement<'a>,
}

/// The elements of a header extension that are left, in their order (RFC 8285, 4.1).
pub struct RtpElements<'a> {
    form: ElementForm,
    rest: &'a [u8],
}

/// Of bytes it tells how many there are.
impl<'a> core::fmt::Debug for RtpElements<'a> {
    fn fmt(&self, f: &mut core::fmt::Formatter<'_>) -> core::fmt::Result {
        use crate::support::Count;
        f.debug_struct("RtpElements")
            .field("form", &self.form)
            .field("rest", &Count(self.rest.len()))
            .finish()
    }
}

/// The form that a profile says, if it says one.
fn form_of(profile: u16) -> Option<ElementForm> {
    if profile == 0xbede {
        Some(ElementForm::OneByte)
    } else if profile >> 4 == 0x100 {
        Some(ElementForm::TwoBytes)
    } else {
        None
    }
}

/// How many bytes an element has in the form of one byte (RFC 8285, 4.2).
fn short_size(byte: u8) -> usize {
    usize::from(byte & 0x0f) + 1
}

/// Whether a first byte ends the elements in the form of one byte: by an id of 15, or of 0 where it
/// is no padding (RFC 8285, 4.2).
fn ends_short(byte: u8) -> bool {
    byte >> 4 == 0 || byte >> 4 == 15
}

/// An element of so many bytes at a place.
fn placed(
    bytes: &[u8],
    id: u8,
    place: usize,
    size: usize,
) -> Result<Option<PlacedElement<'_>>, RtpElementError> {
    let (_, rest) = bytes.split_at(place);
    if rest.len() < size {
        return Err(RtpElementError::PastTheEnd);
    }
    let (bytes, _) = rest.split_at(size);
    Ok(Some(PlacedElement {
        place,
        element: RtpElement { id, bytes },
    }))
}

/// The element whose first byte, no padding, is at a place, unless that ends the elements.
fn placed_at(
    form: ElementForm,
    bytes: &[u8],
    place: usize,
) -> Result<Option<PlacedElement<'_>>, RtpElementError> {
    let first = bytes[place];
    match form {
        ElementForm::OneByte if ends_short(first) => Ok(None),
        ElementForm::OneByte => placed(bytes, first >> 4, place + 1, short_size(first)),
        ElementForm::TwoBytes => match bytes.get(place + 1) {
            Some(size) => placed(bytes, first, place + 2, usize::from(*size)),
            None => Err(RtpElementError::PastTheEnd),
        },
    }
}

/// The first element from a place on.
fn first_placed(
    form: ElementForm,
    bytes: &[u8],
    from: usize,
) -> Result<Option<PlacedElement<'_>>, RtpElementError> {
    let mut place = from;
    while place < bytes.len() {
        if bytes[place] != 0 {
            return placed_at(form, bytes, place);
        }
        place += 1;
    }
    Ok(None)
}

/// The first element, and what stands behind it.
fn first_of(form: ElementForm, bytes: &[u8]) -> Option<(RtpElement<'_>, &[u8])> {
    match first_placed(form, bytes, 0) {
        Ok(Some(it)) => {
            let (_, rest) = bytes.split_at(it.place + it.element.bytes.len());
            Some((it.element, rest))
        }
        Ok(None) => None,
        Err(_) => None,
    }
}

impl<'a> RtpExtension<'a> {
    /// The first element from a place of its bytes on, behind padding: none behind the last one, nor
    /// where its profile says no form of elements (RFC 8285, 4.2 and 4.3). An element that passes the
    /// end, which ends [`RtpExtension::elements`], is refused here. Begin at 0, and go on behind the
    /// bytes of the one before.
    pub fn element_from(self, from: usize) -> Result<Option<PlacedElement<'a>>, RtpElementError> {
        match form_of(self.profile) {
            Some(form) => first_placed(form, self.bytes, from),
            None => Ok(None),
        }
    }

    /// Its elements, in their order: none where its profile says no form of elements. In the form of
    /// one byte they end before an id of 15, and in both before one that passes the end (RFC 8285,
    /// 4.2 and 4.3).
    pub fn elements(self) -> RtpElements<'a> {
        match form_of(self.profile) {
            Some(form) => RtpElements {
                form,
                rest: self.bytes,
            },
            None => RtpElements {
                form: ElementForm::OneByte,
                rest: &[],
            },
        }
    }
}

impl<'a> Iterator for RtpElements<'a> {
    type Item = RtpElement<'a>;

    fn next(&mut self) -> Option<RtpElement<'a>> {
        let (element, rest) = first_of(self.form, self.rest)?;
        self.rest = rest;
        Some(element)
    }
}
