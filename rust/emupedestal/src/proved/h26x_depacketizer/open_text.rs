// Made from crates/h26x_depacketizer/src/open_text.rt by tools/to-rust.

//! The text of an access unit that is open, with the data of the open run in its memory.

use crate::proved::h26x_core::{ANNEXB_NALUSTART_CODE, CodecExtra, PacketError};
use crate::proved::h26x_depacketizer::byte_stream::{PREFIX_SIZE, is_too_long, prefix_of};
use crate::proved::h26x_depacketizer::give_back::give_back;
use crate::proved::h26x_depacketizer::parts::Parts;
use crate::proved::h26x_depacketizer::reader::PacketReader;
use crate::proved::h26x_depacketizer::run::OpenRun;
use crate::proved::h26x_depacketizer::take::take_parts;
use crate::support::AppendBytes;
use alloc::vec::Vec;
use core::mem;

/// The text of an access unit that is open, with its open run.
///
/// The data of a run stand behind the text, where its unit will stand, so that they are copied once: a
/// start code and the header go before them. A unit that another packet completes meanwhile has the
/// run put aside.
#[derive(Clone)]
pub struct OpenText {
    bytes: Vec<u8>,
    /// Where the text ends, where a run is inside.
    at: usize,
    /// Where its data begin.
    from: usize,
    is_inside: bool,
    aside: OpenRun,
    /// Whether the memory was to be given back, and there was no smaller place to move to.
    lacks_place: bool,
}

/// Of bytes it tells how many there are.
impl core::fmt::Debug for OpenText {
    fn fmt(&self, f: &mut core::fmt::Formatter<'_>) -> core::fmt::Result {
        use crate::support::Count;
        f.debug_struct("OpenText")
            .field("bytes", &Count(self.bytes.len()))
            .field("at", &self.at)
            .field("from", &self.from)
            .field("is_inside", &self.is_inside)
            .field("aside", &self.aside)
            .field("lacks_place", &self.lacks_place)
            .finish()
    }
}

impl OpenText {
    /// An empty text without a run, in memory that was another's: what stands there goes.
    #[inline]
    pub fn new(mut memory: Vec<u8>) -> Self {
        memory.clear();
        OpenText {
            bytes: memory,
            at: 0,
            from: 0,
            is_inside: false,
            aside: OpenRun::none(),
            lacks_place: false,
        }
    }

    /// The text.
    pub fn text(&self) -> &[u8] {
        &self.bytes[..self.len()]
    }

    /// The data of the open run, if there is one.
    pub fn run(&self) -> Option<&[u8]> {
        if self.is_inside {
            Some(&self.bytes[self.from..])
        } else if self.aside.is_open() {
            Some(self.aside.bytes())
        } else {
            None
        }
    }

    /// How many bytes the text has.
    #[inline]
    pub fn len(&self) -> usize {
        if self.is_inside {
            self.at
        } else {
            self.bytes.len()
        }
    }

    /// How many bytes the open run holds; none where none is open.
    #[inline]
    pub fn run_len(&self) -> usize {
        if self.is_inside {
            self.bytes.len() - self.from
        } else {
            self.aside.len()
        }
    }

    /// The same, if a run is open.
    #[inline]
    pub(crate) fn open_run_len(&self) -> Option<usize> {
        if self.is_inside {
            Some(self.bytes.len() - self.from)
        } else {
            self.aside.open_len()
        }
    }

    /// How many bytes the run holds that a packet meets, if it meets one.
    #[inline]
    pub fn met_run_len(&self, is_next: bool) -> Option<usize> {
        if is_next { self.open_run_len() } else { None }
    }

    /// Whether a run is inside.
    #[inline]
    pub(crate) fn is_run_inside(&self) -> bool {
        self.is_inside
    }

    /// Whether a run is inside whose unit has a header of so many bytes.
    #[inline]
    pub(crate) fn holds_run(&self, header_len: usize) -> bool {
        self.is_inside && self.from - self.at - PREFIX_SIZE == header_len
    }

    /// Begins a run anew with these data, inside, where its unit has this header. One that was open is
    /// given up.
    #[inline]
    pub(crate) fn begin_run(&mut self, head: &[u8], body: &[u8]) -> Result<(), PacketError> {
        let size = head.len().saturating_add(PREFIX_SIZE);
        let at = self.len();
        let given_up = self.bytes.len() - at;
        let more = size.saturating_add(body.len()).saturating_sub(given_up);
        self.bytes.try_reserve(more)?;
        self.bytes.truncate(at);
        self.bytes.append_bytes(&ANNEXB_NALUSTART_CODE);
        self.bytes.append_bytes(head);
        self.from = self.bytes.len();
        self.bytes.append_bytes(body);
        self.at = at;
        self.is_inside = true;
        self.aside.close();
        Ok(())
    }

    /// Adds these data to the run that is inside.
    #[inline]
    pub(crate) fn extend_run(&mut self, body: &[u8]) -> Result<(), PacketError> {
        self.bytes.try_reserve(body.len())?;
        self.bytes.append_bytes(body);
        Ok(())
    }

    /// Ends the run that is inside with these data: its unit, which has this header, is text.
    #[inline]
    pub(crate) fn end_run(
        &mut self,
        is_avc: bool,
        head: &[u8],
        body: &[u8],
    ) -> Result<(), PacketError> {
        let behind = self.bytes.len() - self.at - PREFIX_SIZE;
        if is_avc && is_too_long(behind.saturating_add(body.len())) {
            return Err(PacketError::AvcUnitTooLong);
        }
        self.bytes.try_reserve(body.len())?;
        self.bytes.append_bytes(body);
        let prefix = prefix_of(is_avc, behind + body.len());
        put_before(&mut self.bytes, self.at, &prefix, head);
        self.is_inside = false;
        Ok(())
    }

    /// Puts a run that is inside aside. It takes memory only where one is.
    #[inline]
    pub(crate) fn put_aside(&mut self) -> Result<(), PacketError> {
        if self.is_inside {
            self.aside.begin(&self.bytes[self.from..])?;
            self.bytes.truncate(self.at);
            self.is_inside = false;
        }
        Ok(())
    }

    /// Takes the parts of a packet while no run is inside, as `take_packet` does.
    #[inline]
    pub(crate) fn take_aside<C: PacketReader>(
        &mut self,
        codec: C,
        is_avc: bool,
        packet: &[u8],
        parts: Parts<'_>,
        codec_extra: &mut CodecExtra,
    ) -> Result<(), PacketError> {
        let (run, bytes) = (&mut self.aside, &mut self.bytes);
        take_parts(codec, is_avc, packet, parts, run, bytes, codec_extra)
    }

    /// Gives up the open run. Its memory is kept for later ones.
    #[inline]
    pub fn close_run(&mut self) {
        let text_len = self.len();
        self.bytes.truncate(text_len);
        self.is_inside = false;
        self.aside.close();
    }

    /// Gives up the open run, and gives its memory back. The text moves only behind a run that was as
    /// long, or out of memory that is twice as large, and so never more than was taken. Where there is
    /// no smaller place it stays.
    pub fn give_up_run(&mut self) {
        let kept = self.len();
        let is_long = self.is_inside && self.bytes.len() - kept >= kept;
        self.bytes.truncate(kept);
        self.is_inside = false;
        self.aside.give_up();
        self.lacks_place = !give_back(&mut self.bytes, is_long);
    }

    /// Gives up the text, and gives its memory back; where the open run stands in it as much as that
    /// doesn't need, if there is a smaller place. The run stays open.
    pub fn give_up_text(&mut self) {
        if self.is_inside {
            self.bytes.rotate_left(self.at);
            self.bytes.truncate(self.bytes.len() - self.at);
            self.from -= self.at;
            self.at = 0;
            self.lacks_place = !give_back(&mut self.bytes, false);
        } else {
            self.bytes = Vec::new();
            self.lacks_place = false;
        }
    }

    /// Gives back memory that is too large for what stands there, as behind a run that was closed, if
    /// there is a smaller place.
    pub fn give_back(&mut self) {
        let bytes = &mut self.bytes;
        self.lacks_place = !give_back(bytes, false);
    }

    /// Moves a run that is not inside, or none, to where none is.
    #[inline]
    pub(crate) fn move_run(&mut self, to: &mut OpenRun) {
        if self.aside.is_open() {
            mem::swap(&mut self.aside, to);
        }
    }

    /// The text alone: an open run goes.
    #[inline]
    pub fn into_text(mut self) -> Vec<u8> {
        let len = self.len();
        self.bytes.truncate(len);
        self.bytes
    }
}

/// Puts a prefix and a header in the place that was left for them from here on.
#[inline]
fn put_before(bytes: &mut [u8], at: usize, prefix: &[u8], head: &[u8]) {
    let from = at + prefix.len();
    bytes[at..from].copy_from_slice(prefix);
    bytes[from..from + head.len()].copy_from_slice(head);
}
