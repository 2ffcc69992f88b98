// Made from crates/h26x_c/src/parts.rt by tools/to-rust.

//! The calls that walk what RTP packets bear: the elements of a header extension (RFC 8285), and the
//! blocks before the primary one of a redundant payload (RFC 2198).

use crate::proved::h26x_c::rtp::code_of_red;
use crate::proved::h26x_codes::code::OK;
use crate::proved::h26x_rtp::{RedBlock, RedBlocks, RedPayload, RtpElementError, RtpExtension};
use core::mem::MaybeUninit;

/// No element begins from a place on.
const NO_ELEMENT: u32 = 75;

/// An element passes the end of its extension.
const ELEMENT_PAST_THE_END: u32 = 76;

/// An element of a header extension in numbers.
#[repr(C)]
#[derive(Clone, Copy)]
pub struct ElementPlace {
    pub begin: usize,
    pub len: usize,
    pub id: u8,
}

/// A block before the primary one in numbers.
#[repr(C)]
#[derive(Clone, Copy)]
pub struct BlockPlace {
    pub begin: usize,
    pub len: usize,
    pub timestamp_offset: u16,
    pub payload_type: u8,
}

/// Where the next element of a header extension is, from a place on.
pub fn h26x_rtp_element_next(
    profile: u16,
    extension: &[u8],
    from: usize,
    element: &mut MaybeUninit<ElementPlace>,
) -> u32 {
    let extension = RtpExtension {
        profile,
        bytes: extension,
    };
    match extension.element_from(from) {
        Ok(Some(it)) => {
            element.write(ElementPlace {
                begin: it.place,
                len: it.element.bytes.len(),
                id: it.element.id,
            });
            OK
        }
        Ok(None) => NO_ELEMENT,
        Err(RtpElementError::PastTheEnd) => ELEMENT_PAST_THE_END,
    }
}

/// A block that begins at a place, in numbers.
fn place_of(begin: usize, block: RedBlock<'_>) -> BlockPlace {
    BlockPlace {
        begin,
        len: block.bytes.len(),
        timestamp_offset: block.timestamp_offset,
        payload_type: block.payload_type,
    }
}

/// Tells of blocks that stand from a place on, as many as there is room for.
fn tell_blocks(blocks: RedBlocks<'_>, from: usize, told: &mut [BlockPlace]) {
    let mut begin = from;
    let mut count = 0;
    for block in blocks {
        if count >= told.len() {
            return;
        }
        told[count] = place_of(begin, block);
        begin += block.bytes.len();
        count += 1;
    }
}

/// Reads the blocks before the primary one of a redundant payload: the first ones, as many as there is
/// room for, and how many they all are.
pub fn h26x_red_blocks(
    payload: &[u8],
    blocks: &mut [BlockPlace],
    count: &mut MaybeUninit<usize>,
) -> u32 {
    match RedPayload::read(payload) {
        Ok(it) => {
            let left = it.blocks.left();
            tell_blocks(it.blocks, 4 * left + 1, blocks);
            count.write(left);
            OK
        }
        Err(error) => code_of_red(error),
    }
}
