//! What the calls say in words, as `bindings/library/words.c` has them.

use core::ffi::{CStr, c_char};
use core::ptr::null;

/// The version of the library, as `H26X_VERSION_NUMBER`.
#[unsafe(no_mangle)]
pub extern "C" fn h26x_version() -> u32 {
    const fn number(text: &str) -> u32 {
        let (bytes, mut i, mut it) = (text.as_bytes(), 0, 0);
        while i < bytes.len() {
            it = it * 10 + (bytes[i] - b'0') as u32;
            i += 1;
        }
        it
    }
    const {
        (number(env!("CARGO_PKG_VERSION_MAJOR")) << 16)
            | (number(env!("CARGO_PKG_VERSION_MINOR")) << 8)
            | number(env!("CARGO_PKG_VERSION_PATCH"))
    }
}

/// Which library it is: made from the translated sources, of this version, for this target.
#[unsafe(no_mangle)]
pub extern "C" fn h26x_origin() -> *const c_char {
    const TEXT: &str = concat!(
        "source ",
        env!("CARGO_PKG_VERSION"),
        " ",
        env!("H26X_TARGET"),
        "\0"
    );
    TEXT.as_ptr().cast()
}

/// A code in words.
#[unsafe(no_mangle)]
pub extern "C" fn h26x_strerror(code: u32) -> *const c_char {
    let text: &CStr = match code {
        0 => c"carried out",
        1 => c"the packet is shorter than its type asks for",
        2 => c"an H.264 packet of this type is not handled",
        3 => c"a unit of the STAP-A is longer than what is left of the packet",
        4 => c"the H.265 packet has its forbidden bit set",
        5 => c"the extension of a PACI packet is longer than 31 bytes",
        6 => c"the H.266 packet has its forbidden bit set, or aggregates a packet",
        7 => c"the unit is too long for a length of four bytes",
        8 => c"out of memory",
        9 => c"no codec has this number",
        10 => c"the handle is of another kind",
        11 => c"the codec has no such setting",
        12 => c"the number is out of range",
        13 => c"the output has no room for it",
        14 => c"no access unit has ended",
        15 => c"the unit has no whole header",
        16 => c"the unit has its forbidden bit set",
        17 => c"the unit has a type of packets, or that no unit has",
        18 => c"the unit is too long for the packets",
        20 => c"a brace is left open",
        21 => c"the value is no decimal number",
        22 => c"the value is out of the parameter's range",
        23 => c"the value is not the hexadecimal digits that the parameter has",
        24 => c"the value is none of SRST, MRST and MRMT",
        25 => c"the parameter is given twice",
        26 => c"the RFC has no parameter of this name",
        27 => c"the parameter is not given, or none is behind the last",
        28 => c"the parameter is no number, or no units",
        29 => c"the unit is no base64",
        30 => c"the unit has no byte",
        31 => c"the unit is of no type that the parameter is for",
        32 => c"the unit has a start code inside",
        33 => c"no parameter set says a profile and a level",
        34 => c"the parameter set is too short",
        35 => c"the parameter set says no profile",
        37 => c"the two formats have no configuration in common",
        38 => c"the payload type is no number of 7 bits",
        39 => c"the encoding name is none of H264, H265 and H266",
        40 => c"the clock rate is not 90000",
        41 => c"the capability points are not in braces",
        42 => c"the capability point is for no tool",
        43 => c"the number of the capability point is none from 1 to 4095",
        44 => c"the limits of the capability point are refused",
        45 => c"the capability point has no limit",
        46 => c"the constraints are no base64",
        47 => c"the constraints are too short",
        48 => c"bytes stand behind the constraints",
        49 => c"the text is more than a value",
        50 => c"the datagram is shorter than an RTP header",
        51 => c"the RTP version is not 2",
        52 => c"CSRCs pass the end of the packet",
        53 => c"the header extension passes the end of the packet",
        54 => c"the padding has 0 bytes",
        55 => c"the padding is longer than what is left of the packet",
        56 => c"the payload type is above 127",
        57 => c"the CSRCs are not whole, or more than 15",
        58 => c"the header extension has no whole words, or more than 65535",
        59 => c"the last byte of the padding is not its length",
        60 => c"the retransmission packet bears no original",
        61 => c"headers of redundant blocks pass the end of the payload",
        62 => c"redundant blocks pass the end of the payload",
        63 => c"the format says no payload type that it belongs to",
        64 => c"the standard has no such profile",
        65 => c"the standard has no such level",
        66 => c"the highest level is none above the level",
        67 => c"the parameter is below what the level asks for",
        68 => c"what is said of packets out of order does not fit",
        69 => c"units may be sent in another order than decoded",
        70 => c"the parameter is above 16 times what the level asks for",
        71 => c"more aspect ratios are supported than understood",
        72 => c"parameter sets of levels are used where all go in band",
        73 => c"types of hashes are no list of numbers up to 255",
        74 => c"a level has no parameter sets",
        75 => c"no element of the header extension is left",
        76 => c"an element passes the end of the header extension",
        _ => c"unknown code",
    };
    text.as_ptr()
}

/// What SDP calls a codec.
#[unsafe(no_mangle)]
pub extern "C" fn h26x_codec_name(codec: u32) -> *const c_char {
    match codec {
        264 => c"H264".as_ptr(),
        265 => c"H265".as_ptr(),
        266 => c"H266".as_ptr(),
        _ => null(),
    }
}
