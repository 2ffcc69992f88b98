//! What is told of a fault.

use crate::proved::h26x_fmtp::Fault;
use core::error::Error;
use core::fmt;

impl fmt::Display for Fault {
    fn fmt(&self, f: &mut fmt::Formatter<'_>) -> fmt::Result {
        f.write_str(match self {
            Fault::NotANumber => "its value is no decimal number",
            Fault::OutOfRange => "its value is out of its range",
            Fault::NotHexadecimal => "its value isn't the hexadecimal digits that it has",
            Fault::NotTxMode => "its value is none of SRST, MRST and MRMT",
            Fault::Twice => "it is given twice",
        })
    }
}

impl Error for Fault {}
