//! The packets that an end of H.265 shows which receives: those of the proved layer, with `Default` and
//! `Clone`, which panics where memory lacks.

use crate::{
    H265AggregationPacket, H265AggregationUnit, H265AggregationUnitFirst,
    H265FragmentationUnitPacket, H265PACIPacket, H265Payload, H265SingleNALUnitPacket,
};
use alloc::vec::Vec;

macro_rules! plain {
    ($($name:ident),*) => {$(
        impl Default for $name {
            fn default() -> Self {
                Self::empty()
            }
        }

        impl Clone for $name {
            fn clone(&self) -> Self {
                self.try_clone().expect("memory")
            }
        }
    )*};
}

plain!(
    H265AggregationPacket,
    H265AggregationUnit,
    H265AggregationUnitFirst,
    H265FragmentationUnitPacket,
    H265PACIPacket,
    H265Payload,
    H265SingleNALUnitPacket
);

impl H265AggregationPacket {
    /// All units with their headers, in order.
    pub fn nal_units(&self) -> Vec<&[u8]> {
        self.try_nal_units().expect("memory")
    }
}
