// Made from crates/h265_packets/src/lib.rt by tools/to-rust.

//! The packets of H.265 (RFC 7798, 4.4) as a depacketizer shows them, their parts and when they
//! are equal, and PACI packets packed.
mod aggregation;
mod first_unit;
mod fragmentation;
pub mod header;
mod other_unit;
mod paci;
mod paci_packing;
mod payload;
mod single;

pub use aggregation::H265AggregationPacket;
pub use first_unit::H265AggregationUnitFirst;
pub use fragmentation::H265FragmentationUnitPacket;
pub use other_unit::H265AggregationUnit;
pub use paci::H265PACIPacket;
pub use payload::H265Payload;
pub use single::H265SingleNALUnitPacket;
