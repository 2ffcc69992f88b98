// Made from crates/h26x_handles/src/every_unit.rt by tools/to-rust.

//! Packets of the units of an access unit, where every unit goes.

use crate::proved::h26x_codec::refused_among_all;
use crate::proved::h26x_handles::sending::SendingEndpoint;
use crate::proved::h26x_handles::unit_list::{UnitList, list_sent};
use crate::proved::h26x_packetizer::{EveryUnitError, PacketsSize, Placement};
use crate::support::AllocError;
use core::mem;

impl SendingEndpoint {
    /// Appends the units of an access unit in Annex B form that are sent to a list, as slices of it.
    #[inline(always)]
    fn list_sent<'a>(
        &self,
        access_unit: &'a [u8],
        list: &mut UnitList<'a>,
    ) -> Result<(), AllocError> {
        let codec = self.packetizer.codec();
        list_sent(codec, self.settings.delimiters, access_unit, list)
    }

    /// An error of sending them, a refused unit by its place among all units of the access unit.
    fn refused_among_all(&self, access_unit: &[u8], error: EveryUnitError) -> EveryUnitError {
        let codec = self.packetizer.codec();
        refused_among_all(codec, self.settings.delimiters, access_unit, error)
    }

    /// Makes the packets of the units of an access unit in Annex B form, of which none is left out but
    /// delimiters and filler where the settings say so; they take the place of the last call's. The
    /// first unit that can't go is named, and nothing is sent then.
    pub fn packetize_units(
        &mut self,
        mtu: usize,
        access_unit: &[u8],
    ) -> Result<(), EveryUnitError> {
        let mut list = UnitList::new(access_unit);
        self.list_sent(access_unit, &mut list)?;
        let packing = self.settings.packing;
        self.spare.clear();
        match self
            .packetizer
            .packetize_units_into(packing, mtu, list.as_slice(), &mut self.spare)
        {
            Ok(()) => {
                mem::swap(&mut self.packets, &mut self.spare);
                Ok(())
            }
            Err(error) => Err(self.refused_among_all(access_unit, error)),
        }
    }

    /// How much memory the packets of the units of an access unit take, each behind so many bytes.
    /// Nothing changes, and units are refused as where the packets are made.
    pub fn units_size(
        &self,
        mtu: usize,
        access_unit: &[u8],
        headroom: usize,
    ) -> Result<PacketsSize, EveryUnitError> {
        let mut list = UnitList::new(access_unit);
        self.list_sent(access_unit, &mut list)?;
        let packing = self.settings.packing;
        match self
            .packetizer
            .units_size(packing, mtu, list.as_slice(), headroom)
        {
            Ok(size) => Ok(size),
            Err(error) => Err(self.refused_among_all(access_unit, error)),
        }
    }

    /// Copies the packets of the units of an access unit straight to memory where they fit; else
    /// nothing is done. Units are refused as where the packets stay here.
    pub fn packetize_units_to_memory(
        &mut self,
        mtu: usize,
        access_unit: &[u8],
        headroom: usize,
        to: &mut [u8],
        ends: &mut [usize],
    ) -> Result<Placement, EveryUnitError> {
        let mut list = UnitList::new(access_unit);
        self.list_sent(access_unit, &mut list)?;
        let packing = self.settings.packing;
        let made = self.packetizer.packetize_units_to_memory(
            packing,
            mtu,
            list.as_slice(),
            headroom,
            to,
            ends,
        );
        match made {
            Ok(placement) => Ok(placement),
            Err(error) => Err(self.refused_among_all(access_unit, error)),
        }
    }
}
