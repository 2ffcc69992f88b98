//! The parameters of H.264.

use super::getters::getters;
use super::{CodecParameters, H264Parameter, LevelSets, LevelSetsError, PacketizationMode};
use crate::H264ProfileLevel;
use crate::proved::h26x_answers::sets_of_level;
use alloc::vec::Vec;

/// The format parameters of H.264 (RFC 6184, section 8.1).
///
/// ```
/// use emupedestal::sdp::{H264Parameters, PacketizationMode};
///
/// let line = "packetization-mode=1; sprop-parameter-sets=Z0IACpZTBYmI,aMljiA==; profile-level-id=42000A";
/// let format: H264Parameters = line.parse()?;
/// assert_eq!(format.profile_level_id(), [0x42, 0x00, 0x0a]);
/// assert_eq!(format.packetization_mode(), PacketizationMode::NonInterleaved);
/// let sets = format.sprop_parameter_sets()?;
/// assert_eq!(sets[1], [0x68, 0xc9, 0x63, 0x88]);
/// assert_eq!((format.level_asymmetry_allowed(), format.max_fs()), (false, None));
/// # Ok::<(), Box<dyn std::error::Error>>(())
/// ```
pub type H264Parameters = CodecParameters<H264Parameter>;

impl CodecParameters<H264Parameter> {
    /// profile_idc, profile_iop and level_idc of `profile-level-id`; where it is absent 42000A: Baseline, level 1.
    pub fn profile_level_id(&self) -> [u8; 3] {
        let id = self.value_or_default(H264Parameter::ProfileLevelId);
        let id = id.and_then(|it| u32::from_str_radix(it, 16).ok());
        let [_, profile_idc, profile_iop, level_idc] = id.unwrap_or_default().to_be_bytes();
        [profile_idc, profile_iop, level_idc]
    }

    /// The profile and the level of [`profile_level_id`](Self::profile_level_id); `None` where they aren't known.
    pub fn profile_level(&self) -> Option<H264ProfileLevel> {
        let [profile_idc, profile_iop, level_idc] = self.profile_level_id();
        let id = u32::from_be_bytes([0, profile_idc, profile_iop, level_idc]);
        H264ProfileLevel::try_from(id).ok()
    }

    /// profile_iop and level_idc of `max-recv-level`, which say the highest level that is received; `None` where it
    /// is absent: that of `profile-level-id`.
    pub fn max_recv_level(&self) -> Option<[u8; 2]> {
        let level = self.value(H264Parameter::MaxRecvLevel)?;
        Some(u16::from_str_radix(level, 16).ok()?.to_be_bytes())
    }

    /// `packetization-mode`; where it is absent one unit a packet.
    pub fn packetization_mode(&self) -> PacketizationMode {
        match self.number_or_default(H264Parameter::PacketizationMode) {
            Some(1) => PacketizationMode::NonInterleaved,
            Some(2) => PacketizationMode::Interleaved,
            _ => PacketizationMode::SingleNalUnit,
        }
    }

    /// The parameter sets of other levels of `sprop-level-parameter-sets`; none where it is absent.
    ///
    /// ```
    /// use emupedestal::sdp::H264Parameters;
    ///
    /// let line = "profile-level-id=42e01f;sprop-level-parameter-sets=42e00b:Z0LgCw==,aMs=:42e00c:aMs=";
    /// let levels = line.parse::<H264Parameters>()?.sprop_level_parameter_sets()?;
    /// assert_eq!(levels[0].profile_level_id, [0x42, 0xe0, 0x0b]);
    /// assert_eq!(levels[0].sets, [vec![0x67, 0x42, 0xe0, 0x0b], vec![0x68, 0xcb]]);
    /// # Ok::<(), Box<dyn std::error::Error>>(())
    /// ```
    ///
    /// # Errors
    ///
    /// The first that is none is told by its place.
    pub fn sprop_level_parameter_sets(&self) -> Result<Vec<LevelSets>, LevelSetsError> {
        Ok(self.of.level_sets()?.unwrap_or_default())
    }

    /// The parameter sets of `sprop-level-parameter-sets` that are of a level, as the `level` of an
    /// [`AgreedStream`](super::AgreedStream) has it: the first of that level; `None` where there is none.
    ///
    /// ```
    /// use emupedestal::sdp::H264Parameters;
    ///
    /// let line = "profile-level-id=42e01f;sprop-level-parameter-sets=42e00b:Z0LgCw==:42f00b:aMs=";
    /// let format: H264Parameters = line.parse()?;
    /// assert_eq!(format.sets_of_level(21)?, Some(vec![vec![0x68, 0xcb]])); // level 1b
    /// assert_eq!(format.sets_of_level(62)?, None);
    /// # Ok::<(), Box<dyn std::error::Error>>(())
    /// ```
    ///
    /// # Errors
    ///
    /// The first that is none is told by its place, of any level.
    pub fn sets_of_level(&self, level: u64) -> Result<Option<Vec<Vec<u8>>>, LevelSetsError> {
        let levels = self.sprop_level_parameter_sets()?;
        Ok(sets_of_level(&levels, level).map(|it| it.sets.clone()))
    }

    /// `in-band-parameter-sets`: true where parameter sets outside the stream are discarded, false where they are
    /// used, `None` where it is absent.
    pub fn in_band_parameter_sets(&self) -> Option<bool> {
        let number = self.number(H264Parameter::InBandParameterSets)?;
        Some(number == 1)
    }
}

getters! {
    H264Parameter;
    given {
        max_mbps: MaxMbps, u64;
        max_smbps: MaxSmbps, u64;
        max_fs: MaxFs, u64;
        max_cpb: MaxCpb, u64;
        max_dpb: MaxDpb, u64;
        max_br: MaxBr, u64;
        sprop_interleaving_depth: SpropInterleavingDepth, u16;
        sprop_deint_buf_req: SpropDeintBufReq, u32;
        sprop_init_buf_time: SpropInitBufTime, u64;
        sprop_max_don_diff: SpropMaxDonDiff, u32;
        max_rcmd_nalu_size: MaxRcmdNaluSize, u64;
        sar_supported: SarSupported, u8;
    }
    taken {
        deint_buf_cap: DeintBufCap, u32;
        sar_understood: SarUnderstood, u8;
    }
    flags {
        redundant_pic_cap: RedundantPicCap;
        use_level_src_parameter_sets: UseLevelSrcParameterSets;
        level_asymmetry_allowed: LevelAsymmetryAllowed;
    }
    units {
        sprop_parameter_sets: SpropParameterSets;
    }
    texts {}
}
