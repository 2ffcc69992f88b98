//! The parameters of H.265.

use super::getters::getters;
use super::{CapabilityPoint, CapabilityPointsError, CodecParameters, H265Parameter, TxMode};
use crate::H265ProfileTierLevel;
use alloc::vec::Vec;

/// The format parameters of H.265 (RFC 7798, section 7.1).
///
/// ```
/// use emupedestal::sdp::{H265Parameters, TxMode};
/// use emupedestal::{H265ProfileTierLevel, Codec, CodecPacketizer};
///
/// let format: H265Parameters = "level-id=120;profile-id=1;sprop-max-don-diff=2".parse()?;
/// assert_eq!(format.profile_tier_level(), H265ProfileTierLevel::new(1, 0, 120));
/// assert_eq!((format.tx_mode(), format.max_recv_level_id()), (TxMode::SingleStream, None));
/// let mut packetizer = CodecPacketizer::new(Codec::H265);
/// packetizer.configure_for(Some(format.sprop_max_don_diff())); // packets bear numbers
/// # Ok::<(), emupedestal::sdp::ParametersError>(())
/// ```
pub type H265Parameters = CodecParameters<H265Parameter>;

impl CodecParameters<H265Parameter> {
    /// The profile, tier and level of `profile-id`, `tier-flag` and `level-id`, where they are absent Main, Main tier
    /// and 3.1; `None` where they aren't known, or `profile-space` isn't 0.
    pub fn profile_tier_level(&self) -> Option<H265ProfileTierLevel> {
        let is_known = self.profile_space() == 0;
        let it =
            H265ProfileTierLevel::new(self.profile_id(), self.tier_flag().into(), self.level_id());
        it.filter(|_| is_known)
    }

    /// The 48 bits of `interop-constraints`, the first the highest; where it is absent B00000000000.
    pub fn interop_constraints(&self) -> u64 {
        let [a, b, c, d, e, f] = self.of.interop_constraints().unwrap_or_default();
        u64::from_be_bytes([0, 0, a, b, c, d, e, f])
    }

    /// What the receiver can do where pictures are coded for parallel decoding, `dec-parallel-cap`; none where it is
    /// absent.
    ///
    /// # Errors
    ///
    /// The first point that is none is told by its place.
    pub fn capability_points(&self) -> Result<Vec<CapabilityPoint>, CapabilityPointsError> {
        Ok(self.of.capability_points()?.unwrap_or_default())
    }

    /// The same, each with the limits that it leaves out, as [`inferred`](Self::inferred) has them.
    ///
    /// # Errors
    ///
    /// Those of [`capability_points`](Self::capability_points).
    pub fn capability_points_or_default(
        &self,
    ) -> Result<Vec<CapabilityPoint>, CapabilityPointsError> {
        let mut points = self.capability_points()?;
        for point in &mut points {
            *point = self.inferred(*point);
        }
        Ok(points)
    }

    /// A capability point with the limits that it leaves out: `tier-flag`, `max-recv-level-id`, `max-lsr`, `max-lps`
    /// and `max-br` of these parameters.
    ///
    /// ```
    /// use emupedestal::sdp::H265Parameters;
    ///
    /// let format: H265Parameters = "level-id=93;dec-parallel-cap={t:8;level-id=120}".parse()?;
    /// let point = format.inferred(format.capability_points()?[0]);
    /// assert_eq!((point.spatial_segmentation, point.level_id, point.tier_flag), (8, Some(120), Some(0)));
    /// # Ok::<(), Box<dyn std::error::Error>>(())
    /// ```
    pub fn inferred(&self, point: CapabilityPoint) -> CapabilityPoint {
        self.of.inferred(point)
    }

    /// The 32 flags of `profile-compatibility-indicator`, the first the highest; `None` where it is absent.
    pub fn profile_compatibility_indicator(&self) -> Option<u32> {
        let digits = self.value(H265Parameter::ProfileCompatibilityIndicator)?;
        u32::from_str_radix(digits, 16).ok()
    }

    /// `tx-mode`; where it is absent one stream.
    pub fn tx_mode(&self) -> TxMode {
        match self.value(H265Parameter::TxMode) {
            Some("MRST") => TxMode::MultipleStreams,
            Some("MRMT") => TxMode::MultipleSessions,
            _ => TxMode::SingleStream,
        }
    }
}

getters! {
    H265Parameter;
    given {
        recv_sub_layer_id: RecvSubLayerId, u8;
        max_recv_level_id: MaxRecvLevelId, u8;
        max_lsr: MaxLsr, u64;
        max_lps: MaxLps, u64;
        max_cpb: MaxCpb, u64;
        max_br: MaxBr, u64;
        max_tr: MaxTr, u64;
        max_tc: MaxTc, u64;
        max_fps: MaxFps, u64;
        sprop_spatial_segmentation_idc: SpropSpatialSegmentationIdc, u16;
    }
    taken {
        profile_space: ProfileSpace, u8;
        profile_id: ProfileId, u8;
        level_id: LevelId, u8;
        sprop_sub_layer_id: SpropSubLayerId, u8;
        max_dpb: MaxDpb, u8;
        sprop_max_don_diff: SpropMaxDonDiff, u32;
        sprop_depack_buf_nalus: SpropDepackBufNalus, u16;
        sprop_depack_buf_bytes: SpropDepackBufBytes, u32;
        depack_buf_cap: DepackBufCap, u32;
        sprop_segmentation_id: SpropSegmentationId, u8;
    }
    flags {
        tier_flag: TierFlag;
    }
    units {
        sprop_vps: SpropVps;
        sprop_sps: SpropSps;
        sprop_pps: SpropPps;
        sprop_sei: SpropSei;
    }
    texts {
        dec_parallel_cap: DecParallelCap;
        include_dph: IncludeDph;
    }
}
