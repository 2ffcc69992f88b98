//! The parameters of H.266.

use super::getters::getters;
use super::{CodecParameters, ConstraintsError, H266Parameter, InteropConstraints};
use crate::H266ProfileTierLevel;

/// The format parameters of H.266 (RFC 9328, sections 7.1 and 7.2).
///
/// ```
/// use emupedestal::H266ProfileTierLevel;
/// use emupedestal::sdp::H266Parameters;
///
/// let format: H266Parameters = "profile-id=1;tier-flag=0;level-id=83".parse()?;
/// assert_eq!(format.profile_tier_level(), H266ProfileTierLevel::new(1, 0, 83));
/// assert_eq!(format.sprop_vps(), Ok(vec![]));
/// assert_eq!((format.sprop_max_don_diff(), format.sprop_ols_id()), (0, None));
/// # Ok::<(), emupedestal::sdp::ParametersError>(())
/// ```
pub type H266Parameters = CodecParameters<H266Parameter>;

impl CodecParameters<H266Parameter> {
    /// The profile, tier and level of `profile-id`, `tier-flag` and `level-id`, where they are absent Main 10, Main
    /// tier and 3.1; `None` where they aren't known.
    pub fn profile_tier_level(&self) -> Option<H266ProfileTierLevel> {
        H266ProfileTierLevel::new(self.profile_id(), self.tier_flag().into(), self.level_id())
    }

    /// `interop-constraints`; where it is absent frames alone, one layer, and no general ones.
    ///
    /// # Errors
    ///
    /// Where the value is no base64, or isn't as long as it says.
    pub fn interop_constraints(&self) -> Result<InteropConstraints, ConstraintsError> {
        let of = self.of.interop_constraints()?;
        Ok(InteropConstraints { of })
    }
}

getters! {
    H266Parameter;
    given {
        sprop_ols_id: SpropOlsId, u16;
        recv_sublayer_id: RecvSublayerId, u8;
        recv_ols_id: RecvOlsId, u16;
        max_recv_level_id: MaxRecvLevelId, u8;
        max_lsr: MaxLsr, u64;
        max_fps: MaxFps, u64;
    }
    taken {
        profile_id: ProfileId, u8;
        level_id: LevelId, u8;
        sprop_sublayer_id: SpropSublayerId, u8;
        sprop_max_don_diff: SpropMaxDonDiff, u32;
        sprop_depack_buf_bytes: SpropDepackBufBytes, u32;
        depack_buf_cap: DepackBufCap, u32;
    }
    flags {
        tier_flag: TierFlag;
    }
    units {
        sprop_dci: SpropDci;
        sprop_vps: SpropVps;
        sprop_sps: SpropSps;
        sprop_pps: SpropPps;
        sprop_sei: SpropSei;
    }
    texts {
        sub_profile_id: SubProfileId;
    }
}
