//! What an offer and its answer agree on, and formats that are declared.

use super::{AnswerConfig, CodecParameters, Parameter};
use crate::proved::h26x_answers::{accepts_declared, agreed_streams};
use core::slice;

pub use crate::proved::h26x_answers::{Agreed, AgreedSets, AgreedStream};

impl<P: Parameter> CodecParameters<P> {
    /// What is agreed by an offered format and its answer, of the end that wrote these parameters, in its direction
    /// `config.direction`, and the other end's: which of the two is the answer makes no difference (RFC 6184, section
    /// 8.2.2; RFC 7798, section 7.2.2; RFC 9328, section 7.3.2).
    ///
    /// ```
    /// use emupedestal::sdp::{AgreedSets, AnswerConfig, Direction, H264Parameters};
    ///
    /// let sets = "profile-level-id=42e01f;packetization-mode=1;sprop-parameter-sets=aM4yyA==";
    /// let offer: H264Parameters = sets.parse()?;
    /// let answer: H264Parameters = "profile-level-id=42e01f;packetization-mode=1".parse()?;
    /// let receives = AnswerConfig { direction: Direction::RecvOnly, ..AnswerConfig::default() };
    /// let agreed = answer.agreed_with(receives, &offer);
    /// let stream = agreed.receives.expect("a level");
    /// assert_eq!((stream.level, stream.mode), (62, Some(1))); // level 3.1
    /// assert_eq!((stream.sets, agreed.sends), (AgreedSets::Told, None));
    /// # Ok::<(), Box<dyn std::error::Error>>(())
    /// ```
    pub fn agreed_with(&self, config: AnswerConfig, other: &Self) -> Agreed {
        agreed_streams(config, &self.of, &other.of)
    }

    /// Whether one of ours receives these parameters as they are, which a description declares and doesn't offer, as
    /// those of RTSP and SAP (RFC 6184, section 8.2.3; RFC 7798, section 7.2.3; RFC 9328, section 7.3.3).
    ///
    /// ```
    /// use emupedestal::sdp::{AnswerConfig, H264Parameters};
    ///
    /// let camera: H264Parameters = "profile-level-id=42e01f;packetization-mode=1".parse()?;
    /// let low: H264Parameters = "profile-level-id=42e00b;packetization-mode=1".parse()?;
    /// let high: H264Parameters = "profile-level-id=42e00b;packetization-mode=1;max-recv-level=e01f".parse()?;
    /// assert!(!camera.is_accepted_with(AnswerConfig::default(), &[low.clone()]));
    /// assert!(camera.is_accepted_with(AnswerConfig::default(), &[low, high]));
    /// # Ok::<(), Box<dyn std::error::Error>>(())
    /// ```
    pub fn is_accepted_with(&self, config: AnswerConfig, ours: &[Self]) -> bool {
        ours.iter()
            .any(|own| accepts_declared(config, &self.of, slice::from_ref(&own.of)))
    }
}
