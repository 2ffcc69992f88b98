//! Answers to offers.

use super::{BrokenRule, CodecParameters, Parameter};
use crate::proved::h26x_answers::{FormatFault, answer_format, own_fault};
use crate::support::AllocError;
use core::error::Error;
use core::fmt;
use core::slice;

pub use crate::proved::h26x_answers::{AnswerConfig, AnswerRules, Direction};

/// There was no memory. Nothing has changed.
#[derive(Debug, Clone, Copy, PartialEq, Eq, Hash)]
pub struct OutOfMemory;

impl fmt::Display for OutOfMemory {
    fn fmt(&self, f: &mut fmt::Formatter<'_>) -> fmt::Result {
        f.write_str("out of memory")
    }
}

impl Error for OutOfMemory {}

impl From<AllocError> for OutOfMemory {
    fn from(_: AllocError) -> Self {
        OutOfMemory
    }
}

/// An end that takes units in any order.
const ANY_ORDER: AnswerConfig = AnswerConfig {
    any_order: true,
    rules: AnswerRules::Rfc,
    direction: Direction::SendRecv,
    multicast: false,
};

/// A payload type and the parameters of its format, as an offer has several of them.
#[derive(Debug, Clone, PartialEq, Eq, Hash)]
pub struct Format<P: Parameter> {
    /// The payload type.
    pub payload_type: u8,
    /// What an `a=fmtp` line says of it.
    pub parameters: CodecParameters<P>,
}

impl<P: Parameter> CodecParameters<P> {
    /// The answer to these parameters of an offer, by the first of ours that gives one; `None` where none does (RFC
    /// 3264, section 6; RFC 6184, section 8.2.2; RFC 7798, section 7.2.2; RFC 9328, section 7.3.2).
    ///
    /// Profile, packetization mode and what else is of both directions are as offered and as ours; the level is the
    /// lower one, or our own where both ends allow each direction its own; the rest is ours. What each end may send
    /// then fits what the other said that it receives. An offer of a profile or level that the standard hasn't has no
    /// answer, nor has one whose units may be sent in another order than decoded (`packetization-mode` 2,
    /// `sprop-max-don-diff` above 0), and one of ours with a [`broken_rule`](Self::broken_rule) gives none.
    ///
    /// ```
    /// use emupedestal::sdp::H264Parameters;
    ///
    /// let offered: H264Parameters = "profile-level-id=42e01f;packetization-mode=1".parse()?;
    /// let ours = ["profile-level-id=64001f;packetization-mode=1", "profile-level-id=42e015;packetization-mode=1"];
    /// let ours = ours.map(|it| it.parse().expect("our own"));
    /// let answer = offered.answer(&ours)?.expect("one in common");
    /// assert_eq!(answer.to_string(), "profile-level-id=42e015;packetization-mode=1");
    /// # Ok::<(), Box<dyn std::error::Error>>(())
    /// ```
    ///
    /// # Errors
    ///
    /// Where memory lacks.
    pub fn answer(&self, ours: &[Self]) -> Result<Option<Self>, OutOfMemory> {
        self.answer_with(AnswerConfig::default(), ours)
    }

    /// The same by an end that takes units in any order: one that reads STAP-B, MTAP and FU-B of H.264, which this crate
    /// doesn't, and puts units in order by their decoding order numbers.
    ///
    /// ```
    /// use emupedestal::sdp::{BrokenRule, H265Parameters};
    ///
    /// let own: H265Parameters = "sprop-max-don-diff=4;sprop-depack-buf-nalus=2;sprop-depack-buf-bytes=9000".parse()?;
    /// assert_eq!(own.broken_rule(), Some(BrokenRule::OutOfOrder));
    /// assert!(own.answer(&[own.clone()])?.is_none() && own.answer_any_order(&[own.clone()])?.is_some());
    /// # Ok::<(), Box<dyn std::error::Error>>(())
    /// ```
    ///
    /// # Errors
    ///
    /// Where memory lacks.
    pub fn answer_any_order(&self, ours: &[Self]) -> Result<Option<Self>, OutOfMemory> {
        self.answer_with(ANY_ORDER, ours)
    }

    /// The same of an end that answers by a configuration: by the rules of the RFCs or as WebRTC's peers do it, of units
    /// in decoding order or in any, both ways or in one direction.
    ///
    /// ```
    /// use emupedestal::sdp::{AnswerConfig, AnswerRules, H264Parameters};
    ///
    /// let safari: H264Parameters = "packetization-mode=1;profile-level-id=640c1f".parse()?;
    /// let ours: [H264Parameters; 1] = ["packetization-mode=1;profile-level-id=64001f".parse()?];
    /// let webrtc = AnswerConfig { rules: AnswerRules::Webrtc, ..AnswerConfig::default() };
    /// assert!(safari.answer(&ours)?.is_none());
    /// assert_eq!(safari.answer_with(webrtc, &ours)?, Some(safari));
    /// # Ok::<(), Box<dyn std::error::Error>>(())
    /// ```
    ///
    /// An answer in one direction has nothing in it that isn't usable there, and what isn't usable in the offer's is
    /// ignored: who receives alone tells no parameter sets.
    ///
    /// ```
    /// use emupedestal::sdp::{AnswerConfig, Direction, H264Parameters};
    ///
    /// let camera: H264Parameters = "profile-level-id=42e01f;packetization-mode=1;max-fs=5120".parse()?;
    /// let ours: [H264Parameters; 1] =
    ///     ["profile-level-id=42e01f;packetization-mode=1;sprop-parameter-sets=Z0LAH5WoFAFuQA==,aM4yyA==;max-br=20000".parse()?];
    /// let receives = AnswerConfig { direction: Direction::RecvOnly, ..AnswerConfig::default() };
    /// let answer = camera.answer_with(receives, &ours)?.expect("one in common");
    /// assert_eq!(answer.to_string(), "profile-level-id=42e01f;max-br=20000;packetization-mode=1");
    /// # Ok::<(), Box<dyn std::error::Error>>(())
    /// ```
    ///
    /// An answer of multicast keeps the offered level, and there is none where ours is below it.
    ///
    /// ```
    /// use emupedestal::sdp::{AnswerConfig, H264Parameters};
    ///
    /// let offered: H264Parameters = "profile-level-id=42e01f;level-asymmetry-allowed=1".parse()?;
    /// let above: [H264Parameters; 1] = ["profile-level-id=42e028;level-asymmetry-allowed=1".parse()?];
    /// let below: [H264Parameters; 1] = ["profile-level-id=42e01e;max-recv-level=e028".parse()?];
    /// let multicast = AnswerConfig { multicast: true, ..AnswerConfig::default() };
    /// let answer = offered.answer_with(multicast, &above)?.expect("one in common");
    /// assert_eq!(answer.to_string(), "profile-level-id=42e01f");
    /// assert!(offered.answer_with(multicast, &below)?.is_none());
    /// assert!(offered.answer(&below)?.is_some());
    /// # Ok::<(), Box<dyn std::error::Error>>(())
    /// ```
    ///
    /// # Errors
    ///
    /// Where memory lacks.
    pub fn answer_with(
        &self,
        config: AnswerConfig,
        ours: &[Self],
    ) -> Result<Option<Self>, OutOfMemory> {
        for own in ours {
            if let Some(of) = answer_format(config, &self.of, slice::from_ref(&own.of))? {
                return Ok(Some(CodecParameters { of }));
            }
        }
        Ok(None)
    }

    /// The first rule that these parameters break as a format of one's own, if they break one: of its RFC, or that units
    /// are sent in the order in which they are decoded.
    ///
    /// ```
    /// use emupedestal::sdp::{BrokenRule, H264Parameter, H264Parameters};
    ///
    /// let own: H264Parameters = "profile-level-id=42e01f;max-fs=99".parse()?;
    /// assert_eq!(own.broken_rule(), Some(BrokenRule::BelowLevel(H264Parameter::MaxFs))); // 3600 at level 3.1
    /// # Ok::<(), emupedestal::sdp::ParametersError>(())
    /// ```
    pub fn broken_rule(&self) -> Option<BrokenRule<P>> {
        self.broken_rule_with(AnswerConfig::default())
    }

    /// The same of an end that answers by a configuration.
    pub fn broken_rule_with(&self, config: AnswerConfig) -> Option<BrokenRule<P>> {
        Some(match own_fault(config, &self.of)? {
            FormatFault::Profile => BrokenRule::Profile,
            FormatFault::Level => BrokenRule::Level,
            FormatFault::HighestLevel => BrokenRule::HighestLevel,
            FormatFault::BelowLevel { place } => BrokenRule::BelowLevel(*P::all().get(place)?),
            FormatFault::AboveLevel { place } => BrokenRule::AboveLevel(*P::all().get(place)?),
            FormatFault::Reordering => BrokenRule::Reordering,
            FormatFault::AspectRatios => BrokenRule::AspectRatios,
            FormatFault::InBandSets => BrokenRule::InBandSets,
            FormatFault::HashTypes => BrokenRule::HashTypes,
            FormatFault::OutOfOrder => BrokenRule::OutOfOrder,
        })
    }
}

impl<P: Parameter> Format<P> {
    /// The answer to an offer: of its formats, in its order of preference, the first that one of ours answers, with its
    /// payload type; `None` where no two have a configuration in common.
    ///
    /// ```
    /// use emupedestal::sdp::{Format, H264Parameter};
    ///
    /// let format = |payload_type, line: &str| {
    ///     let parameters = line.parse().expect("parameters");
    ///     Format::<H264Parameter> { payload_type, parameters }
    /// };
    /// let offer = [
    ///     format(102, "level-asymmetry-allowed=1;packetization-mode=1;profile-level-id=42001f"),
    ///     format(106, "level-asymmetry-allowed=1;packetization-mode=1;profile-level-id=42e01f"),
    /// ];
    /// let ours = ["profile-level-id=42e034;level-asymmetry-allowed=1;packetization-mode=1".parse()?];
    /// let answer = Format::answer_to(&offer, &ours)?.expect("one in common");
    /// assert_eq!((answer.payload_type, answer.parameters.profile_level_id()), (106, [0x42, 0xe0, 0x34]));
    /// # Ok::<(), Box<dyn std::error::Error>>(())
    /// ```
    ///
    /// # Errors
    ///
    /// Where memory lacks.
    pub fn answer_to(
        offer: &[Self],
        ours: &[CodecParameters<P>],
    ) -> Result<Option<Self>, OutOfMemory> {
        Self::answer_to_with(AnswerConfig::default(), offer, ours)
    }

    /// The same by an end that takes units in any order, as [`CodecParameters::answer_any_order`].
    ///
    /// # Errors
    ///
    /// Where memory lacks.
    pub fn answer_to_any_order(
        offer: &[Self],
        ours: &[CodecParameters<P>],
    ) -> Result<Option<Self>, OutOfMemory> {
        Self::answer_to_with(ANY_ORDER, offer, ours)
    }

    /// The same of an end that answers by a configuration, as [`CodecParameters::answer_with`].
    ///
    /// # Errors
    ///
    /// Where memory lacks.
    pub fn answer_to_with(
        config: AnswerConfig,
        offer: &[Self],
        ours: &[CodecParameters<P>],
    ) -> Result<Option<Self>, OutOfMemory> {
        for offered in offer {
            if let Some(parameters) = offered.parameters.answer_with(config, ours)? {
                let payload_type = offered.payload_type;
                return Ok(Some(Format {
                    payload_type,
                    parameters,
                }));
            }
        }
        Ok(None)
    }
}
