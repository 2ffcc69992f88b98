// Made from crates/h26x_answers/src/answer.rt by tools/to-rust.

//! Answers to offers of formats (RFC 3264, section 6; RFC 6184, section 8.2.2; RFC 7798, section 7.2.2;
//! RFC 9328, section 7.3.2).

pub(crate) mod by_level;
pub(crate) mod h264;
pub(crate) mod h265;
pub(crate) mod h266;
pub(crate) mod own_h264;
pub(crate) mod own_h265;
pub(crate) mod own_h266;
mod usable;

use crate::proved::h26x_answers::answer::usable::{heard, usable};
use crate::proved::h26x_answers::direction::{Direction, Usage};
use crate::proved::h26x_answers::fault::FormatFault;
use crate::proved::h26x_fmtp::{FormatParameters, Kind, OtherParameter, ParameterRow, same_name};
use crate::proved::h26x_sdp::{CodecParameter, CodecParameters};
use crate::support::AllocError;
use crate::support::TryVec;
use alloc::vec::Vec;

/// What a parameter is in an offer and its answer (RFC 6184, section 8.2.2, table 6; RFC 7798, section
/// 7.2.2, table 1; RFC 9328, section 7.3.2.3, figure 11).
#[derive(Debug, Clone, Copy, PartialEq, Eq)]
pub enum Role {
    /// Configuration of both directions: the answer has the offer's value, and ours says the same.
    Configuration,
    /// The same, which the terms of the codec compare: where another parameter says what it is if it's
    /// absent, and where not all peers look at it.
    Compared,
    /// The profile and level, or the level: the answer's depends on both.
    Level,
    /// The highest level that is received, where the answer's depends on both.
    HighestLevel,
    /// Whether each direction may have a level of its own: our own, where both ends allow it.
    Asymmetry,
    /// Of a stream whose units are sent in another order than decoded: our own, of such a stream alone.
    Reordering,
    /// Parameter sets: our own, where they are of the answer's level.
    Sets,
    /// Parameter sets of other levels: our own, where such a level is to be used.
    LevelSets,
    /// What an end receives or sends: our own.
    Own,
    /// The choice of an operation point: none.
    OperationPoint,
}

/// The rules by which formats of a codec are answered: what each parameter is, and what two formats
/// agree on.
pub trait CodecRules: CodecParameter {
    /// What each parameter is, in the order of the table.
    fn roles() -> &'static [Role];

    /// In which directions each parameter is usable, in the order of the table.
    fn usages() -> &'static [Usage];

    /// The terms of an offered format and one of ours, whose configuration is one; `None` where they
    /// have none.
    fn terms(
        rules: AnswerRules,
        offered: &CodecParameters<Self>,
        own: &CodecParameters<Self>,
    ) -> Result<Option<Terms>, AllocError>;

    /// The same in multicast: at the offered level, and `None` where ours is below it.
    fn multicast_terms(
        rules: AnswerRules,
        offered: &CodecParameters<Self>,
        own: &CodecParameters<Self>,
    ) -> Result<Option<Terms>, AllocError>;

    /// Whether a format's profile and level are those of a table.
    fn is_known(rules: AnswerRules, it: &CodecParameters<Self>) -> bool;

    /// The first rule of its RFC that a format of one's own breaks, if it breaks one.
    fn fault(rules: AnswerRules, own: &CodecParameters<Self>) -> Option<FormatFault>;

    /// Whether a format's units may be sent in another order than decoded: `packetization-mode` 2 of
    /// H.264 (RFC 6184, section 6.4), and `sprop-max-don-diff` above 0 of H.265 and H.266 (RFC 7798,
    /// section 7.1; RFC 9328, section 7.2).
    fn reorders(it: &CodecParameters<Self>) -> bool;
}

/// By which rules formats are read and compared.
#[derive(Debug, Clone, Copy, PartialEq, Eq, Default)]
pub enum AnswerRules {
    /// Those of the RFCs.
    #[default]
    Rfc,
    /// Those, but as WebRTC's peers do it. H.264 without `profile-level-id` is `42e01f`, and not
    /// `42000a` (libwebrtc, aiortc), so that a format without any parameter is that in
    /// `packetization-mode` 0; who decodes Baseline or High takes an offer of its constrained profile,
    /// `42e01f` or `640c1f`, and answers with that. Of H.265 `interop-constraints` and
    /// `profile-compatibility-indicator` aren't compared (libwebrtc).
    Webrtc,
}

/// How an answerer answers, and what it can do that no format says, and this payload layer can't.
#[derive(Debug, Clone, Copy, PartialEq, Eq, Default)]
pub struct AnswerConfig {
    /// Whether it takes formats whose units may be sent in another order than decoded: it reads STAP-B,
    /// MTAP and FU-B of H.264, and puts units in order by their decoding order numbers.
    pub any_order: bool,
    /// By which rules it reads and compares formats: those of the RFCs unless others are asked for.
    pub rules: AnswerRules,
    /// The direction of the answer, as its end writes it: both ways unless another is asked for.
    pub direction: Direction,
    /// Whether media go by multicast, where no answer changes the level: it keeps the offered one, and
    /// there is none where ours is below it. Otherwise by unicast.
    pub multicast: bool,
}

/// What two formats of one configuration agree on.
pub struct Terms {
    /// The value of the level's parameter in the answer.
    pub level: Option<Vec<u8>>,
    /// That of the highest level's, where it depends on both ends.
    pub highest: Option<Vec<u8>>,
    /// Whether each direction has a level of its own.
    pub asymmetric: bool,
    /// Whether units are sent in another order than decoded.
    pub reorders: bool,
    /// Whether our own parameter sets are of the answer's level, and are looked at.
    pub sets: bool,
    /// The same of those of other levels.
    pub level_sets: bool,
}

/// Of bytes it tells how many there are.
impl core::fmt::Debug for Terms {
    fn fmt(&self, f: &mut core::fmt::Formatter<'_>) -> core::fmt::Result {
        use crate::support::Count;
        f.debug_struct("Terms")
            .field("level", &self.level.as_ref().map(|it| Count(it.len())))
            .field("highest", &self.highest.as_ref().map(|it| Count(it.len())))
            .field("asymmetric", &self.asymmetric)
            .field("reorders", &self.reorders)
            .field("sets", &self.sets)
            .field("level_sets", &self.level_sets)
            .finish()
    }
}

/// Whether two numbers are there and the same.
pub(crate) fn same_number(a: Option<u64>, b: Option<u64>) -> bool {
    match (a, b) {
        (Some(a), Some(b)) => a == b,
        _ => false,
    }
}

/// Whether a buffer holds what is needed, where both are told.
pub(crate) fn holds(need: Option<u64>, room: Option<u64>) -> bool {
    match (need, room) {
        (Some(need), Some(room)) => need <= room,
        _ => false,
    }
}

/// Whether two values of a kind are one.
fn same_value(kind: Kind, a: &[u8], b: &[u8]) -> bool {
    match kind {
        Kind::Number { .. } | Kind::HexadecimalNumber { .. } => {
            same_number(kind.number_of(a), kind.number_of(b))
        }
        Kind::Hexadecimal { .. } | Kind::TxMode => same_name(a, b),
        Kind::Units(_) | Kind::Text => a == b,
    }
}

/// The same of values that may be absent.
pub(crate) fn same_if_given(kind: Kind, a: Option<&[u8]>, b: Option<&[u8]>) -> bool {
    match (a, b) {
        (None, None) => true,
        (Some(a), Some(b)) => same_value(kind, a, b),
        _ => false,
    }
}

/// The bytes of a value, if it's given.
fn bytes_of(value: &Option<Vec<u8>>) -> Option<&[u8]> {
    match value {
        Some(value) => Some(value.as_slice()),
        None => None,
    }
}

/// The bytes of a value, or the default of its row.
fn bytes_or_default<'a>(row: &'a ParameterRow, value: &'a Option<Vec<u8>>) -> Option<&'a [u8]> {
    match value {
        Some(value) => Some(value.as_slice()),
        None => row.default,
    }
}

/// Whether a row of two formats is symmetric, if it has to be.
fn is_symmetric_at(
    role: Role,
    row: &ParameterRow,
    offered: &Option<Vec<u8>>,
    own: &Option<Vec<u8>>,
) -> bool {
    match role {
        Role::Configuration => same_if_given(
            row.kind,
            bytes_or_default(row, offered),
            bytes_or_default(row, own),
        ),
        _ => true,
    }
}

/// Whether the configuration of two formats is one.
pub(crate) fn are_symmetric(
    roles: &[Role],
    rows: &[ParameterRow],
    offered: &FormatParameters,
    own: &FormatParameters,
) -> bool {
    for place in 0..roles.len() {
        let (o, u) = (&offered.values[place], &own.values[place]);
        if !is_symmetric_at(roles[place], &rows[place], o, u) {
            return false;
        }
    }
    true
}

/// A value, where it belongs into the answer.
pub(crate) fn only_if(belongs: bool, value: &Option<Vec<u8>>) -> Option<&[u8]> {
    if belongs { bytes_of(value) } else { None }
}

/// The value of a parameter in the answer, of the offer's and our own.
fn answered_value<'a>(
    role: Role,
    terms: &'a Terms,
    offered: &'a Option<Vec<u8>>,
    own: &'a Option<Vec<u8>>,
) -> Option<&'a [u8]> {
    match role {
        Role::Configuration | Role::Compared => bytes_of(offered),
        Role::Level => bytes_of(&terms.level),
        Role::HighestLevel => bytes_of(&terms.highest),
        Role::Asymmetry => only_if(terms.asymmetric, own),
        Role::Reordering => only_if(terms.reorders, own),
        Role::Sets => only_if(terms.sets, own),
        Role::LevelSets => only_if(terms.level_sets, own),
        Role::Own => bytes_of(own),
        Role::OperationPoint => None,
    }
}

/// A copy of a value, if it's given.
pub(crate) fn copy_of(value: Option<&[u8]>) -> Result<Option<Vec<u8>>, AllocError> {
    match value {
        Some(value) => Ok(Some(Vec::try_from_slice(value)?)),
        None => Ok(None),
    }
}

/// A copy of what a table doesn't have.
fn copy_of_other(other: &OtherParameter) -> Result<OtherParameter, AllocError> {
    let name = Vec::try_from_slice(other.name.as_slice())?;
    let value = Vec::try_from_slice(other.value.as_slice())?;
    Ok(OtherParameter { name, value })
}

/// A copy of those that a table doesn't have.
fn copy_of_others(others: &[OtherParameter]) -> Result<Vec<OtherParameter>, AllocError> {
    let mut copies = Vec::new();
    for other in others {
        copies.try_push(copy_of_other(other)?)?;
    }
    Ok(copies)
}

/// The values of the answer, on terms.
fn answered_values(
    roles: &[Role],
    terms: &Terms,
    offered: &FormatParameters,
    own: &FormatParameters,
) -> Result<Vec<Option<Vec<u8>>>, AllocError> {
    let mut values = Vec::new();
    for place in 0..roles.len() {
        let (o, u) = (&offered.values[place], &own.values[place]);
        values.try_push(copy_of(answered_value(roles[place], terms, o, u))?)?;
    }
    Ok(values)
}

/// The parameters of the answer, on terms.
fn answered<P: CodecRules>(
    _rules: AnswerRules,
    offered: &CodecParameters<P>,
    own: &CodecParameters<P>,
    terms: &Terms,
) -> Result<CodecParameters<P>, AllocError> {
    let (o, u) = (offered.parameters(), own.parameters());
    let parameters = FormatParameters {
        values: answered_values(P::roles(), terms, o, u)?,
        others: copy_of_others(u.others.as_slice())?,
    };
    Ok(CodecParameters::of_parameters(parameters))
}

/// The terms of two formats, if they are of one configuration.
fn common_terms<P: CodecRules>(
    config: AnswerConfig,
    offered: &CodecParameters<P>,
    own: &CodecParameters<P>,
) -> Result<Option<Terms>, AllocError> {
    if !are_symmetric(
        P::roles(),
        P::rows(),
        offered.parameters(),
        own.parameters(),
    ) {
        return Ok(None);
    }
    if config.multicast {
        P::multicast_terms(config.rules, offered, own)
    } else {
        P::terms(config.rules, offered, own)
    }
}

/// The answer to an offered format by one of ours.
fn answer_by<P: CodecRules>(
    config: AnswerConfig,
    offered: &CodecParameters<P>,
    own: &CodecParameters<P>,
) -> Result<Option<CodecParameters<P>>, AllocError> {
    match common_terms(config, offered, own)? {
        Some(terms) => Ok(Some(answered(config.rules, offered, own, &terms)?)),
        None => Ok(None),
    }
}

/// The first rule that a format of one's own breaks, if it breaks one: of its RFC, or that its units
/// are sent in the order in which they're decoded, unless the caller takes any. Such a format gives no
/// answer.
pub fn own_fault<P: CodecRules>(
    config: AnswerConfig,
    own: &CodecParameters<P>,
) -> Option<FormatFault> {
    match P::fault(config.rules, own) {
        Some(fault) => Some(fault),
        None if config.any_order || !P::reorders(own) => None,
        None => Some(FormatFault::OutOfOrder),
    }
}

/// The answer to an offered format of a profile and a level that a table has, in an order of units that
/// the caller takes.
fn known_answer<P: CodecRules>(
    config: AnswerConfig,
    offered: &CodecParameters<P>,
    own: &CodecParameters<P>,
) -> Result<Option<CodecParameters<P>>, AllocError> {
    let is_ordered = config.any_order || !P::reorders(offered);
    if !P::is_known(config.rules, offered) || !is_ordered {
        return Ok(None);
    }
    answer_by(config, offered, own)
}

/// The same of what is heard of both in their directions.
fn heard_answer<P: CodecRules>(
    config: AnswerConfig,
    offered: &CodecParameters<P>,
    own: &CodecParameters<P>,
) -> Result<Option<CodecParameters<P>>, AllocError> {
    match config.direction {
        Direction::SendRecv => known_answer(config, offered, own),
        direction => {
            let theirs = heard(direction.opposite(), offered)?;
            let ours = heard(direction, own)?;
            known_answer(config, &theirs, &ours)
        }
    }
}

/// The answer to an offered format in the directions of both, by one of ours that breaks no rule.
fn allowed_answer<P: CodecRules>(
    config: AnswerConfig,
    offered: &CodecParameters<P>,
    own: &CodecParameters<P>,
) -> Result<Option<CodecParameters<P>>, AllocError> {
    if own_fault(config, own).is_some() {
        return Ok(None);
    }
    match heard_answer(config, offered, own)? {
        Some(answer) => Ok(Some(usable(config, answer)?)),
        None => Ok(None),
    }
}

/// The answer to the parameters of an offered format, by the first of ours that gives one; `None`
/// where none does, and where the standard has no such profile or level, or units may be sent in
/// another order than the caller takes. One of ours that breaks a rule gives none ([`own_fault`] tells
/// it). It is for unicast, or for multicast where `config.multicast` says so (RFC 6184, section 8.2.2;
/// RFC 7798, section 7.2.2; RFC 9328, section 7.3.2), in the answer's direction `config.direction` and
/// the offer's opposite one: what isn't usable there is ignored, of the offer and of ours, and doesn't
/// stand in the answer.
pub(crate) fn answer_format<P: CodecRules>(
    config: AnswerConfig,
    offered: &CodecParameters<P>,
    ours: &[CodecParameters<P>],
) -> Result<Option<CodecParameters<P>>, AllocError> {
    for own in ours {
        if let Some(answer) = allowed_answer(config, offered, own)? {
            return Ok(Some(answer));
        }
    }
    Ok(None)
}
