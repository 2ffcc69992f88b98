// Made from crates/h26x_access_units/src/decoder.rt by tools/to-rust.

//! What is known of a decoder that is given the access units, one after the other.

use crate::proved::h26x_access_units::content::{
    Content, ParameterSets, Slice, UnitKind, slice_head,
};
use crate::proved::h26x_access_units::frame_number::{Numbering, tells_none_lost};
use crate::proved::h26x_access_units::numbers::AccessUnitNumbers;
use crate::proved::h26x_core::CodecExtra;

/// What is known of a decoder that is given the access units, one after the other.
#[derive(Debug, Clone, Copy, PartialEq, Eq)]
pub(crate) struct DecoderState {
    /// Whether it can go on: nothing was missing since a keyframe with which it could begin, but of
    /// pictures that nothing refers to.
    pub is_clean: bool,
    /// The parameter sets that came in order.
    pub sets: ParameterSets,
    /// The highest temporal layer that sequence parameter sets tell, or 0.
    pub highest_layer: u8,
    /// What all sequence parameter sets of H.264 tell of frame numbers.
    pub numbering: Numbering,
    /// The bytes behind the header of the first slice of the last reference picture of H.264, which a
    /// decoder has that can go on, where they are known.
    pub last_head: Option<[u8; 8]>,
    /// Whether the last keyframe took more packets than one.
    pub has_long_key: bool,
    /// Whether an access unit was given out since the beginning or `restart`.
    pub has_begun: bool,
}

/// Whether a decoder needs no other parameter sets.
#[inline]
fn are_enough(extra: CodecExtra, sets: ParameterSets) -> bool {
    match extra {
        CodecExtra::None => false,
        CodecExtra::H264(_) | CodecExtra::H266(_) => sets.sps && sets.pps,
        CodecExtra::H265(_) => sets.vps && sets.sps && sets.pps,
    }
}

/// Whether the first slice is the first of a keyframe.
#[inline]
fn is_first_key(content: Content) -> bool {
    match content.slice {
        Some(slice) => slice.is_first && slice.is_key,
        None => false,
    }
}

/// Whether the first slice is the first of a picture that is no keyframe.
#[inline]
fn is_first_other(content: Content) -> bool {
    match content.slice {
        Some(slice) => slice.is_first && !slice.is_key,
        None => false,
    }
}

impl DecoderState {
    /// Before any access unit.
    #[inline]
    pub(crate) fn fresh() -> Self {
        DecoderState {
            is_clean: false,
            sets: ParameterSets::NONE,
            highest_layer: 0,
            numbering: Numbering::NotTold,
            last_head: None,
            has_long_key: false,
            has_begun: false,
        }
    }

    /// Whether a unit stands at the front of its access unit, by its kind, and whether that is the
    /// first.
    #[inline]
    pub(crate) fn is_front(self, extra: CodecExtra, first: Option<UnitKind>) -> bool {
        match first {
            Some(UnitKind::Delimiter) => true,
            Some(UnitKind::Vps) => !self.has_begun,
            Some(UnitKind::Sps(_)) => match extra {
                CodecExtra::H265(_) => false,
                _ => !self.has_begun,
            },
            _ => false,
        }
    }

    /// Whether no picture refers to that of an access unit before which its sequence parameter set
    /// came.
    #[inline]
    fn is_disposable_at(highest_layer: u8, content: Content) -> bool {
        match content.slice {
            Some(slice) => {
                slice.is_unreferenced
                    && !slice.is_key
                    && (slice.layer == 0 || slice.layer == highest_layer)
            }
            None => false,
        }
    }

    /// The sets that came in order before an access unit.
    #[inline]
    fn sets_before(self, numbers: AccessUnitNumbers) -> ParameterSets {
        if numbers.follows {
            self.sets
        } else {
            ParameterSets::NONE
        }
    }

    /// Those that came in order, with its own.
    #[inline]
    fn sets_after(
        self,
        is_unbroken: bool,
        numbers: AccessUnitNumbers,
        content: Content,
    ) -> ParameterSets {
        if is_unbroken {
            self.sets_before(numbers).joined(content.sets)
        } else {
            ParameterSets::NONE
        }
    }

    /// The highest temporal layer that sequence parameter sets tell: its own, or those of the last one
    /// that had some, where no number is missing between access units since.
    #[inline]
    fn layer_after(self, numbers: AccessUnitNumbers, content: Content) -> u8 {
        if content.highest_layer != 0 {
            content.highest_layer
        } else if numbers.follows {
            self.highest_layer
        } else {
            0
        }
    }

    /// Whether no picture refers to that of an access unit.
    #[inline]
    pub(crate) fn is_disposable(self, numbers: AccessUnitNumbers, content: Content) -> bool {
        DecoderState::is_disposable_at(self.layer_after(numbers, content), content)
    }

    /// Whether a decoder can begin with an access unit.
    #[inline]
    fn can_begin(
        self,
        has_sets: bool,
        is_unbroken: bool,
        extra: CodecExtra,
        numbers: AccessUnitNumbers,
        content: Content,
    ) -> bool {
        let begins = is_unbroken && !numbers.continues;
        begins
            && is_first_key(content)
            && (has_sets || are_enough(extra, self.sets_after(is_unbroken, numbers, content)))
    }

    /// The bytes behind the header of the first slice of the last reference picture.
    #[inline]
    fn head_after(
        self,
        is_unbroken: bool,
        numbers: AccessUnitNumbers,
        content: Content,
    ) -> Option<[u8; 8]> {
        let slice = content.slice?;
        if slice.is_unreferenced && !slice.is_key {
            return if numbers.is_counted {
                self.last_head
            } else {
                None
            };
        }
        if is_unbroken && slice.is_first {
            content.head
        } else {
            None
        }
    }

    /// Whether the last keyframe took more packets than one.
    #[inline]
    fn long_key_after(self, numbers: AccessUnitNumbers, content: Content) -> bool {
        match content.slice {
            Some(slice) if slice.is_key => numbers.first != numbers.last,
            _ => self.has_long_key,
        }
    }

    /// Whether frame numbers of H.264 tell that no reference picture is among what is missing before an
    /// access unit.
    #[cold]
    #[inline(never)]
    fn is_behind_no_loss(
        self,
        has_sets: bool,
        numbers: AccessUnitNumbers,
        content: Content,
    ) -> bool {
        let is_asked = !has_sets && numbers.is_counted && !numbers.continues;
        is_asked
            && is_first_other(content)
            && tells_none_lost(
                self.numbering.joined(content.numbering),
                self.has_long_key,
                self.last_head,
                content.head,
                numbers.missing,
            )
    }

    /// Whether a decoder that could go on before an access unit can go on behind it.
    #[inline]
    fn can_go_on(
        self,
        has_sets: bool,
        is_unbroken: bool,
        numbers: AccessUnitNumbers,
        content: Content,
    ) -> bool {
        self.is_clean
            && (numbers.follows || self.is_behind_no_loss(has_sets, numbers, content))
            && (is_unbroken || self.is_disposable(numbers, content))
    }

    /// Whether an access unit is told to be whole, which is unbroken from its first packet on or isn't.
    #[inline]
    pub(crate) fn tells_whole(
        self,
        is_unbroken: bool,
        extra: CodecExtra,
        numbers: AccessUnitNumbers,
        content: Content,
    ) -> bool {
        is_unbroken
            && !numbers.continues
            && (numbers.follows || self.is_front(extra, content.first))
    }

    /// Whether a decoder can show an access unit behind which it is so.
    #[inline]
    pub(crate) fn shows(self, is_unbroken: bool) -> bool {
        is_unbroken && self.is_clean
    }

    /// Once an access unit is given out, which is unbroken from its first packet on or isn't.
    #[inline]
    pub(crate) fn after(
        self,
        has_sets: bool,
        is_unbroken: bool,
        extra: CodecExtra,
        numbers: AccessUnitNumbers,
        content: Content,
    ) -> Self {
        DecoderState {
            is_clean: self.can_begin(has_sets, is_unbroken, extra, numbers, content)
                || self.can_go_on(has_sets, is_unbroken, numbers, content),
            sets: self.sets_after(is_unbroken, numbers, content),
            highest_layer: self.layer_after(numbers, content),
            numbering: self.numbering.joined(content.numbering),
            last_head: self.head_after(is_unbroken, numbers, content),
            has_long_key: self.long_key_after(numbers, content),
            has_begun: true,
        }
    }

    /// Once an access unit is given out that is unbroken, follows the one before, and begins with a
    /// slice of no keyframe, whose bytes tell a frame number or don't. The answer is whether no picture
    /// refers to its own.
    #[inline]
    pub(crate) fn go_on(
        &mut self,
        numbers: AccessUnitNumbers,
        slice: Slice,
        framed: Option<&[u8]>,
    ) -> bool {
        self.has_begun = true;
        if slice.is_unreferenced {
            if !numbers.is_counted {
                self.last_head = None;
            }
            return slice.layer == 0 || slice.layer == self.highest_layer;
        }
        self.last_head = match framed {
            Some(unit) if slice.is_first => Some(slice_head(unit)),
            _ => None,
        };
        false
    }
}
