//! Profiles, tiers and levels, and their text.

use super::Answers;
use super::row::{Words, hex_number, number, word};
use super::said::Said;
use crate::proved::h26x_profile::{
    H264LevelIdc, H264ProfileIdc, H264ProfileLevel, H265Level, H265ProfileTierLevel, H266Level,
    H266ProfileTierLevel, Numbered, ProfileTierLevel,
};
use std::collections::HashMap;
use std::fmt::Debug;

/// Each row is of numbers, and of what they name.
pub(super) struct Profiles;

/// Whether a line is of the text of a value, or of what a text is read as.
pub(super) fn is_of_json(line: &str) -> bool {
    let name = line.split(' ').next();
    name.is_some_and(|name| name.ends_with("-json"))
}

impl Answers for Profiles {
    fn answer(&mut self, name: &str, words: &mut Words<'_>, said: &mut Said) {
        #[cfg(feature = "serde")]
        if is_of_json(name) {
            return json::answer(name, words, said);
        }
        match name.split_at_checked(4) {
            Some(("h265", call)) => {
                let fallback = H265ProfileTierLevel::FALLBACK;
                answer_of(fallback, H265Level::ordinal, call, words, said);
            }
            Some(("h266", call)) => {
                let fallback = H266ProfileTierLevel::FALLBACK;
                answer_of(fallback, H266Level::ordinal, call, words, said);
            }
            _ => answer_of_h264(name, words, said),
        }
    }
}

fn answer_of_h264(name: &str, words: &mut Words<'_>, said: &mut Said) {
    match name {
        "profile-level-id" => {
            let named = H264ProfileLevel::try_from(hex_number::<u32>(words));
            say_h264(said, named.ok());
        }
        "h264-new" => {
            let idc = H264ProfileIdc::try_from(number::<u8>(words)).expect("a profile_idc");
            let iop = hex_number(words);
            let level = H264LevelIdc::try_from(number::<u8>(words)).expect("a level");
            say_h264(said, H264ProfileLevel::new(idc, iop, level));
        }
        "h264-profile-idc" => {
            let found = H264ProfileIdc::try_from(number::<u8>(words));
            say_found(said, found.ok());
        }
        "h264-level" => {
            let found = H264LevelIdc::try_from(number::<u8>(words)).ok();
            say_found(said, found);
            if let Some(level) = found {
                said.value(level.ordinal());
            }
        }
        "h264-level-below" => {
            let mut level = || H264LevelIdc::try_from(number::<u8>(words)).expect("a level");
            said.fact(level() < level());
        }
        "h264-fallback" => say_h264(said, Some(H264ProfileLevel::FALLBACK)),
        _ => panic!("no call {name}"),
    }
}

/// What a codec with tiers answers, of which this is the fallback, and this a level's place in the order.
fn answer_of<P, T, L>(
    fallback: ProfileTierLevel<P, T, L>,
    ordinal: fn(L) -> usize,
    call: &str,
    words: &mut Words<'_>,
    said: &mut Said,
) where
    P: Numbered + Debug,
    T: Numbered + Debug,
    L: Numbered + Debug + PartialOrd,
    ProfileTierLevel<P, T, L>: From<(u8, u8, u8)>,
{
    match call {
        "" => say_all(said, named::<P, T, L>(words)),
        "-from" => {
            let numbers = (number(words), number(words), number(words));
            say_all(said, Some(ProfileTierLevel::<P, T, L>::from(numbers)));
        }
        "-fallback" => say_all(said, Some(fallback)),
        "-at-level" => {
            let format = named::<P, T, L>(words).expect("a format");
            let level = L::from_number(number(words)).expect("a level");
            say_numbers(said, format.with_level(level));
        }
        "-fmtp" => {
            let parameters = parameters_of(word(words));
            say_all(said, ProfileTierLevel::<P, T, L>::from_fmtp(&parameters));
        }
        "-profile" => say_known(said, P::from_number(number(words)), |_, _| ()),
        "-tier" => say_known(said, T::from_number(number(words)), |_, _| ()),
        "-level" => say_known(said, L::from_number(number(words)), |said, level| {
            said.value(ordinal(level));
        }),
        "-level-below" => {
            let mut level = || L::from_number(number(words)).expect("a level");
            said.fact(level() < level());
        }
        _ => panic!("no call {call}"),
    }
}

/// What the next three numbers name.
fn named<P: Numbered, T: Numbered, L: Numbered>(
    words: &mut Words<'_>,
) -> Option<ProfileTierLevel<P, T, L>> {
    ProfileTierLevel::new(number(words), number(words), number(words))
}

fn say_found<T: Debug>(said: &mut Said, found: Option<T>) {
    match found {
        Some(value) => said.value(value),
        None => said.word("none"),
    }
}

/// A value, what is said of it besides, and its number.
fn say_known<T: Numbered + Debug>(said: &mut Said, found: Option<T>, more: impl Fn(&mut Said, T)) {
    say_found(said, found);
    if let Some(value) = found {
        more(said, value);
        said.value(value.to_number());
    }
}

/// The profile and the level.
fn say_h264(said: &mut Said, named: Option<H264ProfileLevel>) {
    match named {
        Some(format) => {
            said.value(format.profile());
            said.value(format.level());
        }
        None => said.word("none"),
    }
}

/// The profile, the tier and the level.
fn say_all<P, T, L>(said: &mut Said, format: Option<ProfileTierLevel<P, T, L>>)
where
    P: Numbered + Debug,
    T: Numbered + Debug,
    L: Numbered + Debug,
{
    match format {
        Some(format) => {
            said.value(format.profile());
            said.value(format.tier());
            said.value(format.level());
        }
        None => said.word("none"),
    }
}

/// The numbers of the profile, the tier and the level.
fn say_numbers<P, T, L>(said: &mut Said, format: ProfileTierLevel<P, T, L>)
where
    P: Numbered,
    T: Numbered,
    L: Numbered,
{
    said.value(format.profile_id());
    said.value(format.tier_flag());
    said.value(format.level_id());
}

/// The parameters of a format, `name=value` with `;` between each two.
fn parameters_of(text: &str) -> HashMap<String, String> {
    text.split(';')
        .map(|parameter| parameter.split_once('=').expect("a parameter"))
        .map(|(name, value)| (name.to_owned(), value.to_owned()))
        .collect()
}

/// The text of values, and what texts are read as.
#[cfg(feature = "serde")]
mod json {
    use super::{Debug, Numbered, ProfileTierLevel, Said, Words, named, number, word};
    use crate::proved::h26x_profile::{H265Level, H265Profile, H265Tier};
    use crate::proved::h26x_profile::{H266Level, H266Profile, H266Tier};
    use serde::{Serialize, de::DeserializeOwned};

    pub(super) fn answer(name: &str, words: &mut Words<'_>, said: &mut Said) {
        match name.split_at_checked(4) {
            Some(("h265", call)) => {
                answer_of::<H265Profile, H265Tier, H265Level>(call, words, said)
            }
            Some(("h266", call)) => {
                answer_of::<H266Profile, H266Tier, H266Level>(call, words, said)
            }
            _ => panic!("no call {name}"),
        }
    }

    fn answer_of<P, T, L>(call: &str, words: &mut Words<'_>, said: &mut Said)
    where
        P: Numbered + Debug + PartialEq + Serialize + DeserializeOwned,
        T: Numbered + Debug + PartialEq + Serialize + DeserializeOwned,
        L: Numbered + Debug + PartialEq + Serialize + DeserializeOwned,
    {
        match call {
            "-json" => say(said, named::<P, T, L>(words)),
            "-profile-json" => say(said, P::from_number(number(words))),
            "-tier-json" => say(said, T::from_number(number(words))),
            "-level-json" => say(said, L::from_number(number(words))),
            "-read-json" => say_read::<ProfileTierLevel<P, T, L>>(said, word(words)),
            _ => panic!("no call {call}"),
        }
    }

    /// The text of a value that is there, which is read as the same value.
    fn say<T: PartialEq + Serialize + DeserializeOwned>(said: &mut Said, value: Option<T>) {
        let value = value.expect("a value");
        let text = serde_json::to_string(&value).expect("a text");
        said.word(&text);
        said.fact(serde_json::from_str::<T>(&text).expect("a value") == value);
    }

    /// What a text is read as.
    fn say_read<T: Debug + DeserializeOwned>(said: &mut Said, text: &str) {
        match serde_json::from_str::<T>(text) {
            Ok(value) => said.value(value),
            Err(_) => said.word("refused"),
        }
    }
}
