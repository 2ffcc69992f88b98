//! Calls for single parameters, each named after the one that it is of.

/// Calls for the parameters of a codec: `given` answer `None` where the parameter is absent, `taken` what the RFC takes
/// then, and `units` no units.
macro_rules! getters {
    ($parameter:ident; given { $($given:ident: $of_given:ident, $number:ty;)* }
        taken { $($taken:ident: $of_taken:ident, $kind:ty;)* }
        flags { $($flag:ident: $of_flag:ident;)* }
        units { $($units:ident: $of_units:ident;)* }
        texts { $($text:ident: $of_text:ident;)* }) => {
        impl super::CodecParameters<super::$parameter> {
            $(
                #[doc = concat!("[`", stringify!($parameter), "::", stringify!($of_given), "`](super::",
                    stringify!($parameter), "::", stringify!($of_given), "); `None` where it is absent.")]
                pub fn $given(&self) -> Option<$number> {
                    <$number>::try_from(self.number(super::$parameter::$of_given)?).ok()
                }
            )*
            $(
                #[doc = concat!("[`", stringify!($parameter), "::", stringify!($of_taken), "`](super::",
                    stringify!($parameter), "::", stringify!($of_taken), "), or where it is absent what the RFC takes.")]
                pub fn $taken(&self) -> $kind {
                    let number = self.number_or_default(super::$parameter::$of_taken);
                    number.and_then(|it| it.try_into().ok()).unwrap_or_default()
                }
            )*
            $(
                #[doc = concat!("Whether [`", stringify!($parameter), "::", stringify!($of_flag), "`](super::",
                    stringify!($parameter), "::", stringify!($of_flag), ") is 1.")]
                pub fn $flag(&self) -> bool {
                    self.number_or_default(super::$parameter::$of_flag) == Some(1)
                }
            )*
            $(
                #[doc = concat!("The units of [`", stringify!($parameter), "::", stringify!($of_units), "`](super::",
                    stringify!($parameter), "::", stringify!($of_units), "); none where it is absent.")]
                ///
                /// # Errors
                ///
                /// The first that is none is told by its place.
                pub fn $units(&self) -> Result<alloc::vec::Vec<alloc::vec::Vec<u8>>, super::UnitsError> {
                    self.units(super::$parameter::$of_units)
                }
            )*
            $(
                #[doc = concat!("The text of [`", stringify!($parameter), "::", stringify!($of_text), "`](super::",
                    stringify!($parameter), "::", stringify!($of_text), "); `None` where it is absent.")]
                pub fn $text(&self) -> Option<&str> {
                    self.value(super::$parameter::$of_text)
                }
            )*
        }
    };
}

pub(super) use getters;
