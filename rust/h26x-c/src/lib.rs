//! The C library `h26x`: the calls of `bindings/include/h26x.h`, as Rust made from proved sources.
//!
//! The modules below `proved` are translated by `tools/to-rust`: those of the Rust crate, from where they stand there,
//! and `h26x_c`, with `exports`, whose functions C calls, and what stands below it alone. `pointers` and `host` are written
//! by hand, as is `words`.

#![cfg_attr(not(test), no_std)]
#![deny(unsafe_op_in_unsafe_fn)]

#[cfg(target_pointer_width = "16")]
compile_error!("`usize` has 64 bits where this is proved, and 32 where it is only tested");

extern crate alloc;

#[cfg(not(test))]
mod host;
mod pointers;
// What C doesn't reach stays, as it was proved, and so do forms that Rust has shorter.
#[allow(dead_code, unused_imports)]
#[allow(
    clippy::enum_variant_names,
    clippy::explicit_auto_deref,
    clippy::explicit_counter_loop
)]
#[allow(
    clippy::large_enum_variant,
    clippy::manual_map,
    clippy::manual_range_contains
)]
#[allow(clippy::manual_unwrap_or_default)]
#[allow(clippy::match_like_matches_macro, clippy::mem_replace_option_with_some)]
#[allow(
    clippy::missing_safety_doc,
    clippy::needless_lifetimes,
    clippy::needless_range_loop
)]
#[allow(
    clippy::nonminimal_bool,
    clippy::ptr_arg,
    clippy::question_mark,
    clippy::too_many_arguments
)]
mod proved;
#[allow(dead_code)]
#[forbid(unsafe_code)]
#[path = "../../emupedestal/src/support.rs"]
mod support;
#[cfg(test)]
mod tests;
mod words;

use proved::h26x_core::PacketError;
