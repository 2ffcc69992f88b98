//! Stands in the place of the crate `libfuzzer-sys` where crates.io can't be reached: `tools/fuzz` links the
//! libFuzzer of clang, which calls what this macro defines.

/// Defines the function that libFuzzer calls with each input. A panic ends the program there.
#[macro_export]
macro_rules! fuzz_target {
    (|$data:ident: &[u8]| $body:expr) => {
        /// # Safety
        ///
        /// `at` is where `len` bytes stand, or nothing stands there and `len` is 0.
        #[unsafe(no_mangle)]
        pub unsafe extern "C" fn LLVMFuzzerTestOneInput(at: *const u8, len: usize) -> i32 {
            let $data: &[u8] = if len == 0 {
                &[]
            } else {
                // SAFETY: the caller's.
                unsafe { core::slice::from_raw_parts(at, len) }
            };
            $body;
            0
        }
    };
}
