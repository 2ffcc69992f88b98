//! Stands in for serde in str0m's files: its two derives, which write nothing.

use proc_macro::TokenStream;

/// Nothing is serialized here.
#[proc_macro_derive(Serialize)]
pub fn serialize(_: TokenStream) -> TokenStream {
    TokenStream::new()
}

/// Nothing is deserialized here.
#[proc_macro_derive(Deserialize)]
pub fn deserialize(_: TokenStream) -> TokenStream {
    TokenStream::new()
}
