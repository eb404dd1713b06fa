//! Stands for the crate `serde`: its two derives, which here make nothing.
//!
//! Assumes that nothing is serialized.

use proc_macro::TokenStream;

#[proc_macro_derive(Serialize)]
pub fn derive_serialize(_: TokenStream) -> TokenStream {
    TokenStream::new()
}

#[proc_macro_derive(Deserialize)]
pub fn derive_deserialize(_: TokenStream) -> TokenStream {
    TokenStream::new()
}
