//! Stands for the crate `derive_more`: `#[derive(Display)]` on an enum without fields.
//!
//! Assumes that the enum derives `Debug`; both give the variant's name.

use proc_macro::TokenStream;

#[proc_macro_derive(Display)]
pub fn derive_display(item: TokenStream) -> TokenStream {
    let mut tokens = item.into_iter();
    tokens
        .find(|token| token.to_string() == "enum")
        .expect("an enum");
    let name = tokens.next().expect("a name");
    format!(
        "impl ::std::fmt::Display for {name} {{
            fn fmt(&self, f: &mut ::std::fmt::Formatter<'_>) -> ::std::fmt::Result {{
                ::std::fmt::Debug::fmt(self, f)
            }}
        }}"
    )
    .parse()
    .expect("an impl")
}
