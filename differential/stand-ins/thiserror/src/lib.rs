//! Stands for the crate `thiserror`: `#[derive(thiserror::Error)]` on types without generics.
//!
//! Assumes that nobody reads the texts of `#[error("..")]`: an error is displayed as `Debug` has it.
//! `#[from]` on a variant's only field gives a `From`, as in the original.

use proc_macro::{Delimiter, TokenStream, TokenTree};

#[proc_macro_derive(Error, attributes(error, from))]
pub fn derive_error(item: TokenStream) -> TokenStream {
    let (name, body) = name_and_body(item);
    let mut code = format!(
        "impl ::std::error::Error for {name} {{}}
        impl ::std::fmt::Display for {name} {{
            fn fmt(&self, f: &mut ::std::fmt::Formatter<'_>) -> ::std::fmt::Result {{
                ::std::fmt::Debug::fmt(self, f)
            }}
        }}"
    );
    for (variant, source) in from_variants(body) {
        code += &format!(
            "impl From<{source}> for {name} {{
                fn from(source: {source}) -> Self {{ {name}::{variant}(source) }}
            }}"
        );
    }
    code.parse().expect("an impl")
}

/// The name after `struct` or `enum`, and what stands in the brackets behind it.
fn name_and_body(item: TokenStream) -> (String, TokenStream) {
    let mut tokens = item.into_iter();
    while let Some(token) = tokens.next() {
        if matches!(token.to_string().as_str(), "struct" | "enum") {
            let name = tokens.next().expect("a name").to_string();
            let Some(TokenTree::Group(body)) = tokens.next() else {
                panic!("{name}: generics are not supported");
            };
            return (name, body.stream());
        }
    }
    panic!("neither a struct nor an enum")
}

/// Each variant of the form `Name(#[from] Type)`, with its type.
fn from_variants(body: TokenStream) -> Vec<(String, String)> {
    let tokens: Vec<TokenTree> = body.into_iter().collect();
    let mut variants = Vec::new();
    for pair in tokens.windows(2) {
        if let (TokenTree::Ident(variant), TokenTree::Group(fields)) = (&pair[0], &pair[1])
            && fields.delimiter() == Delimiter::Parenthesis
        {
            let fields: Vec<TokenTree> = fields.stream().into_iter().collect();
            if fields.len() > 2 && fields[0].to_string() == "#" && fields[1].to_string() == "[from]"
            {
                let source: TokenStream = fields[2..].iter().cloned().collect();
                variants.push((variant.to_string(), source.to_string()));
            }
        }
    }
    variants
}
