//! Stands in for the crate `thiserror`, which would have to be fetched: derives Display and Error for an enum whose variants
//! have no fields and each its text in `#[error("..")]`.
use proc_macro::{TokenStream, TokenTree};

fn trees(stream: TokenStream) -> Vec<TokenTree> {
    stream.into_iter().collect()
}

/// The arm of a variant, whose tokens are `#`, `[error("..")]` and its name.
fn arm(enumeration: &TokenTree, variant: &[TokenTree]) -> String {
    let [_, TokenTree::Group(attribute), name] = variant else {
        panic!("a variant with its text and without fields")
    };
    let text = &trees(attribute.stream())[1];
    format!("{enumeration}::{name} => {text},")
}

#[proc_macro_derive(Error, attributes(error))]
pub fn derive_error(item: TokenStream) -> TokenStream {
    let tokens = trees(item);
    let place = tokens.iter().position(|token| token.to_string() == "enum");
    let [name, TokenTree::Group(body), ..] = &tokens[place.expect("an enum") + 1..] else {
        panic!("an enum without parameters")
    };
    let arms: String = trees(body.stream())
        .split(|token| token.to_string() == ",")
        .filter(|variant| !variant.is_empty())
        .map(|variant| arm(name, variant))
        .collect();
    let code = format!(
        "impl ::std::fmt::Display for {name} {{
            fn fmt(&self, formatter: &mut ::std::fmt::Formatter<'_>) -> ::std::fmt::Result {{
                formatter.write_str(match self {{ {arms} }})
            }}
        }}
        impl ::std::error::Error for {name} {{}}"
    );
    code.parse().expect("two impls")
}
