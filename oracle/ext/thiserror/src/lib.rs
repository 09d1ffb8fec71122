//! forced: messages/mod.rs and frame.rs derive `Error` on enums and convert with `?` into variants marked `#[from]`.
//! Messages are shown as by Debug; no comparison looks at them.
use proc_macro::{Delimiter, TokenStream, TokenTree};

#[proc_macro_derive(Error, attributes(error, from))]
pub fn derive_error(item: TokenStream) -> TokenStream {
    let (name, variants) = name_and_variants(item);
    let mut code = format!(
        "impl ::std::fmt::Display for {name} {{
            fn fmt(&self, f: &mut ::std::fmt::Formatter<'_>) -> ::std::fmt::Result {{ ::std::fmt::Debug::fmt(self, f) }}
        }}
        impl ::std::error::Error for {name} {{}}"
    );
    let mut variant = String::new();
    for token in variants {
        match token {
            TokenTree::Ident(ident) => variant = ident.to_string(),
            TokenTree::Group(group) if group.delimiter() == Delimiter::Parenthesis => {
                if let Some(source) = marked_from(group.stream()) {
                    code += &format!(
                        "impl ::std::convert::From<{source}> for {name} {{
                            fn from(e: {source}) -> Self {{ Self::{variant}(e) }}
                        }}"
                    );
                }
            }
            _ => {}
        }
    }
    code.parse().unwrap()
}

fn name_and_variants(item: TokenStream) -> (String, TokenStream) {
    let mut tokens = item.into_iter();
    tokens.by_ref().find(|t| t.to_string() == "enum").expect("an enum");
    let name = tokens.next().expect("a name").to_string();
    let body = tokens.find_map(|t| match t {
        TokenTree::Group(g) if g.delimiter() == Delimiter::Brace => Some(g.stream()),
        _ => None,
    });
    (name, body.expect("variants"))
}

/// The type behind `#[from]`, where that stands in front.
fn marked_from(fields: TokenStream) -> Option<TokenStream> {
    let tokens: Vec<TokenTree> = fields.into_iter().collect();
    let marked = tokens.len() > 2 && tokens[0].to_string() == "#" && tokens[1].to_string() == "[from]";
    marked.then(|| tokens[2..].iter().cloned().collect())
}
