//! `text!("hex")`: the text that these bytes are, as tokens handed to the macro `taken`, or an error where it has no tokens.

extern crate proc_macro;

use proc_macro::{Delimiter, Group, Ident, Punct, Spacing, Span, TokenStream, TokenTree};
use std::panic::catch_unwind;

fn bytes(hex: &str) -> Vec<u8> {
    (0..hex.len() / 2).map(|i| u8::from_str_radix(&hex[2 * i..2 * i + 2], 16).unwrap()).collect()
}

fn refused() -> TokenStream {
    "compile_error!(\"no tokens\");".parse().unwrap()
}

#[proc_macro]
pub fn text(given: TokenStream) -> TokenStream {
    let hex = given.to_string();
    let Ok(text) = String::from_utf8(bytes(hex.trim_matches('"'))) else { return refused() };
    let Ok(Ok(tokens)) = catch_unwind(|| text.parse::<TokenStream>()) else { return refused() };
    let name = TokenTree::Ident(Ident::new("taken", Span::call_site()));
    let mark = TokenTree::Punct(Punct::new('!', Spacing::Alone));
    TokenStream::from_iter([name, mark, TokenTree::Group(Group::new(Delimiter::Brace, tokens))])
}
