//! The derives that the reference names. They make what its text needs in order to compile, and nothing that a
//! comparison runs.

use proc_macro::{TokenStream, TokenTree};

/// The name of the struct or enum that a derive stands on. None of the reference's types has parameters.
fn name_of(item: TokenStream) -> String {
    let mut tokens = item.into_iter();
    while let Some(token) = tokens.next() {
        let TokenTree::Ident(word) = token else { continue };
        if word.to_string() == "struct" || word.to_string() == "enum" {
            return tokens.next().expect("a name after the keyword").to_string();
        }
    }
    panic!("a derive stands on a struct or an enum");
}

/// An implementation written as text, with NAME for the type's name.
fn written(text: &str, item: TokenStream) -> TokenStream {
    text.replace("NAME", &name_of(item)).parse().expect("the text of an implementation")
}

#[proc_macro_derive(Serialize, attributes(serde))]
pub fn serialize(item: TokenStream) -> TokenStream {
    written("impl ::serde::Serialize for NAME {}", item)
}

#[proc_macro_derive(Deserialize, attributes(serde))]
pub fn deserialize(item: TokenStream) -> TokenStream {
    written(
        "impl<'de> ::serde::Deserialize<'de> for NAME {
            fn deserialize<D: ::serde::Deserializer<'de>>(_: D) -> Result<Self, D::Error> { unimplemented!() }
        }",
        item,
    )
}

#[proc_macro_derive(Error, attributes(error, from, source))]
pub fn error(item: TokenStream) -> TokenStream {
    written(
        "impl ::std::fmt::Display for NAME {
            fn fmt(&self, f: &mut ::std::fmt::Formatter<'_>) -> ::std::fmt::Result { ::std::fmt::Debug::fmt(self, f) }
        }
        impl ::std::error::Error for NAME {}",
        item,
    )
}

#[proc_macro_derive(Display, attributes(strum))]
pub fn display(item: TokenStream) -> TokenStream {
    written(
        "impl ::std::fmt::Display for NAME {
            fn fmt(&self, f: &mut ::std::fmt::Formatter<'_>) -> ::std::fmt::Result { ::std::fmt::Debug::fmt(self, f) }
        }",
        item,
    )
}

#[proc_macro_derive(EnumString, attributes(strum))]
pub fn enum_string(_: TokenStream) -> TokenStream {
    TokenStream::new()
}
