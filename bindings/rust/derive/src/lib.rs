//! `#[derive(ZeroCopySend)]`, without other crates.
//!
//! The macro reads an item's tokens itself: its attributes, its generic parameters, its where clause and the types of
//! its fields.

mod item;
mod tokens;

use item::Item;
use proc_macro::TokenStream;

/// Implements `ZeroCopySend` for a struct or an enum each of whose fields implements it.
///
/// The item needs `#[repr(C)]`, `#[repr(transparent)]` or a `#[repr(..)]` of an integer. The trait has to be in scope by
/// its name, as after `use iceoryx2::prelude::*`.
///
/// `#[type_name("..")]` sets the name by which services compare the type. The author promises by it, as in an `unsafe`
/// block, that each value of the type is a value of every other type with this name, size and alignment.
///
/// iceoryx2's derive macro `ZeroCopySend`.
#[proc_macro_derive(ZeroCopySend, attributes(type_name))]
pub fn zero_copy_send(input: TokenStream) -> TokenStream {
    let expanded = match Item::parse(input) {
        Ok(item) => item.implementation(),
        Err(why) => format!("::core::compile_error!({why:?});"),
    };
    expanded.parse().expect("the expansion is well-formed")
}
