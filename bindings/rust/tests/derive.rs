//! The derive macro: which items it takes, and what it asks of their fields.

mod common;

use common::{Done, service};
use rr::prelude::*;
use std::fmt::Debug;

/// A struct with padding, attributes, visibilities and types with commas.
#[derive(Debug, Clone, Copy, PartialEq, ZeroCopySend)]
#[repr(C)]
pub(crate) struct Named {
    /// A field.
    pub flag: bool,
    #[allow(dead_code)]
    pub(crate) pair: (u8, u16),
    chance: Option<Result<u32, [i8; 1 + 2]>>,
}

#[derive(Debug, Clone, Copy, PartialEq, ZeroCopySend)]
#[repr(transparent)]
struct Tuple(#[allow(dead_code)] pub u64);

#[derive(Debug, Clone, Copy, PartialEq, Default, ZeroCopySend)]
#[repr(C)]
struct Unit;

#[derive(Debug, Clone, Copy, PartialEq, ZeroCopySend)]
#[repr(u8)]
enum Plain {
    First = 1 << 2,
    #[allow(dead_code)]
    Second = (3 + 4),
}

#[derive(Debug, Clone, Copy, PartialEq, ZeroCopySend)]
#[repr(C, u8)]
enum Choice<T: Copy> {
    None,
    One(T, u8),
    Two { left: T, right: Tuple },
}

#[derive(Debug, Clone, Copy, PartialEq, ZeroCopySend)]
#[type_name("Stamp")]
#[repr(C)]
struct Stamp<T: Copy + Default = u16, const N: usize = 3>
where
    [T; N]: Copy,
    (T, T): Copy,
{
    at: [T; N],
}

#[derive(Debug, Clone, Copy, PartialEq, ZeroCopySend)]
#[repr(C)]
struct Where<T>(T, T)
where
    T: Copy;

fn goes_along<T: Debug + Copy + PartialEq + ZeroCopySend + 'static>(value: T) -> Done {
    let service = service::<ipc::Service, T, T>(std::any::type_name::<T>());
    let (client, server) = (service.client_builder().create()?, service.server_builder().create()?);
    let pending_response = client.send_copy(value)?;
    let active_request = server.receive()?.unwrap();
    assert_eq!(*active_request, value);
    active_request.send_copy(value)?;
    assert_eq!(*pending_response.receive()?.unwrap(), value);
    Ok(())
}

#[test]
fn structs_and_enums_are_sent() -> Done {
    goes_along(Named { flag: true, pair: (1, 2), chance: Some(Err([1, 2, 3])) })?;
    goes_along(Tuple(7))?;
    goes_along(Unit)?;
    goes_along(Plain::First)?;
    goes_along(Choice::<u32>::None)?;
    goes_along(Choice::One(1u32, 2))?;
    goes_along(Choice::Two { left: [1u8; 3], right: Tuple(9) })?;
    goes_along(Stamp::<u16> { at: [4, 5, 6] })?;
    goes_along(Where(1.5, 2.5))
}

#[test]
fn a_type_has_the_name_that_it_was_given() {
    // SAFETY: the names are compared here alone.
    let (named, unnamed) = unsafe { (<Stamp<u8, 1>>::type_name(), Named::type_name()) };
    assert_eq!(named, "Stamp");
    assert!(unnamed.ends_with("::Named"));
}
