//! Types of payloads and user headers.
//!
//! ```
//! # extern crate rr as iceoryx2;
//! use iceoryx2::prelude::*;
//!
//! #[derive(Debug, Clone, Copy, ZeroCopySend)]
//! #[type_name("Track")]
//! #[repr(C)]
//! struct Track<const N: usize> {
//!     points: [(f32, f32); N],
//!     is_closed: bool,
//! }
//! # let _ = Track { points: [(0.0, 1.0)], is_closed: false };
//! ```
//!
//! The derive macro refuses a field that is no such type, and an item whose layout is the compiler's choice:
//!
//! ```compile_fail,E0277
//! # extern crate rr as iceoryx2;
//! # use iceoryx2::prelude::*;
//! #[derive(Debug, ZeroCopySend)]
//! #[repr(C)]
//! struct Line(&'static str);
//! ```
//!
//! ```compile_fail
//! # extern crate rr as iceoryx2;
//! # use iceoryx2::prelude::*;
//! #[derive(Debug, ZeroCopySend)]
//! struct Point(u8, u32);
//! ```
use crate::service::static_config::message_type_details::TypeVariant;
use std::fmt::Debug;
use std::marker::PhantomData;
use std::mem::MaybeUninit;
use std::ptr::NonNull;
use std::sync::atomic;

/// Types whose values any thread may read where, and as, they were written.
///
/// The derive macro of the same name implements it for `#[repr(C)]` types each of whose fields implements it.
///
/// iceoryx2's `ZeroCopySend`.
///
/// # Safety
///
/// A value contains no pointer, reference or handle, and nothing that changes through a shared reference but atomics:
/// several servers read one request at the same time, in several threads. A value that was sent is never dropped.
pub unsafe trait ZeroCopySend {
    /// Returns the name by which services compare types. Without an own name, a type is compatible with itself alone.
    ///
    /// # Safety
    ///
    /// Of two types that return the same name of their own, each value of one is a value of the other.
    unsafe fn type_name() -> &'static str {
        std::any::type_name::<Self>()
    }
}

macro_rules! plain {
    ($($type:ty)*) => {
        // SAFETY: values without pointers, and atomics.
        $( unsafe impl ZeroCopySend for $type {} )*
    };
}
plain! { u8 u16 u32 u64 u128 usize i8 i16 i32 i64 i128 isize f32 f64 bool char std::time::Duration }
plain! { atomic::AtomicU8 atomic::AtomicU16 atomic::AtomicU32 atomic::AtomicU64 atomic::AtomicUsize }
plain! { atomic::AtomicI8 atomic::AtomicI16 atomic::AtomicI32 atomic::AtomicI64 atomic::AtomicIsize atomic::AtomicBool }

// SAFETY: no bytes.
unsafe impl ZeroCopySend for () {}
// SAFETY: so are arrays, slices and choices of such values, what may be one, and what has no bytes.
unsafe impl<T: ZeroCopySend, const N: usize> ZeroCopySend for [T; N] {}
unsafe impl<T: ZeroCopySend> ZeroCopySend for [T] {}
unsafe impl<T: ZeroCopySend> ZeroCopySend for MaybeUninit<T> {}
unsafe impl<T: ZeroCopySend> ZeroCopySend for Option<T> {}
unsafe impl<T: ZeroCopySend, E: ZeroCopySend> ZeroCopySend for Result<T, E> {}
unsafe impl<T: ?Sized> ZeroCopySend for PhantomData<T> {}

macro_rules! tuples {
    ($($name:ident)*) => {
        // SAFETY: each field is such a value.
        unsafe impl<$($name: ZeroCopySend),*> ZeroCopySend for ($($name,)*) {}
    };
}
tuples! { A }
tuples! { A B }
tuples! { A B C }
tuples! { A B C D }

/// iceoryx2's bounds of payloads and user headers, `Debug + ZeroCopySend`, in one word. Each type with both has it.
///
/// Not in iceoryx2.
pub trait Sendable: Debug + ZeroCopySend {}

impl<T: Debug + ZeroCopySend + ?Sized> Sendable for T {}

/// Payloads that can be sent: a value, or a slice of elements. Each of these two forms has it.
///
/// Not in iceoryx2, which has each call twice, once for each form.
pub trait Payload: Elements {}

impl<T> Payload for T {}
impl<T> Payload for [T] {}

/// A payload: a value, or a slice of elements.
pub trait Elements {
    /// The type of the elements: of a value, its own.
    type Element;
    /// Whether it is a value or a slice.
    const VARIANT: TypeVariant;

    /// Returns a pointer to the payload of which this is the first element.
    fn at(first: NonNull<Self::Element>, elements: usize) -> NonNull<Self>;
}

impl<T> Elements for T {
    type Element = T;
    const VARIANT: TypeVariant = TypeVariant::FixedSize;

    #[inline]
    fn at(first: NonNull<T>, _: usize) -> NonNull<T> {
        first
    }
}

impl<T> Elements for [T] {
    type Element = T;
    const VARIANT: TypeVariant = TypeVariant::Dynamic;

    #[inline]
    fn at(first: NonNull<T>, elements: usize) -> NonNull<[T]> {
        NonNull::slice_from_raw_parts(first, elements)
    }
}
