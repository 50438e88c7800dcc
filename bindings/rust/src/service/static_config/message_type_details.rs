//! The types of a service's messages, as services compare them.
use crate::message::fixed_bytes;
use crate::zero_copy_send::{Payload, ZeroCopySend};
use std::any::{TypeId, type_name};
use std::marker::PhantomData;
use std::mem;

/// Whether a payload is one value or a slice.
///
/// iceoryx2's `TypeVariant`.
#[derive(Debug, Clone, Copy, PartialEq, Eq)]
pub enum TypeVariant {
    /// One value.
    FixedSize,
    /// A slice, whose elements have the type.
    Dynamic,
}

/// A type.
///
/// iceoryx2's `TypeDetail`.
#[derive(Debug, Clone, PartialEq, Eq)]
pub struct TypeDetail {
    variant: TypeVariant,
    type_name: &'static str,
    size: usize,
    alignment: usize,
    id: TypeId,
    /// Whether the type's author gave it the name.
    is_named: bool,
}

/// Returns the id of a type. Its lifetimes count for nothing.
fn id_of<T: ?Sized>() -> TypeId {
    trait Anything {
        fn id(&self) -> TypeId
        where
            Self: 'static;
    }
    impl<T: ?Sized> Anything for PhantomData<T> {
        fn id(&self) -> TypeId
        where
            Self: 'static,
        {
            TypeId::of::<T>()
        }
    }
    let it: &dyn Anything = &PhantomData::<T>;
    // SAFETY: the call reads nothing, so that no lifetime matters to it.
    unsafe { mem::transmute::<&dyn Anything, &(dyn Anything + 'static)>(it) }.id()
}

impl TypeDetail {
    pub(crate) fn of<T: ZeroCopySend>(variant: TypeVariant) -> Self {
        // SAFETY: the name is only compared, by the rule that its author vouched for.
        let name = unsafe { T::type_name() };
        TypeDetail {
            variant,
            type_name: name,
            size: size_of::<T>(),
            alignment: align_of::<T>(),
            id: id_of::<T>(),
            is_named: name != type_name::<T>(),
        }
    }

    /// Returns the type of a payload's elements.
    pub(crate) fn of_payload<P: Payload<Element: ZeroCopySend> + ?Sized>() -> Self {
        TypeDetail::of::<P::Element>(P::VARIANT)
    }

    /// Returns whether values of one are values of the other: they are one type, or their authors gave both the same
    /// name.
    pub(crate) fn is_compatible(&self, other: &Self) -> bool {
        self.variant == other.variant
            && self.size == other.size
            && self.alignment == other.alignment
            && (self.id == other.id || (self.is_named && other.is_named && self.type_name == other.type_name))
    }

    /// Returns whether the payload is one value or a slice.
    pub fn variant(&self) -> TypeVariant {
        self.variant
    }

    /// Returns the name of the type.
    pub fn type_name(&self) -> &str {
        self.type_name
    }

    /// Returns how many bytes a value has.
    pub fn size(&self) -> usize {
        self.size
    }

    /// Returns the alignment of a value, in bytes.
    pub fn alignment(&self) -> usize {
        self.alignment
    }
}

/// The types of a service's requests, or of its responses.
///
/// iceoryx2's `MessageTypeDetails`.
#[derive(Debug, Clone, PartialEq, Eq)]
pub struct MessageTypeDetails {
    /// The crate's header.
    pub header: TypeDetail,
    /// The user header.
    pub user_header: TypeDetail,
    /// The payload.
    pub payload: TypeDetail,
}

impl MessageTypeDetails {
    pub(crate) fn of<M: ZeroCopySend, H: ZeroCopySend, P: Payload<Element: ZeroCopySend> + ?Sized>() -> Self {
        MessageTypeDetails {
            header: TypeDetail::of::<M>(TypeVariant::FixedSize),
            user_header: TypeDetail::of::<H>(TypeVariant::FixedSize),
            payload: TypeDetail::of_payload::<P>(),
        }
    }

    pub(crate) fn is_compatible(&self, other: &Self) -> bool {
        self.user_header.is_compatible(&other.user_header) && self.payload.is_compatible(&other.payload)
    }

    /// Returns how many bytes a slot needs for this number of elements, as `Layout::bytes` does for known types.
    pub(crate) fn bytes(&self, elements: usize) -> Option<usize> {
        let fixed = fixed_bytes((self.user_header.size, self.user_header.alignment), self.payload.alignment);
        elements.checked_mul(self.payload.size)?.checked_add(fixed)
    }
}
