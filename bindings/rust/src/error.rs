//! The texts of errors.

/// Gives error enums a `Display` of their path, as iceoryx2's have.
macro_rules! errors {
    ($($name:ident)*) => {
        $(
            impl std::fmt::Display for $name {
                fn fmt(&self, f: &mut std::fmt::Formatter<'_>) -> std::fmt::Result {
                    write!(f, concat!(stringify!($name), "::{:?}"), self)
                }
            }

            impl std::error::Error for $name {}
        )*
    };
}
pub(crate) use errors;
