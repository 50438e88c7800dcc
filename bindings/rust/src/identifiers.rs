//! Ids of nodes and ports, which no other node or port of the process has.

macro_rules! ids {
    ($($(#[$about:meta])* $name:ident)*) => {
        $(
            $(#[$about])*
            #[derive(Debug, Clone, Copy, PartialEq, Eq, PartialOrd, Ord, Hash)]
            #[repr(transparent)]
            pub struct $name(pub(crate) u128);

            impl $name {
                /// Returns the id as a number.
                pub fn value(&self) -> u128 {
                    self.0
                }
            }
        )*
    };
}

ids! {
    /// The id of a node.
    ///
    /// iceoryx2's `identifiers::UniqueNodeId`.
    UniqueNodeId
    /// The id of a client.
    ///
    /// iceoryx2's `identifiers::UniqueClientId`.
    UniqueClientId
    /// The id of a server.
    ///
    /// iceoryx2's `identifiers::UniqueServerId`.
    UniqueServerId
}
