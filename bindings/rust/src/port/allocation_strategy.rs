//! Whether slots grow.
use crate::raw;

/// Whether the slots of a port grow for slices that are longer than its initial length.
///
/// iceoryx2's `AllocationStrategy`.
#[derive(Debug, Clone, Copy, PartialEq, Eq, Default)]
pub enum AllocationStrategy {
    /// A slot grows to the length that is asked for.
    BestFit,
    /// A slot grows to a power of two.
    PowerOfTwo,
    /// No slot grows: a longer slice is refused with `ExceedsMaxLoanSize`.
    #[default]
    Static,
}

impl AllocationStrategy {
    /// Returns how many elements a message of a port may have, whose initial length this is.
    pub(crate) fn most_elements(self, initial: usize) -> usize {
        if self == AllocationStrategy::Static { initial } else { usize::MAX }
    }

    /// Returns the library's number of it.
    pub(crate) fn number(self) -> u32 {
        match self {
            AllocationStrategy::BestFit => raw::RR_ALLOCATION_BEST_FIT,
            AllocationStrategy::PowerOfTwo => raw::RR_ALLOCATION_POWER_OF_TWO,
            AllocationStrategy::Static => raw::RR_ALLOCATION_STATIC,
        }
    }
}
