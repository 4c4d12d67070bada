//! The limit on a buffer's memory.
use super::os;

/// Sets the largest number of bytes that this thread gets for one buffer, and gives the one before.
pub(crate) fn limit(bytes: usize) -> usize {
    os::LIMIT.replace(bytes)
}
