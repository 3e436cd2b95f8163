//! What is timed.

/// One pass over the same bytes on each side. A pass answers a number that
/// depends on all it did.
pub struct Workload<'a> {
    /// Its name in the table.
    pub name: &'static str,
    /// Bytes that a pass reads or writes.
    pub bytes: usize,
    /// Items, tokens or records that it goes over.
    pub count: usize,
    /// The bytes to copy for comparison.
    pub source: &'a [u8],
    /// A pass with the proved library.
    pub proved: Box<dyn FnMut() -> usize + 'a>,
    /// A pass with the reference.
    pub plain: Box<dyn FnMut() -> usize + 'a>,
}
