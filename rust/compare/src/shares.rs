//! How many inputs each test compares at least. Each test asserts its own
//! share.

/// Mixed trails and states.
pub const MIXED: usize = 150_000;
/// Good trails, read and written again.
pub const GOOD: usize = 20_000;
/// Damaged trails.
pub const DAMAGED: usize = 100_000;
/// Trails aimed at one refusal.
pub const AIMED: usize = 45_000;
/// Prefixes of trails.
pub const PREFIXES: usize = 500_000;
/// Places of small trails.
pub const PLACES: usize = 750_000;
/// States with wild places and totals.
pub const STATES: usize = 100_000;
/// Places of bodies.
pub const BODIES: usize = 600_000;
/// Writes.
pub const WRITES: usize = 150_000;
/// Writes of records around bodies of every kind.
pub const RECORDS: usize = 60_000;
/// Trails cut at every byte.
pub const EVERY_BYTE: usize = 150_000;
/// Trails that grow in random steps.
pub const RANDOM_STEPS: usize = 75_000;
/// Reads at one place that wait.
pub const WAITS: usize = 50_000;
/// Records with two bytes for the version.
pub const TWO_BYTES: usize = 200_000;
/// Such records cut at every byte.
pub const CUT_TWO_BYTES: usize = 60_000;
/// Steps back from each place of small trails.
pub const STEPS_BACK: usize = 500_000;
/// Steps back aimed at each answer, and with other bytes around.
pub const AIMED_BACK: usize = 60_000;
/// Walks from the end of good trails.
pub const WALKS: usize = 20_000;
/// Fills of an index with tables of every length.
pub const FILLS: usize = 60_000;
/// The same at each byte near a multiple of 64 records.
pub const CUT_FILLS: usize = 60_000;
/// The same behind which an item is refused.
pub const REFUSED_FILLS: usize = 80_000;
/// Fills from wild states.
pub const WILD_FILLS: usize = 60_000;
/// Records by their numbers.
pub const BY_NUMBER: usize = 80_000;
/// The same with wild tables and counts.
pub const WILD_TABLES: usize = 60_000;
/// Lines of a listing.
pub const LINES: usize = 100_000;
/// Parts of a listing.
pub const PARTS: usize = 60_000;
/// Answers compared as C sees them.
pub const FACE: usize = 60_000;
/// Inputs of the program.
pub const PROGRAM: usize = 400;

/// All of them together.
pub const TOTAL: usize = MIXED
    + GOOD
    + DAMAGED
    + AIMED
    + PREFIXES
    + PLACES
    + STATES
    + BODIES
    + WRITES
    + RECORDS
    + EVERY_BYTE
    + RANDOM_STEPS
    + WAITS
    + TWO_BYTES
    + CUT_TWO_BYTES
    + STEPS_BACK
    + AIMED_BACK
    + WALKS
    + FILLS
    + CUT_FILLS
    + REFUSED_FILLS
    + WILD_FILLS
    + BY_NUMBER
    + WILD_TABLES
    + LINES
    + PARTS
    + FACE
    + PROGRAM;

const _: () = assert!(TOTAL >= 1_000_000);
