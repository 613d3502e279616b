//! The limits of document 01.
pub const BYTES: usize = 65536;
pub const TYPES: usize = 256;
pub const GLOBALS: usize = 64;
pub const FUNCTIONS: usize = 64;
pub const ARGUMENTS: usize = 16;
pub const LOCALS: usize = 64;
pub const EXPRESSIONS: usize = 1024;
pub const STATEMENTS: usize = 1024;
/// Members of a struct, components of a Compose, arguments of a Call.
pub const ITEMS: usize = 16;
/// The highest binding: 0 to 31 are locations, 32 to 63 built-ins.
pub const BINDING: u16 = 63;
/// The least buffer for a report, and for a request that is written.
pub const REPORT: usize = 65536;
/// The least buffers for a pruner and for an answer.
pub const PRUNER: usize = 131072;
pub const ANSWER: usize = 327680;
pub const DEPTH: usize = 8;
pub const ENTRIES: usize = 16;
pub const PIECES: usize = 8192;

/// Bounds of this program alone: how deep a part's text may nest, how long a file a listing may make.
pub const NESTING: usize = 64;
pub const ASSEMBLED: usize = 16 << 20;
