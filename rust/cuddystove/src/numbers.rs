//! The numbers of `include/cuddystove.h`: CUDDYSTOVE_X there is `X` here, but for CUDDYSTOVE_MARK, which is
//! [`ABSENT`].

/// Of this crate, the header and the library; a change of cells, bytes or answers raises the middle number.
pub const VERSION: &str = env!("CARGO_PKG_VERSION");

/// The mark: no number; absent in a cell, and in a link event it ends the link.
pub const ABSENT: i32 = i32::MIN;
/// The largest number.
pub const INF: i32 = i32::MAX;
/// The smallest number.
pub const FLOOR: i32 = -INF;

/// Devices of a network, numbered 1 to 16.
pub const DEVICES: usize = 16;
/// Cells of one device's block.
pub const BLOCK: usize = 545;
/// Cells of a network: the only length that it may have.
pub const CELLS: usize = DEVICES * BLOCK;
/// Variables of a device, 0 to 15.
pub const VARIABLES: usize = 16;
/// Sensors of a device, 0 to 15.
pub const SENSORS: usize = 16;
/// Cells of a heard or pending row: 0, then slots 1 to 15.
pub const ROW: usize = 16;
/// Where in a block the sensors' cell stands.
pub const FIRST_SENSORS: usize = 16;
/// Where in a block the first heard row stands, that for device 1.
pub const FIRST_HEARD: usize = 17;
/// Where in a block the first pending row stands, that for device 1.
pub const FIRST_PENDING: usize = 273;
/// Where in a block the first age stands, that for device 1.
pub const FIRST_AGE: usize = 529;
/// The largest distance.
pub const FARTHEST: i32 = 1_000_000;
/// The largest age.
pub const OLDEST: i32 = 2;

/// Numbers of an answer space for each event; see [`answers`](crate::answers).
pub const ANSWER: usize = 2;
/// Bytes of the longest event, a link.
pub const LONGEST_EVENT: usize = 9;
/// Bytes of a message with all fifteen slots.
pub const LONGEST_MESSAGE: usize = 64;

/// The most nodes of a program table.
pub const NODES: usize = 256;
/// The most definitions of a program table.
pub const DEFINITIONS: usize = 32;
/// The most parameters of a definition.
pub const PARAMETERS: usize = 4;
/// The most that a round of a program may cost.
pub const LARGEST_COST: u32 = 1_000_000;
