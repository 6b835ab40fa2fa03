//! The numbers of document 01's 'Questions at the door', and of document 02's that came since. A
//! refusal is the number of the first question that is answered with no.

/// 8 bytes or more?
pub const HEADER: u8 = 1;
/// Mark TPB?
pub const MARK: u8 = 2;
/// Version 1 or 2?
pub const VERSION: u8 = 3;
/// B in 1 to 128 and I in 1 to 1,024?
pub const COUNTS: u8 = 4;
/// Length 8 + 10·B + 12·I, or in version 2 8 + 14·B + 12·I?
pub const LENGTH: u8 = 5;
/// Does block 0 start at 0, a later one after its predecessor, all below I?
pub const BLOCK_START: u8 = 6;
/// Is the annotation as laid out, label below B?
pub const ANNOTATION: u8 = 7;
/// Are opcode, registers, labels and zeros as laid out, the opcode one of the version's?
pub const FIELDS: u8 = 8;
/// Is it opcode 13, 14 or 15 exactly when last in its block?
pub const LAST_IN_BLOCK: u8 = 9;
/// Does the job's input end exactly after its last word?
pub const INPUT: u8 = 10;
/// P allowed?
pub const PLACES: u8 = 11;
/// Interval 0 or 8 to 65,535?
pub const INTERVAL: u8 = 12;
/// Sixteen registers?
pub const REGISTERS: u8 = 13;
/// At most 4,096 words?
pub const WORDS: u8 = 14;
/// Every lent buffer of the length docs/ names?
pub const BUFFER: u8 = 15;
/// Does the state meet the shape test for the program handed in?
pub const SHAPE: u8 = 20;
/// Slot below P?
pub const SLOT: u8 = 21;
/// Job not ended?
pub const NOT_ENDED: u8 = 22;
/// A running task there?
pub const RUNNING: u8 = 23;
/// Work below 4,294,967,295?
pub const WORK: u8 = 24;
/// Lanes in 1 to 8? Put after 15 and before 20.
pub const LANES: u8 = 41;
