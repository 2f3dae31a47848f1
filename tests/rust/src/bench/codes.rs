//! The codes, with the names of document 000; 0 to 3, 40 and 56 have none there.

pub const DONE: u64 = 0;
pub const INTERRUPTED: u64 = 1;
pub const LIST_FULL: u64 = 2;
pub const CHECK_COMPLETE: u64 = 3;
pub const MALFORMED: u64 = 40;
pub const OP_STATE_INCORRECT: u64 = 41;
pub const OPERAND_INVALID: u64 = 42;
pub const OPERAND_BUSY: u64 = 43;
pub const INVALID_RESUMPTION: u64 = 44;
pub const EPT_ENTRY_STATE_INCORRECT: u64 = 45;
pub const GPA_RANGE_NOT_BLOCKED: u64 = 46;
pub const TLB_TRACKING_NOT_DONE: u64 = 47;
pub const BLOCKED_MEMORY_EXISTS: u64 = 48;
pub const BLOCKING_DISALLOWED: u64 = 49;
pub const MEM_SCAN_RESET_REQUIRED: u64 = 50;
pub const MEM_SCAN_FAILED_BLOCKED_RANGE: u64 = 51;
pub const MEM_SCAN_DCHECK_NOT_DONE: u64 = 52;
pub const EXPORTED_DIRTY_PAGES_REMAIN: u64 = 53;
pub const UNEXPORTED_MEMORY_REMAINS: u64 = 54;
pub const MIGRATION_EPOCH_OVERFLOW: u64 = 55;
pub const TLB_EPOCH_AT_LIMIT: u64 = 56;
