//! The monitor's numbers, in the order in which they are asked.

/// No number refuses the record.
pub const ACCEPTED: u32 = 0;
/// The output buffer is too short.
pub const OUTPUT_SHORT: u32 = 1;
/// The policy has another length or is not well formed.
pub const POLICY_BAD: u32 = 2;
/// The script table has another length.
pub const SCRIPTS_BAD: u32 = 3;
/// The state has another length or is not sound.
pub const STATE_UNSOUND: u32 = 4;
/// The record is empty or its map is no input map.
pub const KIND_UNKNOWN: u32 = 10;
/// It has cookies by its map, but none by its key map.
pub const KEY_MAP_EMPTY: u32 = 12;
/// Its length is not what the maps call for.
pub const CUT_OR_TOO_LONG: u32 = 11;
/// It names a URL, connection or script that there is not.
pub const NAME_UNKNOWN: u32 = 6;
/// The connection does not await it.
pub const NOT_AWAITED: u32 = 7;
/// Readers forbid it.
pub const READERS_FORBID: u32 = 8;
/// Writers forbid it.
pub const WRITERS_FORBID: u32 = 9;
