//! The numbers that documents 01 and 02 fix: lengths, places, maps and ops.

/// Rows of the policy, one for each URL.
pub const URLS: usize = 64;
/// Hosts.
pub const HOSTS: usize = 16;
/// Cookie keys of a host.
pub const KEYS: usize = 8;
/// Cookies of all hosts.
pub const COOKIES: usize = HOSTS * KEYS;
/// Connections.
pub const CONNECTIONS: usize = 32;
/// Scripts in the table.
pub const SCRIPTS: usize = 16;
/// Steps of a script.
pub const STEPS: usize = 32;
/// Bytes of a step.
pub const STEP_BYTES: usize = 4;
/// Bytes of a script.
pub const SCRIPT_BYTES: usize = STEPS * STEP_BYTES;
/// Registers of the interpreter.
pub const REGISTERS: usize = 4;

/// First policy word of the cookie tags.
pub const POLICY_COOKIES: usize = 3 * URLS;
/// First policy word of the connections.
pub const POLICY_CONNECTIONS: usize = POLICY_COOKIES + 2 * COOKIES;
/// The policy word of the hosts that are always https.
pub const POLICY_HTTPS_HOSTS: usize = POLICY_CONNECTIONS + 3 * CONNECTIONS;
/// First policy word of the https partners, one for each row.
pub const POLICY_PARTNERS: usize = POLICY_HTTPS_HOSTS + 1;
/// Words of a policy.
pub const POLICY_WORDS: usize = POLICY_PARTNERS + URLS;
/// Bytes of the script table.
pub const SCRIPTS_BYTES: usize = SCRIPTS * SCRIPT_BYTES;

/// First state word of the keys present.
pub const STATE_PRESENT: usize = COOKIES;
/// First state word of the connections.
pub const STATE_CONNECTIONS: usize = STATE_PRESENT + HOSTS;
/// Words of a state.
pub const STATE_WORDS: usize = STATE_CONNECTIONS + CONNECTIONS;

/// Bytes of map, URL and connection; a key map stands behind them.
pub const FRONT_BYTES: usize = 3;
/// Bytes of a key map and of every cookie's value.
const COOKIES_BYTES: usize = 1 + 4 * KEYS;
/// Bytes of the longest input, a script response.
pub const RECORD_BYTES: usize = FRONT_BYTES + COOKIES_BYTES + 4;
/// Bytes of the longest request, a script's.
pub const REQUEST_BYTES: usize = FRONT_BYTES + COOKIES_BYTES + 1;
/// Bytes that every output buffer must have.
pub const OUTPUT_BYTES: usize = STEPS * REQUEST_BYTES;

/// The address of an empty row.
pub const NO_ADDRESS: u32 = 255;
/// Addresses are below this.
pub const ADDRESSES: u32 = 32;
/// The address word of an entry is so much more than its address.
pub const ENTRY: u32 = 32;
/// The partner of a row that has none.
pub const NO_PARTNER: u32 = 255;
/// What an answer has in place of an endpoint where none is missing.
pub const NONE_MISSING: u32 = 32;

/// Kind of a connection that waits for a document.
pub const KIND_DOCUMENT: u32 = 1;
/// Kind of a connection that waits for a script's request.
pub const KIND_SCRIPT: u32 = 2;
/// Kind of a connection that waits for a picture.
pub const KIND_PICTURE: u32 = 3;

/// The map bit of the URL.
pub const BIT_URL: u8 = 0x01;
/// The map bit of the connection.
pub const BIT_CONNECTION: u8 = 0x02;
/// The map bit of cookies.
pub const BIT_COOKIES: u8 = 0x04;
/// The map bit of the script number, which is a request's handler.
pub const BIT_SCRIPT: u8 = 0x08;
/// The map bit of the value.
pub const BIT_VALUE: u8 = 0x10;
/// The map bit of the target URL.
pub const BIT_TARGET: u8 = 0x20;
/// Load.
pub const MAP_LOAD: u8 = 0x03;
/// Document response.
pub const MAP_DOCUMENT: u8 = 0x0B;
/// Document response with cookies.
pub const MAP_DOCUMENT_COOKIES: u8 = 0x0F;
/// Script response.
pub const MAP_SCRIPT: u8 = 0x13;
/// Script response with cookies.
pub const MAP_SCRIPT_COOKIES: u8 = 0x17;
/// Picture response. Its highest bit has no field.
pub const MAP_PICTURE: u8 = 0x43;
/// Picture response with cookies.
pub const MAP_PICTURE_COOKIES: u8 = 0x47;
/// Redirect.
pub const MAP_REDIRECT: u8 = 0x23;
/// Redirect with cookies.
pub const MAP_REDIRECT_COOKIES: u8 = 0x27;
/// Request for a document, without cookies.
pub const MAP_DOCUMENT_REQUEST: u8 = 0x03;
/// Request of a script, without cookies.
pub const MAP_SCRIPT_REQUEST: u8 = 0x0B;
/// Request for a picture, without cookies.
pub const MAP_PICTURE_REQUEST: u8 = 0x43;

/// End.
pub const OP_END: u8 = 0;
/// Register a = 256 b + c.
pub const OP_SET: u8 = 1;
/// Register a = register b + register c.
pub const OP_ADD: u8 = 2;
/// Register a = cookie b.
pub const OP_READ: u8 = 3;
/// Cookie a = register b.
pub const OP_WRITE: u8 = 4;
/// Request URL a on connection b with handler c.
pub const OP_SEND: u8 = 5;
/// If register a is 0, skip b steps.
pub const OP_SKIP: u8 = 6;
/// Request a picture of URL a on connection b.
pub const OP_PICTURE: u8 = 7;

/// Walk input below this many bytes is short.
pub const WALK_SHORTEST: usize = 4 * POLICY_WORDS + SCRIPTS_BYTES;
/// Walk input above this many bytes is long.
pub const WALK_LONGEST: usize = 65_536;
