//! The monitor tuned by hand: no allocation, no unsafe.
//!
//! Most of the time goes into the checks of policy and state, which every
//! call makes in full. Lengths are settled once by turning slices into
//! arrays; numbers are masked where they index, so that no bounds check is
//! left; policy and state stay one array each, so that one register reaches
//! every part.

use crate::layout::*;
use crate::numbers::*;
use crate::Answer;

pub type Policy = [u32; POLICY_WORDS];
type State = [u32; STATE_WORDS];
type Output = [u8; OUTPUT_BYTES];

/// Address word, readers, writers.
pub type UrlRow = [u32; 3];
/// Readers, script readers, writers.
type ConnectionRow = [u32; 3];

/// The same function as `feed`, tuned by hand.
pub fn feed_fast(
    policy: &[u32],
    scripts: &[u8],
    state: &mut [u32],
    record: &[u8],
    out: &mut [u8],
) -> Answer {
    match judge(policy, scripts, state, record, out) {
        Ok(answer) => answer,
        Err(Refusal { number, missing }) => Answer {
            number,
            bytes: 0,
            steps: 0,
            missing,
        },
    }
}

/// What an answer has that refuses a record.
struct Refusal {
    number: u32,
    missing: u32,
}

/// A refusal by another number than 8 and 9.
#[inline(always)]
fn refused(number: u32) -> Refusal {
    Refusal {
        number,
        missing: NONE_MISSING,
    }
}

/// The numbers in order, then the work of an accepted record.
#[inline(always)]
fn judge(
    policy: &[u32],
    scripts: &[u8],
    state: &mut [u32],
    record: &[u8],
    out: &mut [u8],
) -> Result<Answer, Refusal> {
    let out: &mut Output = out.first_chunk_mut().ok_or(refused(OUTPUT_SHORT))?;
    let policy: &Policy = policy.try_into().map_err(|_| refused(POLICY_BAD))?;
    let some_empty = urls_well_formed(policy).ok_or(refused(POLICY_BAD))?;
    if !connections_well_formed(policy) || !partners_well_formed(policy) {
        return Err(refused(POLICY_BAD));
    }
    let scripts: &[u8; SCRIPTS_BYTES] = scripts.try_into().map_err(|_| refused(SCRIPTS_BAD))?;
    let state: &mut State = state.try_into().map_err(|_| refused(STATE_UNSOUND))?;
    if !cookies_sound(state) || !pending_sound(policy, some_empty, state) {
        return Err(refused(STATE_UNSOUND));
    }
    let mut record = read_record(record).ok_or_else(|| refused(why_malformed(record)))?;
    upgrade_record(policy, &mut record);
    check_record(policy, state, &record)?;
    Ok(carry_out(policy, scripts, state, &record, out))
}

#[inline(always)]
pub fn url_row(policy: &Policy, number: u32) -> UrlRow {
    let place = 3 * (number as usize % URLS);
    [policy[place], policy[place + 1], policy[place + 2]]
}

/// The address of an address word: an entry's has one bit more. A word of no URL
/// keeps a bit that no address has.
#[inline(always)]
pub fn address_of(word: u32) -> u32 {
    word & !ENTRY
}

/// The host of an address word: its lowest bits.
#[inline(always)]
pub fn host_of(word: u32) -> u32 {
    word % HOSTS as u32
}

/// Those who may have shaped a redirect to a row or a script's request: its
/// writers, and for an entry all endpoints. Without a branch, since which it is
/// could not be foreseen.
#[inline(always)]
pub fn admitted(&[word, _, writers]: &UrlRow) -> u32 {
    writers | (word / ENTRY % 2).wrapping_neg()
}

/// The number after the replacement: the row's https partner where it has one.
/// A number above 63 has no row and stays.
#[inline(always)]
fn upgraded(policy: &Policy, number: u32) -> u32 {
    match policy[POLICY_PARTNERS..].get(number as usize) {
        Some(&partner) if partner != NO_PARTNER => partner,
        _ => number,
    }
}

#[inline(always)]
fn connection_row(policy: &Policy, number: u32) -> ConnectionRow {
    let place = POLICY_CONNECTIONS + 3 * (number as usize % CONNECTIONS);
    [policy[place], policy[place + 1], policy[place + 2]]
}

/// Readers and writers of a cookie, by 8 host + key.
#[inline(always)]
fn cookie_tag(policy: &Policy, cookie: u32) -> [u32; 2] {
    let place = POLICY_COOKIES + 2 * (cookie as usize % COOKIES);
    [policy[place], policy[place + 1]]
}

#[inline(always)]
fn present(state: &mut State, host: u32) -> &mut u32 {
    &mut state[STATE_PRESENT + host as usize % HOSTS]
}

#[inline(always)]
fn pending(state: &mut State, connection: u32) -> &mut u32 {
    &mut state[STATE_CONNECTIONS + connection as usize % CONNECTIONS]
}

#[inline(always)]
fn holds(set: u32, endpoint: u32) -> bool {
    set >> (endpoint % ADDRESSES) & 1 == 1
}

/// The set of one endpoint.
#[inline(always)]
pub fn only(endpoint: u32) -> u32 {
    1 << (endpoint % ADDRESSES)
}

/// The part of the first set that is outside the second.
#[inline(always)]
fn outside(set: u32, other: u32) -> u32 {
    set & !other
}

/// Two words as one of 64 bits; read from neighbours it is one load.
#[inline(always)]
fn pair(low: u32, high: u32) -> u64 {
    u64::from(low) | u64::from(high) << 32
}

/// Number 2, all of a policy that has its length.
#[inline(always)]
pub fn well_formed(policy: &Policy) -> bool {
    urls_well_formed(policy).is_some()
        && connections_well_formed(policy)
        && partners_well_formed(policy)
}

/// Number 2, the rows of URLs, eight at a time: none if one is not well
/// formed, else whether some row is empty. Used rows are tried one by one:
/// their branches fall through and cost less than folding the results. Eight
/// empty rows are tried together.
#[inline(always)]
fn urls_well_formed(policy: &Policy) -> Option<bool> {
    let mut some_empty = false;
    let (rows, _) = policy[..POLICY_COOKIES].as_chunks::<3>();
    for rows in rows.as_chunks::<8>().0 {
        if rows[0][0] == NO_ADDRESS && all_empty(rows) {
            some_empty = true;
            continue;
        }
        for row in rows {
            if is_used(row) {
                continue;
            }
            if !all_used_or_empty(rows) {
                return None;
            }
            some_empty = true;
            break;
        }
    }
    Some(some_empty)
}

/// In words of 64 bits, twelve for eight rows; the compiler takes most of
/// them two at a time.
#[inline(always)]
fn all_empty(rows: &[UrlRow; 8]) -> bool {
    let mut differing = 0;
    for [first, second] in rows.as_chunks().0 {
        differing |= pair(first[0], first[1]) ^ u64::from(NO_ADDRESS);
        differing |= pair(first[2], second[0]) ^ u64::from(NO_ADDRESS) << 32;
        differing |= pair(second[1], second[2]);
    }
    differing == 0
}

#[inline(always)]
fn is_used(&[word, readers, _]: &UrlRow) -> bool {
    address_of(word) < ADDRESSES && holds(readers, host_of(word))
}

/// Used and empty rows mixed. Apart, so that the path of the used rows stays
/// short.
#[cold]
#[inline(never)]
fn all_used_or_empty(rows: &[UrlRow; 8]) -> bool {
    rows.iter()
        .all(|row| is_used(row) || *row == [NO_ADDRESS, 0, 0])
}

/// Number 2, the connections: script readers within readers.
#[inline(always)]
fn connections_well_formed(policy: &Policy) -> bool {
    let (rows, _) = policy[POLICY_CONNECTIONS..POLICY_HTTPS_HOSTS].as_chunks::<3>();
    let mut stray = 0;
    for &[readers, script_readers, _] in rows {
        stray |= outside(script_readers, readers);
    }
    stray == 0
}

/// Number 2, the https hosts and the partners. Without such a host no row has
/// a partner, which is tried for all rows together.
#[inline(always)]
fn partners_well_formed(policy: &Policy) -> bool {
    let hosts = policy[POLICY_HTTPS_HOSTS];
    if hosts != 0 {
        return hosts < 1 << HOSTS && each_partner_well_formed(policy, hosts);
    }
    let mut differing = 0;
    for &partner in &policy[POLICY_PARTNERS..] {
        differing |= partner ^ NO_PARTNER;
    }
    differing == 0
}

/// The partner of an http row of a listed host has the address that is 16
/// more; no empty row has that.
#[inline(never)]
fn each_partner_well_formed(policy: &Policy, hosts: u32) -> bool {
    let (rows, _) = policy[..POLICY_COOKIES].as_chunks::<3>();
    let partners = &policy[POLICY_PARTNERS..];
    rows.iter().zip(partners).all(|(&[word, ..], &partner)| {
        let address = address_of(word);
        if address < 16 && holds(hosts, address) {
            partner < 64 && address_of(url_row(policy, partner)[0]) == address + 16
        } else {
            partner == NO_PARTNER
        }
    })
}

/// For each presence byte, all ones where the key is absent. Aligned, so
/// that a row is an operand of two vector instructions.
static ABSENT: Absent = Absent(absent());

#[repr(align(32))]
struct Absent([[u32; KEYS]; 256]);

const fn absent() -> [[u32; KEYS]; 256] {
    let mut table = [[0; KEYS]; 256];
    let mut place = 0;
    while place < 256 * KEYS {
        let (byte, key) = (place / KEYS, place % KEYS);
        if byte >> key & 1 == 0 {
            table[byte][key] = u32::MAX;
        }
        place += 1;
    }
    table
}

/// Number 4, presence and values. What must be 0 is gathered in eight columns,
/// two vectors, without a branch: presence differs from state to state, so
/// that a branch on it would often be foreseen wrongly.
#[inline(always)]
fn cookies_sound(state: &State) -> bool {
    let (hosts, _) = state[..STATE_PRESENT].as_chunks::<KEYS>();
    let present = &state[STATE_PRESENT..STATE_CONNECTIONS];
    let mut stray = [0; KEYS];
    for (values, &present) in hosts.iter().zip(present) {
        let absent = &ABSENT.0[present as usize % 256];
        for key in 0..KEYS {
            stray[key] |= values[key] & absent[key];
        }
    }
    let mut bits = [0; 4];
    for words in present.as_chunks::<4>().0 {
        for column in 0..4 {
            bits[column] |= words[column];
        }
    }
    for column in 0..4 {
        stray[column] |= bits[column] & !255;
    }
    stray.iter().fold(0, |all, column| all | column) == 0
}

/// Number 4, the connections; four free ones are passed together.
#[inline(always)]
fn pending_sound(policy: &Policy, some_empty: bool, state: &State) -> bool {
    let (words, _) = state[STATE_CONNECTIONS..].as_chunks::<4>();
    let (rows, _) = policy[POLICY_CONNECTIONS..POLICY_HTTPS_HOSTS].as_chunks::<3>();
    for (words, rows) in words.iter().zip(rows.as_chunks::<4>().0) {
        if pair(words[0], words[1]) | pair(words[2], words[3]) == 0 {
            continue;
        }
        for (&word, row) in words.iter().zip(rows) {
            if word != 0 && !open_sound(policy, some_empty, row, word) {
                return false;
            }
        }
    }
    true
}

/// An open connection. No branch depends on the kind, which could not be
/// foreseen: what the word may hold is looked up by kind, and the origin of a
/// document or picture is tried like that of a script's request, row 0 being
/// seldom empty.
#[inline(always)]
fn open_sound(policy: &Policy, some_empty: bool, row: &ConnectionRow, word: u32) -> bool {
    let [url, readers, _] = url_row(policy, word);
    let address = address_of(url);
    if address >= ADDRESSES || outside(row[0], readers) != 0 || !holds(row[2], address) {
        return false;
    }
    if word & kind_of(word).beyond != 0 {
        return false;
    }
    !some_empty || url_row(policy, word >> 16)[0] != NO_ADDRESS || has_no_origin(word)
}

#[cold]
#[inline(never)]
fn has_no_origin(word: u32) -> bool {
    word >> 24 != KIND_SCRIPT
}

/// What belongs to a kind of connection.
#[derive(Clone, Copy)]
struct KindRules {
    /// The bits that an open connection's word must not have: beyond URL 63,
    /// and for a script's request beyond origin 63 and handler 15.
    beyond: u32,
    /// The map of its request, without cookies.
    request: u8,
}

/// The kinds by number. In an unknown one, and in kind 0 where the word is not
/// 0, some bit is beyond.
static KINDS: [KindRules; 256] = kinds();

const fn kinds() -> [KindRules; 256] {
    let unknown = KindRules {
        beyond: u32::MAX,
        request: 0,
    };
    let mut table = [unknown; 256];
    table[KIND_DOCUMENT as usize] = KindRules {
        beyond: 0x00FF_FFC0,
        request: MAP_DOCUMENT_REQUEST,
    };
    table[KIND_SCRIPT as usize] = KindRules {
        beyond: 0x00C0_F0C0,
        request: MAP_SCRIPT_REQUEST,
    };
    table[KIND_PICTURE as usize] = KindRules {
        beyond: 0x00FF_FFC0,
        request: MAP_PICTURE_REQUEST,
    };
    table
}

/// What belongs to the kind of a connection with this word.
#[inline(always)]
fn kind_of(word: u32) -> KindRules {
    KINDS[word as usize >> 24]
}

/// The kind of a record, with the field that only this kind has.
#[derive(Clone, Copy)]
enum Kind {
    Load,
    Document(u32),
    Script(u32),
    Picture,
    Redirect(u32),
}

/// A record, its cookies still as bytes.
struct Record<'a> {
    kind: Kind,
    url: u32,
    connection: u32,
    keys: u32,
    values: &'a [u8],
}

/// Numbers 10, 12 and 11: `None` where one of them applies.
#[inline(always)]
fn read_record(bytes: &[u8]) -> Option<Record<'_>> {
    let (&[map, url, connection], mut rest) = bytes.split_first_chunk()?;
    let mut keys = 0;
    let mut values: &[u8] = &[];
    if map & BIT_COOKIES != 0 {
        let (&first, after) = rest.split_first()?;
        (values, rest) = after.split_at_checked(4 * first.count_ones() as usize)?;
        keys = first;
        if keys == 0 {
            return None;
        }
    }
    let kind = match (map, rest) {
        (MAP_LOAD, []) => Kind::Load,
        (MAP_DOCUMENT | MAP_DOCUMENT_COOKIES, &[script]) => Kind::Document(script.into()),
        (MAP_REDIRECT | MAP_REDIRECT_COOKIES, &[target]) => Kind::Redirect(target.into()),
        (MAP_SCRIPT | MAP_SCRIPT_COOKIES, &[a, b, c, d]) => {
            Kind::Script(u32::from_be_bytes([a, b, c, d]))
        }
        (MAP_PICTURE | MAP_PICTURE_COOKIES, []) => Kind::Picture,
        _ => return None,
    };
    Some(Record {
        kind,
        url: url.into(),
        connection: connection.into(),
        keys: keys.into(),
        values,
    })
}

/// Which of these numbers is the first, for a record that could not be read.
/// A second look at its bytes, so that a good record is read without asking.
#[cold]
#[inline(never)]
fn why_malformed(bytes: &[u8]) -> u32 {
    match *bytes {
        [] => KIND_UNKNOWN,
        [map, ..] if !is_input_map(map) => KIND_UNKNOWN,
        [map, _, _, 0, ..] if map & BIT_COOKIES != 0 => KEY_MAP_EMPTY,
        _ => CUT_OR_TOO_LONG,
    }
}

#[inline(always)]
fn is_input_map(map: u8) -> bool {
    matches!(
        map,
        MAP_LOAD
            | MAP_DOCUMENT
            | MAP_DOCUMENT_COOKIES
            | MAP_SCRIPT
            | MAP_SCRIPT_COOKIES
            | MAP_PICTURE
            | MAP_PICTURE_COOKIES
            | MAP_REDIRECT
            | MAP_REDIRECT_COOKIES
    )
}

/// Replaces the URL of a load and the target of a redirect, and no other.
#[inline(always)]
fn upgrade_record(policy: &Policy, record: &mut Record) {
    match &mut record.kind {
        Kind::Load => record.url = upgraded(policy, record.url),
        Kind::Redirect(target) => *target = upgraded(policy, *target),
        Kind::Document(_) | Kind::Script(_) | Kind::Picture => {}
    }
}

/// Numbers 6 to 9.
#[inline(always)]
fn check_record(policy: &Policy, state: &mut State, record: &Record) -> Result<(), Refusal> {
    let url = url_row(policy, record.url);
    if record.url > 63 || record.connection > 31 || url[0] == NO_ADDRESS {
        return Err(refused(NAME_UNKNOWN));
    }
    let row = connection_row(policy, record.connection);
    let word = *pending(state, record.connection);
    let same_url = word % 256 == record.url;
    let check_awaited = |kind| check_match(same_url && word >> 24 == kind);
    match record.kind {
        Kind::Load => check_labels([
            (READERS_FORBID, outside(row[0], url[1])),
            (WRITERS_FORBID, outside(only(address_of(url[0])), row[2])),
        ]),
        Kind::Document(script) if script > 15 => Err(refused(NAME_UNKNOWN)),
        Kind::Document(_) => check_awaited(KIND_DOCUMENT),
        Kind::Script(_) => check_awaited(KIND_SCRIPT),
        Kind::Picture => check_awaited(KIND_PICTURE),
        Kind::Redirect(target) => {
            let to = url_row(policy, target);
            if target > 63 || to[0] == NO_ADDRESS {
                return Err(refused(NAME_UNKNOWN));
            }
            check_match(same_url && word != 0)?;
            check_labels([
                (READERS_FORBID, outside(only(host_of(to[0])), row[0])),
                (READERS_FORBID, outside(row[0], to[1])),
                (WRITERS_FORBID, outside(only(address_of(to[0])), row[2])),
                (WRITERS_FORBID, outside(row[2], admitted(&to))),
            ])
        }
    }
}

/// Number 7.
#[inline(always)]
fn check_match(matches: bool) -> Result<(), Refusal> {
    match matches {
        true => Ok(()),
        false => Err(refused(NOT_AWAITED)),
    }
}

/// Numbers 8 and 9: what is missing in each condition, with the condition's
/// number, in the order in which they are asked. All are tried together, since
/// most records that come so far are accepted.
#[inline(always)]
fn check_labels<const CONDITIONS: usize>(
    conditions: [(u32, u32); CONDITIONS],
) -> Result<(), Refusal> {
    let any = conditions.iter().fold(0, |any, (_, missing)| any | missing);
    if any == 0 {
        return Ok(());
    }
    let failing = conditions.into_iter().find(|(_, missing)| *missing != 0);
    // Some condition fails, so there is a first: the default is never taken, and
    // no code for a panic stands here.
    let (number, missing) = failing.unwrap_or_default();
    Err(Refusal {
        number,
        missing: missing.trailing_zeros(),
    })
}

/// What an accepted record does.
#[inline(always)]
fn carry_out(
    policy: &Policy,
    scripts: &[u8; SCRIPTS_BYTES],
    state: &mut State,
    record: &Record,
    out: &mut Output,
) -> Answer {
    let word = *pending(state, record.connection);
    if record.keys != 0 {
        store_cookies(policy, state, record);
    }
    let next = match record.kind {
        Kind::Load => KIND_DOCUMENT << 24 | record.url,
        Kind::Redirect(target) => word & !255 | target,
        Kind::Document(_) | Kind::Script(_) | Kind::Picture => 0,
    };
    *pending(state, record.connection) = next;
    let (script, page, value) = match record.kind {
        Kind::Document(script) => (script, record.url, 0),
        Kind::Script(value) => (word >> 8, word >> 16, value),
        Kind::Picture => return without_script(0),
        Kind::Load | Kind::Redirect(_) => {
            let bytes = write_request(policy, state, record.connection, next, out, 0);
            return without_script(bytes);
        }
    };
    let (scripts, _) = scripts.as_chunks::<SCRIPT_BYTES>();
    let script = &scripts[script as usize % SCRIPTS];
    run(policy, state, out, script, [record.connection, page, value])
}

/// The answer to an accepted record that runs no script.
#[inline(always)]
fn without_script(bytes: usize) -> Answer {
    Answer {
        number: ACCEPTED,
        bytes: bytes as u32,
        steps: 0,
        missing: NONE_MISSING,
    }
}

/// Stores the delivered cookies that may be stored.
#[inline(always)]
fn store_cookies(policy: &Policy, state: &mut State, record: &Record) {
    let host = host_of(url_row(policy, record.url)[0]);
    let row = connection_row(policy, record.connection);
    let mut keys = record.keys;
    let mut stored = 0;
    for value in record.values.as_chunks().0 {
        let cookie = 8 * host + keys.trailing_zeros() % 8;
        let [readers, writers] = cookie_tag(policy, cookie);
        if outside(readers, row[0]) | outside(row[2], writers) == 0 {
            state[cookie as usize % COOKIES] = u32::from_be_bytes(*value);
            stored |= keys & keys.wrapping_neg();
        }
        keys &= keys.wrapping_sub(1);
    }
    *present(state, host) |= stored;
}

/// Writes the request for this pending word at this place; the place after
/// it.
#[inline(always)]
fn write_request(
    policy: &Policy,
    state: &mut State,
    connection: u32,
    word: u32,
    out: &mut Output,
    place: usize,
) -> usize {
    let Some(out) = out[place..].first_chunk_mut::<REQUEST_BYTES>() else {
        return place;
    };
    let address = address_of(url_row(policy, word)[0]);
    out[1] = word as u8;
    out[2] = connection as u8;
    let (keys, mut length) = write_cookies(policy, state, address, out);
    let mut map = kind_of(word).request;
    if keys != 0 {
        map |= BIT_COOKIES;
        out[3] = keys as u8;
    }
    if word >> 24 == KIND_SCRIPT {
        out[length] = (word >> 8) as u8;
        length += 1;
    }
    out[0] = map;
    place + length
}

/// Writes the values that a request to this address carries; the keys, and
/// the length so far.
#[inline(always)]
fn write_cookies(
    policy: &Policy,
    state: &mut State,
    address: u32,
    out: &mut [u8; REQUEST_BYTES],
) -> (u32, usize) {
    let host = host_of(address);
    let keys = carried(policy, *present(state, host), address);
    if keys == 0 {
        return (0, 3);
    }
    if keys == 255 {
        for key in 0..KEYS {
            let value = state[KEYS * host as usize + key];
            out[4 + 4 * key..8 + 4 * key].copy_from_slice(&value.to_be_bytes());
        }
        return (255, 36);
    }
    let mut length = 4;
    let mut left = keys;
    while left != 0 {
        let cookie = 8 * host + left.trailing_zeros() % 8;
        let value = state[cookie as usize % COOKIES];
        out[length..length + 4].copy_from_slice(&value.to_be_bytes());
        length += 4;
        left &= left - 1;
    }
    (keys, length)
}

/// The present keys whose readers hold the address. None and all are
/// settled first; the rest is without a branch, since none would be foreseen.
#[inline(always)]
fn carried(policy: &Policy, present: u32, address: u32) -> u32 {
    if present == 0 || present == 255 && all_hold(policy, address) {
        return present;
    }
    let mut keys = 0;
    for key in 0..8 {
        let [readers, _] = cookie_tag(policy, 8 * host_of(address) + key);
        keys |= u32::from(holds(readers, address)) << key;
    }
    keys & present
}

/// Whether the readers of every cookie of the address's host hold it.
#[inline(always)]
fn all_hold(policy: &Policy, address: u32) -> bool {
    let mut common = u32::MAX;
    for key in 0..8 {
        let [readers, _] = cookie_tag(policy, 8 * host_of(address) + key);
        common &= readers;
    }
    holds(common, address)
}

/// A script at work.
struct Interpreter<'a> {
    policy: &'a Policy,
    state: &'a mut State,
    out: &'a mut Output,
    bytes: usize,
    page: u32,
    host: u32,
    /// The connection's script readers and writers.
    readers: u32,
    writers: u32,
    registers: [u32; REGISTERS],
}

/// Runs a script; the last argument is connection, page and register 0.
#[inline(always)]
fn run(
    policy: &Policy,
    state: &mut State,
    out: &mut Output,
    script: &[u8; SCRIPT_BYTES],
    [connection, page, value]: [u32; 3],
) -> Answer {
    let [_, readers, writers] = connection_row(policy, connection);
    let page = page % 256;
    let mut interpreter = Interpreter {
        policy,
        state,
        out,
        bytes: 0,
        page,
        host: host_of(url_row(policy, page)[0]),
        readers,
        writers,
        registers: [value, 0, 0, 0],
    };
    let (steps, _) = script.as_chunks::<STEP_BYTES>();
    let mut count = 0;
    let mut next = 0;
    while next < STEPS {
        count += 1;
        match interpreter.step(u32::from_le_bytes(steps[next])) {
            Some(skipped) => next += 1 + skipped as usize,
            None => break,
        }
    }
    Answer {
        number: ACCEPTED,
        bytes: interpreter.bytes as u32,
        steps: count,
        missing: NONE_MISSING,
    }
}

/// The bits of a step, op in the lowest byte, that must be 0 for the used
/// fields to be in range: registers at most 3, keys 7, URLs 63, connections
/// 31, handlers 15. The last field of a picture is not used.
const BEYOND_SET: u32 = 0x0000_FC00;
const BEYOND_ADD: u32 = 0xFCFC_FC00;
const BEYOND_READ: u32 = 0x00F8_FC00;
const BEYOND_WRITE: u32 = 0x00FC_F800;
const BEYOND_SEND: u32 = 0xF0E0_C000;
const BEYOND_SKIP: u32 = 0x0000_FC00;
const BEYOND_PICTURE: u32 = 0x00E0_C000;

impl Interpreter<'_> {
    /// One step: how many steps to skip, or none at the end.
    #[inline(always)]
    fn step(&mut self, step: u32) -> Option<u32> {
        let [op, a, b, c] = step.to_le_bytes();
        let [a, b, c] = [a, b, c].map(u32::from);
        match op {
            OP_SET if step & BEYOND_SET == 0 => *self.register(a) = 256 * b + c,
            OP_ADD if step & BEYOND_ADD == 0 => {
                *self.register(a) = self.register(b).wrapping_add(*self.register(c));
            }
            OP_READ if step & BEYOND_READ == 0 => *self.register(a) = self.read(b)?,
            OP_WRITE if step & BEYOND_WRITE == 0 => {
                let value = *self.register(b);
                self.write(a, value);
            }
            OP_SEND if step & BEYOND_SEND == 0 => {
                self.request(b, KIND_SCRIPT << 24 | self.page << 16 | c << 8 | a)?;
            }
            OP_PICTURE if step & BEYOND_PICTURE == 0 => self.request(b, KIND_PICTURE << 24 | a)?,
            OP_SKIP if step & BEYOND_SKIP == 0 && *self.register(a) == 0 => return Some(b),
            OP_SKIP if step & BEYOND_SKIP == 0 => {}
            _ => return None,
        }
        Some(0)
    }

    #[inline(always)]
    fn register(&mut self, number: u32) -> &mut u32 {
        &mut self.registers[number as usize % REGISTERS]
    }

    #[inline(always)]
    fn read(&mut self, key: u32) -> Option<u32> {
        let cookie = 8 * self.host + key;
        let [readers, writers] = cookie_tag(self.policy, cookie);
        let here = *present(self.state, self.host) >> (key % 8) & 1;
        if outside(self.readers, readers) | outside(writers, self.writers) != 0 || here == 0 {
            return None;
        }
        Some(self.state[cookie as usize % COOKIES])
    }

    #[inline(always)]
    fn write(&mut self, key: u32, value: u32) {
        let cookie = 8 * self.host + key;
        let [readers, writers] = cookie_tag(self.policy, cookie);
        if outside(readers, self.readers) | outside(self.writers, writers) == 0 {
            self.state[cookie as usize % COOKIES] = value;
            *present(self.state, self.host) |= 1 << (key % 8);
        }
    }

    /// Opens a connection with this word, its URL replaced, where the labels
    /// allow it.
    #[inline(always)]
    fn request(&mut self, connection: u32, word: u32) -> Option<()> {
        let word = word & !255 | upgraded(self.policy, word % 256);
        let url = url_row(self.policy, word);
        let other = connection_row(self.policy, connection);
        let allowed = url[0] != NO_ADDRESS
            && holds(self.readers, host_of(url[0]))
            && outside(other[0], self.readers & url[1]) == 0
            && holds(other[2], address_of(url[0]))
            && outside(self.writers, other[2] & admitted(&url)) == 0;
        if !allowed {
            return None;
        }
        *pending(self.state, connection) = word;
        self.bytes = write_request(
            self.policy,
            self.state,
            connection,
            word,
            self.out,
            self.bytes,
        );
        Some(())
    }
}
