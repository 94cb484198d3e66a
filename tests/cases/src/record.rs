//! Records: those that a setting and a state accept, those that just miss, and those that are none.

use crate::labels::{
    open_connections, Pending, CONNECTIONS, DOCUMENT, KEYS, SCRIPT, SCRIPTS, URLS,
};
use crate::random::Random;
use crate::setting::Setting;

pub const LOAD: u8 = 0x03;
pub const DOCUMENT_RESPONSE: u8 = 0x0b;
pub const SCRIPT_RESPONSE: u8 = 0x13;
pub const PICTURE_RESPONSE: u8 = 0x43;
pub const REDIRECT: u8 = 0x23;

/// The bit of a map that says that cookies follow.
pub const COOKIES: u8 = 0x04;

/// The maps of inputs.
pub const INPUT_MAPS: [u8; 9] = [0x03, 0x0b, 0x0f, 0x13, 0x17, 0x23, 0x27, 0x43, 0x47];

/// The input maps with cookies.
const COOKIE_MAPS: [u8; 4] = [0x0f, 0x17, 0x27, 0x47];

/// The map that a request can have and an input cannot.
const REQUEST_MAP: u8 = LOAD | COOKIES;

/// Where the key map stands in a record with cookies.
const KEY_MAP_AT: usize = 3;

/// A record taken apart, an input or a request; what its map does not carry is 0.
#[derive(Clone, Copy, Debug, Default, PartialEq, Eq)]
pub struct Fields {
    pub map: u8,
    pub url: u8,
    pub connection: u8,
    pub keys: u8,
    pub values: [u32; KEYS],
    pub script: u8,
    pub value: u32,
    pub target: u8,
}

impl Fields {
    pub fn write(&self, record: &mut Vec<u8>) {
        record.clear();
        self.append(record);
    }

    /// The fields that the map carries, in the order of its bits.
    pub fn append(&self, record: &mut Vec<u8>) {
        record.push(self.map);
        let carries = |bit: u8| self.map >> bit & 1 == 1;
        if carries(0) {
            record.push(self.url);
        }
        if carries(1) {
            record.push(self.connection);
        }
        if carries(2) {
            self.write_cookies(record);
        }
        if carries(3) {
            record.push(self.script);
        }
        if carries(4) {
            record.extend_from_slice(&self.value.to_be_bytes());
        }
        if carries(5) {
            record.push(self.target);
        }
    }

    fn write_cookies(&self, record: &mut Vec<u8>) {
        record.push(self.keys);
        for key in (0..KEYS).filter(|key| self.keys >> key & 1 == 1) {
            record.extend_from_slice(&self.values[key].to_be_bytes());
        }
    }
}

/// What is done to a record that would be accepted.
#[derive(Clone, Copy)]
enum Twist {
    Nothing,
    /// A load of any URL on any connection.
    AnyLoad,
    /// A redirect to any URL.
    AnyTarget,
    /// A load or a redirect of which labels say another thing if the URL is not replaced by its partner.
    Swayed,
    BadName,
    OtherUrl,
    OtherConnection,
    OtherKind,
    /// The bytes no longer make a record, or another one.
    Bytes,
}

const TWISTS: [(usize, Twist); 9] = [
    (40, Twist::Nothing),
    (5, Twist::AnyLoad),
    (5, Twist::AnyTarget),
    (4, Twist::Swayed),
    (5, Twist::BadName),
    (3, Twist::OtherUrl),
    (3, Twist::OtherConnection),
    (3, Twist::OtherKind),
    (13, Twist::Bytes),
];

/// Makes a record for a sound state: more than half of them are accepted where the policy lets anything be.
pub fn make_record(setting: &Setting, state: &[u32], record: &mut Vec<u8>, random: &Random) {
    let mut fields = accepted(setting, state, random);
    let twist = random.weighted(&TWISTS);
    twist_fields(twist, &mut fields, setting, random);
    if random.one_in(32) {
        // Two things at once, for which of them is answered.
        let second = random.weighted(&TWISTS);
        twist_fields(second, &mut fields, setting, random);
    }
    fields.write(record);
    if matches!(twist, Twist::Bytes) {
        twist_bytes(record, random);
    }
}

/// A record that would be accepted, and nothing else: for long runs.
pub fn make_accepted(setting: &Setting, state: &[u32], record: &mut Vec<u8>, random: &Random) {
    accepted(setting, state, random).write(record);
}

/// A load or a redirect that labels forbid, where there is one for a connection that is drawn.
pub fn make_forbidden(setting: &Setting, state: &[u32], record: &mut Vec<u8>, random: &Random) {
    let mut fields = accepted(setting, state, random);
    if fields.map == LOAD {
        let url = setting.forbidden_url(fields.connection, random);
        fields.url = url.unwrap_or(fields.url);
    } else if let Some(target) = setting.forbidden_target(fields.connection, random) {
        fields.map = REDIRECT | fields.map & COOKIES;
        fields.target = target;
    }
    fields.write(record);
}

fn accepted(setting: &Setting, state: &[u32], random: &Random) -> Fields {
    let open = random.bit_of(open_connections(state));
    match open {
        Some(connection) if !random.one_in(4) => awaited(setting, state, connection, random),
        _ => load(setting, random),
    }
}

fn load(setting: &Setting, random: &Random) -> Fields {
    let connection = setting.useful_connection(random);
    Fields {
        map: LOAD,
        url: setting.loadable_url(connection, random),
        connection,
        ..Fields::default()
    }
}

/// A response or a redirect on an open connection.
pub fn awaited(setting: &Setting, state: &[u32], connection: u8, random: &Random) -> Fields {
    let pending = Pending::of(state, connection);
    let mut fields = Fields {
        map: response_to(pending),
        url: pending.url,
        connection,
        script: setting.script_at(pending.url, connection, random),
        value: random.pick(&[0, 1, u32::MAX, random.word()]),
        target: setting.target(connection, random),
        ..Fields::default()
    };
    if random.one_in(3) {
        fields.map = REDIRECT;
    }
    if random.one_in(2) {
        fields.map |= COOKIES;
        fields.keys = some_keys(random);
        random.fill_words(&mut fields.values);
        fields.values[random.below(KEYS)] = 0;
    }
    fields
}

/// All keys, any of them, or one.
fn some_keys(random: &Random) -> u8 {
    random.pick(&[0xff, random.byte().max(1), 1 << random.below(KEYS)])
}

fn response_to(pending: Pending) -> u8 {
    match pending.kind {
        DOCUMENT => DOCUMENT_RESPONSE,
        SCRIPT => SCRIPT_RESPONSE,
        _ => PICTURE_RESPONSE,
    }
}

fn twist_fields(twist: Twist, fields: &mut Fields, setting: &Setting, random: &Random) {
    match twist {
        Twist::Nothing | Twist::Bytes => {}
        Twist::AnyLoad => {
            fields.map = LOAD;
            fields.url = setting.any_url(random);
            fields.connection = random.byte_below(CONNECTIONS as u8);
        }
        Twist::AnyTarget => {
            fields.map = REDIRECT | fields.map & COOKIES;
            fields.target = setting.any_url(random);
        }
        Twist::Swayed => sway(fields, setting, random),
        Twist::BadName => misname(fields, setting, random),
        Twist::OtherUrl => {
            let any = setting.any_url(random);
            let http = setting.http_of(fields.url, random).unwrap_or(any);
            fields.url = random.pick(&[any, http]);
        }
        Twist::OtherConnection => fields.connection = random.byte_below(CONNECTIONS as u8),
        Twist::OtherKind => {
            let others = [
                DOCUMENT_RESPONSE,
                SCRIPT_RESPONSE,
                PICTURE_RESPONSE,
                REDIRECT,
            ];
            fields.map = random.pick(&others) | fields.map & COOKIES;
        }
    }
}

/// Names a URL of which labels say another thing than of its partner, where there is one and the record has a connection.
fn sway(fields: &mut Fields, setting: &Setting, random: &Random) {
    let connection = fields.connection;
    if usize::from(connection) >= CONNECTIONS {
        return;
    }
    if fields.map == LOAD {
        let url = setting.swayed_url(connection, random);
        fields.url = url.unwrap_or(fields.url);
    } else if let Some(target) = setting.swayed_target(connection, random) {
        fields.map = REDIRECT | fields.map & COOKIES;
        fields.target = target;
    }
}

/// Names something that there is not, as near as it can be or far away.
fn misname(fields: &mut Fields, setting: &Setting, random: &Random) {
    let far = random.pick(&[255, random.byte() | 0x80]);
    let beyond = URLS as u8 + setting.any_url(random);
    let no_url = random.pick(&[URLS as u8, beyond, setting.no_url(random), far]);
    match random.below(4) {
        0 => fields.url = no_url,
        1 => fields.connection = random.pick(&[CONNECTIONS as u8, far]),
        2 => fields.script = random.pick(&[SCRIPTS as u8, far]),
        _ => fields.target = no_url,
    }
}

fn twist_bytes(record: &mut Vec<u8>, random: &Random) {
    match random.below(15) {
        0 => record.clear(),
        1 => record[0] = random.pick(&[random.byte(), record[0] ^ 1 << random.below(8)]),
        2 => record[0] = random.pick(&INPUT_MAPS),
        3 | 4 => record.truncate(random.below(record.len())),
        5 | 6 => cut_cookies(record, random),
        7 => lengthen(record, random.pick(&[1, random.within(1..=4)]), random),
        8..=10 => no_keys(record, random),
        11 | 12 => request(record, random),
        13 => {
            record.clear();
            let length = random.pick(&[random.below(48), random.below(256), random.below(8 * 256)]);
            lengthen(record, length, random);
            if let (Some(map), true) = (record.first_mut(), random.one_in(2)) {
                *map = random.pick(&INPUT_MAPS);
            }
        }
        _ => {
            // The longest that walk can tell, and what a count of eight bits would take for another length.
            let length = random.pick(&[255, 256, record.len() + 256]);
            lengthen(record, length - record.len(), random);
        }
    }
}

fn lengthen(record: &mut Vec<u8>, by: usize, random: &Random) {
    let old = record.len();
    record.resize(old + by, 0);
    random.fill_bytes(&mut record[old..]);
}

/// A record of this map and these keys, on the same URL and connection.
fn rewrite(record: &mut Vec<u8>, map: u8, keys: u8, random: &Random) {
    let mut fields = Fields {
        map,
        url: record[1],
        connection: record[2],
        keys,
        value: random.word(),
        ..Fields::default()
    };
    random.fill_words(&mut fields.values);
    fields.write(record);
}

/// A map with cookies, an empty key map, and what else the map asks for, or less or more than that. A picture response has nothing behind
/// its key map that could be cut off.
fn no_keys(record: &mut Vec<u8>, random: &Random) {
    rewrite(record, random.pick(&COOKIE_MAPS), 0, random);
    let shortest = KEY_MAP_AT + 1;
    match random.below(3) {
        0 => {}
        1 if record.len() == shortest => {}
        1 => record.truncate(random.within(shortest..=record.len() - 1)),
        _ => lengthen(record, random.pick(&[1, 4, random.within(1..=256)]), random),
    }
}

/// A record with cookies, cut before its key map or anywhere.
fn cut_cookies(record: &mut Vec<u8>, random: &Random) {
    rewrite(record, random.pick(&COOKIE_MAPS), some_keys(random), random);
    let longest = random.pick(&[KEY_MAP_AT, record.len() - 1]);
    record.truncate(random.within(1..=longest));
}

/// A request with cookies, whose map no input has; also with an empty key map.
fn request(record: &mut Vec<u8>, random: &Random) {
    let keys = random.pick(&[0, some_keys(random)]);
    rewrite(record, REQUEST_MAP, keys, random);
}
