//! Lists of request records, one right after another: of any make-up, as sessions send them, and records that do not belong into such a list.

use crate::labels::{CONNECTIONS, SCRIPTS, URLS};
use crate::random::Random;
use crate::record::{make_record, Fields, COOKIES, INPUT_MAPS, REDIRECT, SCRIPT_RESPONSE};
use crate::session::Session;
use crate::setting::Setting;

pub const DOCUMENT_REQUEST: u8 = 0x03;
pub const SCRIPT_REQUEST: u8 = 0x0b;
pub const PICTURE_REQUEST: u8 = 0x43;

/// The maps of requests.
pub const MAPS: [u8; 6] = [
    DOCUMENT_REQUEST,
    DOCUMENT_REQUEST | COOKIES,
    SCRIPT_REQUEST,
    SCRIPT_REQUEST | COOKIES,
    PICTURE_REQUEST,
    PICTURE_REQUEST | COOKIES,
];

/// What the requests of a list are drawn from.
pub struct MakeUp {
    pub maps: Vec<u8>,
    pub urls: Vec<u8>,
    /// Key maps.
    pub keys: Vec<u8>,
}

impl MakeUp {
    /// Every kind of request, every URL and any cookies.
    pub fn all() -> MakeUp {
        MakeUp {
            maps: MAPS.to_vec(),
            urls: (0..URLS as u8).collect(),
            keys: (1..=0xff).collect(),
        }
    }

    pub fn random(random: &Random) -> MakeUp {
        let all = MakeUp::all();
        MakeUp {
            maps: some_of(all.maps, random),
            urls: some_of(all.urls, random),
            keys: some_of(all.keys, random),
        }
    }

    fn request(&self, random: &Random) -> Fields {
        let mut fields = Fields {
            map: random.pick(&self.maps),
            url: random.pick(&self.urls),
            connection: random.byte_below(CONNECTIONS as u8),
            keys: random.pick(&self.keys),
            script: random.byte_below(SCRIPTS as u8),
            ..Fields::default()
        };
        random.fill_words(&mut fields.values);
        fields
    }
}

/// All, a few or one.
fn some_of(all: Vec<u8>, random: &Random) -> Vec<u8> {
    match random.pick(&[1, random.within(2..=4), all.len(), all.len()]) {
        count if count == all.len() => all,
        count => (0..count).map(|_| random.pick(&all)).collect(),
    }
}

/// Request records, one right after another.
#[derive(Clone, Default)]
pub struct List {
    pub bytes: Vec<u8>,
    /// Where each record begins.
    pub starts: Vec<usize>,
}

impl List {
    /// So many requests.
    pub fn of(requests: usize, make_up: &MakeUp, random: &Random) -> List {
        let mut list = List::default();
        (0..requests).for_each(|_| list.push(make_up, random));
        list
    }

    /// As many requests as so many bytes hold.
    pub fn within(bytes: usize, make_up: &MakeUp, random: &Random) -> List {
        let mut list = List::default();
        while list.bytes.len() <= bytes {
            list.push(make_up, random);
        }
        let last = list.starts.pop().expect("a request was added");
        list.bytes.truncate(last);
        list
    }

    /// Just so many bytes, at least six: what the requests leave is filled with such as have four bytes and three.
    pub fn exactly(bytes: usize, make_up: &MakeUp, random: &Random) -> List {
        let mut list = List::within(bytes.saturating_sub(8), make_up, random);
        while list.bytes.len() < bytes {
            let map = match (bytes - list.bytes.len()) % 3 {
                0 => DOCUMENT_REQUEST,
                _ => SCRIPT_REQUEST,
            };
            let filling = MakeUp {
                maps: vec![map],
                urls: make_up.urls.clone(),
                keys: make_up.keys.clone(),
            };
            list.push(&filling, random);
        }
        list
    }

    fn push(&mut self, make_up: &MakeUp, random: &Random) {
        self.starts.push(self.bytes.len());
        make_up.request(random).append(&mut self.bytes);
    }
}

const SESSION_RECORDS: usize = 192;

/// What random sessions sent, one session after another: as much as so many bytes hold.
pub fn sent(bytes: usize, random: &Random) -> Vec<u8> {
    let mut list = Vec::new();
    loop {
        let mut session = Session::start(Setting::random(random));
        for _ in 0..random.within(1..=SESSION_RECORDS) {
            let record = session.record(make_record, random);
            let requests = session.feed(&record);
            if list.len() + requests.len() > bytes {
                return list;
            }
            list.extend_from_slice(requests);
        }
    }
}

/// What a record can have that makes it none of a list of requests.
#[derive(Clone, Copy, Debug, PartialEq, Eq)]
pub enum Flaw {
    /// Cookies by its map, and a key map of 0.
    NoKeys,
    /// The map of an input.
    InputMap,
    /// A map that nothing has.
    UnknownMap,
    Url,
    Connection,
    Handler,
}

/// A record with a flaw, whole as its maps say.
pub fn flawed(flaw: Flaw, random: &Random) -> Vec<u8> {
    let mut fields = MakeUp::all().request(random);
    match flaw {
        Flaw::NoKeys => {
            fields.map |= COOKIES;
            fields.keys = 0;
        }
        Flaw::InputMap => {
            fields.map = random.pick(&[SCRIPT_RESPONSE, REDIRECT]) | random.pick(&[0, COOKIES]);
        }
        Flaw::UnknownMap => fields.map = unknown_map(random),
        Flaw::Url => fields.url = out_of(URLS, random),
        Flaw::Connection => fields.connection = out_of(CONNECTIONS, random),
        Flaw::Handler => {
            fields.map = SCRIPT_REQUEST | fields.map & COOKIES;
            fields.script = out_of(SCRIPTS, random);
        }
    }
    let mut record = Vec::new();
    fields.append(&mut record);
    record
}

fn unknown_map(random: &Random) -> u8 {
    let known = |map| MAPS.contains(&map) || INPUT_MAPS.contains(&map);
    let unknown: Vec<u8> = (0..=0xff).filter(|&map| !known(map)).collect();
    random.pick(&unknown)
}

/// Just out of a range, or anywhere out of it.
fn out_of(bound: usize, random: &Random) -> u8 {
    random.pick(&[bound, random.within(bound..=0xff)]) as u8
}

#[cfg(test)]
mod tests {
    use super::*;

    #[test]
    fn lists_have_the_lengths_that_are_asked_for() {
        let random = Random::new(1);
        for bytes in 6..600 {
            let make_up = MakeUp::random(&random);
            assert_eq!(List::exactly(bytes, &make_up, &random).bytes.len(), bytes);
            assert!(List::within(bytes, &make_up, &random).bytes.len() <= bytes);
            assert!(sent(bytes, &random).len() <= bytes);
        }
        assert_eq!(List::of(7, &MakeUp::all(), &random).starts.len(), 7);
    }

    #[test]
    fn as_many_requests_are_made_as_there_is_room_for() {
        let plain = MakeUp {
            maps: vec![DOCUMENT_REQUEST],
            ..MakeUp::all()
        };
        for bytes in 0..20 {
            let list = List::within(bytes, &plain, &Random::new(1));
            assert_eq!(list.starts.len(), bytes / 3);
        }
    }
}
