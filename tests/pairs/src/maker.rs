//! Records for the lists of a pair: those that both have, and those that one of them has and a rule strikes.

use cases::labels::{open_connections, upgraded, Connection, Url, KEYS, URLS};
use cases::record::{awaited, make_accepted, make_record, Fields, COOKIES, LOAD, REDIRECT};
use cases::setting::mask_of;
use cases::{Random, Setting};

use crate::record::read_input;
use crate::scope::{strike, Scope};

pub struct Maker<'a> {
    pub setting: &'a Setting,
    pub scope: &'a Scope,
    pub random: &'a Random,
}

impl Maker<'_> {
    /// A record for the first list: mostly one that is accepted, at times any.
    pub fn any(&self, state: &[u32]) -> Vec<u8> {
        let make = match self.random.one_in(8) {
            true => make_record,
            false => make_accepted,
        };
        let mut record = Vec::new();
        make(self.setting, state, &mut record, self.random);
        record
    }

    /// A record that is struck, if one is found in a few draws: mostly on a connection that awaits it, so that it comes far.
    pub fn struck(&self, state: &[u32]) -> Option<Vec<u8>> {
        let open = open_connections(state) & self.scope.struck_connections();
        let mut record = Vec::new();
        match self.random.bit_of(open) {
            Some(connection) if !self.random.one_in(4) => {
                self.intruding(state, connection).write(&mut record);
                return Some(record);
            }
            _ => {}
        }
        let make = match self.random.one_in(3) {
            true => make_record,
            false => make_accepted,
        };
        for _ in 0..16 {
            make(self.setting, state, &mut record, self.random);
            if self.scope.remains(&record).is_err() {
                return Some(record);
            }
        }
        None
    }

    /// A response or a redirect on a connection whose records are struck. It also asks for what it should not get.
    fn intruding(&self, state: &[u32], connection: u8) -> Fields {
        let mut fields = awaited(self.setting, state, connection, self.random);
        if self.random.one_in(4) {
            fields.map = REDIRECT | fields.map & COOKIES;
            fields.target = self.target(connection).unwrap_or(fields.target);
        }
        fields
    }

    /// A URL that the connection fits, whether or not it may be redirected there.
    fn target(&self, connection: u8) -> Option<u8> {
        let policy = &self.setting.policy;
        let own = Connection::of(policy, connection);
        let fits = |url| own.fits(Url::of(policy, upgraded(policy, url)));
        self.random.bit_of(mask_of(URLS, fits))
    }

    /// A record of which the same remains: other cookies where they are struck, another name of the URL that is asked for.
    pub fn varied(&self, record: &[u8]) -> Vec<u8> {
        let mut fields = read_input(record).expect("a malformed record is struck");
        match fields.map & !COOKIES {
            LOAD => fields.url = self.other_name(fields.url),
            REDIRECT => {
                fields.target = self.other_name(fields.target);
                self.vary_cookies(&mut fields);
            }
            _ => self.vary_cookies(&mut fields),
        }
        let mut varied = Vec::new();
        fields.write(&mut varied);
        varied
    }

    /// A row for which the same URL is asked, perhaps the same row.
    fn other_name(&self, url: u8) -> u8 {
        let asked = self.scope.url_asked(url);
        let same = mask_of(URLS, |row| self.scope.url_asked(row) == asked);
        self.random.bit_of(same).unwrap_or(url)
    }

    /// The struck cookies of the record are kept, dropped, or become others.
    fn vary_cookies(&self, fields: &mut Fields) {
        let struck = self.scope.struck_keys(fields.url);
        let keys = match self.random.below(4) {
            0 => return,
            1 => 0,
            2 => struck,
            _ => struck & self.random.byte(),
        };
        strike(fields, struck);
        for key in (0..KEYS).filter(|key| keys >> key & 1 == 1) {
            fields.values[key] = self.random.pick(&[0, 1, self.random.word()]);
        }
        fields.keys |= keys;
        if fields.keys != 0 {
            fields.map |= COOKIES;
        }
    }
}
