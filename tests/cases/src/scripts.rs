//! Script tables. A script is made for a home, a page and a connection to whose labels its steps keep, so that it runs for long; and has
//! a step here and there that ends it.

use crate::labels::{
    upgraded, within, Connection, Cookie, Url, CONNECTIONS, KEYS, SCRIPTS, STEPS, STEP_BYTES, URLS,
};
use crate::random::Random;
use crate::setting::{mask_of, Home, Setting};

const END: u8 = 0;
const CONSTANT: u8 = 1;
const ADD: u8 = 2;
const READ: u8 = 3;
const WRITE: u8 = 4;
const SEND: u8 = 5;
const SKIP: u8 = 6;
const PICTURE: u8 = 7;

const REGISTERS: u8 = 4;

#[derive(Clone, Copy)]
enum Style {
    /// Every step is 0: the script ends at once.
    Zero,
    Bytes,
    /// Steps that are in range, and that the labels of the home allow.
    Program,
    /// A program with steps out of range, or that the labels may not allow.
    Careless,
    /// A request in each step.
    Requests,
    /// The same request in each step.
    SameRequest,
}

const STYLES: [(usize, Style); 6] = [
    (1, Style::Zero),
    (1, Style::Bytes),
    (7, Style::Program),
    (6, Style::Careless),
    (2, Style::Requests),
    (1, Style::SameRequest),
];

const OPS: [(usize, u8); 7] = [
    (2, CONSTANT),
    (2, ADD),
    (4, READ),
    (4, WRITE),
    (4, SEND),
    (2, SKIP),
    (2, PICTURE),
];

/// The steps that send a request. Only those with a handler fill the whole output.
const REQUEST_OPS: [(usize, u8); 2] = [(2, SEND), (1, PICTURE)];

pub fn random_table(setting: &Setting, random: &Random) -> Vec<u8> {
    let mut table = Vec::with_capacity(SCRIPTS * STEPS * STEP_BYTES);
    for script in 0..SCRIPTS {
        let composer = Composer {
            setting,
            home: setting.home(script as u8),
        };
        let style = random.weighted(&STYLES);
        composer.write(style, &mut table, random);
    }
    table
}

struct Composer<'a> {
    setting: &'a Setting,
    home: Home,
}

impl Composer<'_> {
    fn write(&self, style: Style, table: &mut Vec<u8>, random: &Random) {
        let any = || self.request(random.weighted(&REQUEST_OPS), random);
        let same = any();
        for _ in 0..STEPS {
            let step = match style {
                Style::Zero => [0; STEP_BYTES],
                Style::Bytes => random.word().to_le_bytes(),
                Style::Program => self.kept(random),
                Style::Careless => self.careless(random),
                Style::Requests => any(),
                Style::SameRequest => same,
            };
            table.extend_from_slice(&step);
        }
    }

    fn careless(&self, random: &Random) -> [u8; STEP_BYTES] {
        match random.below(24) {
            0 | 1 => self.one_field_off(random),
            2 | 3 => self.whatever(random),
            4 => [END, random.byte(), random.byte(), random.byte()],
            5 => self.swayed(random),
            6 if self.setting.has_entries() => self.linked(random),
            7 if self.setting.has_entries() => self.just_missed(random),
            _ => self.kept(random),
        }
    }

    /// A step that the home allows, where there is one. The fields that the op does not use are random: they are to be ignored.
    fn kept(&self, random: &Random) -> [u8; STEP_BYTES] {
        let op = random.weighted(&OPS);
        let a = random.byte_below(REGISTERS);
        match op {
            CONSTANT => [op, a, random.byte(), random.byte()],
            ADD => [
                op,
                a,
                random.byte_below(REGISTERS),
                random.byte_below(REGISTERS),
            ],
            READ => match self.key(random, Connection::reads) {
                Some(key) => [op, a, key, random.byte()],
                None => [CONSTANT, a, 0, 0],
            },
            WRITE => {
                let key = self.key(random, Connection::writes);
                let key = key.unwrap_or(random.byte_below(KEYS as u8));
                [op, key, a, random.byte()]
            }
            SEND | PICTURE => self.request(op, random),
            _ => [op, a, random.byte_below(6), random.byte()],
        }
    }

    /// In range, but perhaps not allowed; a skip may go past the end.
    fn whatever(&self, random: &Random) -> [u8; STEP_BYTES] {
        let op = random.weighted(&OPS);
        let register = random.byte_below(REGISTERS);
        let key = random.byte_below(KEYS as u8);
        match op {
            READ => [op, register, key, random.byte()],
            WRITE => [op, key, register, random.byte()],
            SEND | PICTURE => self.other_request(op, random),
            SKIP => [op, register, random.byte(), random.byte()],
            _ => self.kept(random),
        }
    }

    /// One of the four bytes is the first that is out of range, the last, or anything.
    fn one_field_off(&self, random: &Random) -> [u8; STEP_BYTES] {
        let mut step = self.kept(random);
        let field = random.below(STEP_BYTES);
        let first_bad = match (step[0], field) {
            (_, 0) => PICTURE + 1,
            (WRITE, 1) | (READ, 2) => KEYS as u8,
            (SEND | PICTURE, 1) => {
                let beyond = URLS as u8 + self.setting.any_url(random);
                random.pick(&[self.setting.no_url(random), beyond])
            }
            (SEND | PICTURE, 2) => CONNECTIONS as u8,
            (SEND, 3) => SCRIPTS as u8,
            _ => REGISTERS,
        };
        step[field] = random.pick(&[first_bad, first_bad, 255, random.byte()]);
        step
    }

    /// A request that the home's labels allow, if one is found in a few draws.
    fn request(&self, op: u8, random: &Random) -> [u8; STEP_BYTES] {
        let mut url = 0;
        let mut connection = 0;
        for _ in 0..8 {
            connection = self.setting.useful_connection(random);
            url = self.setting.loadable_url(connection, random);
            if self.sends(upgraded(&self.setting.policy, url), connection) {
                break;
            }
        }
        let handler = random.byte_below(SCRIPTS as u8);
        let last = match op {
            SEND => handler,
            _ => random.pick(&[handler, 255, random.byte()]),
        };
        [op, url, connection, last]
    }

    /// Whether the home's labels allow a request to just this row.
    fn sends(&self, url: u8, connection: u8) -> bool {
        let policy = &self.setting.policy;
        self.own()
            .sends(Url::of(policy, url), Connection::of(policy, connection))
    }

    /// Whether they allow a request to this row if it is an entry, and only then.
    fn sends_if_entry(&self, url: u8, connection: u8) -> bool {
        let policy = &self.setting.policy;
        let (own, url) = (self.own(), Url::of(policy, url));
        own.may_send(url, Connection::of(policy, connection)) && !within(own.writers, url.writers)
    }

    /// The labels of the home's connection.
    fn own(&self) -> Connection {
        Connection::of(&self.setting.policy, self.home.connection)
    }

    /// A request that was allowed, to another URL or on another connection: often a single condition fails.
    fn other_request(&self, op: u8, random: &Random) -> [u8; STEP_BYTES] {
        let mut step = self.request(op, random);
        if random.one_in(2) {
            step[1] = self.setting.any_url(random);
        } else {
            step[2] = random.byte_below(CONNECTIONS as u8);
        }
        step
    }

    /// A request that the home's labels would allow if the URL were not replaced by its partner, if one is found in a few draws.
    fn swayed(&self, random: &Random) -> [u8; STEP_BYTES] {
        let draw = |connection| {
            let any = self.setting.upgraded_url(random)?;
            let swayed = self.setting.swayed_url(connection, random).unwrap_or(any);
            Some(random.pick(&[any, swayed]))
        };
        self.found(random, draw, |url, partner, connection| {
            self.sends(url, connection) && !self.sends(partner, connection)
        })
    }

    /// A request that is allowed if it goes to an entry, and only then, if one is found in a few draws.
    fn linked(&self, random: &Random) -> [u8; STEP_BYTES] {
        let draw = |connection| {
            let any = self.setting.loadable_url(connection, random);
            let half = self.setting.half_entry(random).unwrap_or(any);
            Some(random.pick(&[any, half]))
        };
        self.found(random, draw, |_, asked, connection| {
            self.sends_if_entry(asked, connection)
        })
    }

    /// A request to an entry that a single condition forbids, if one is found in a few draws.
    fn just_missed(&self, random: &Random) -> [u8; STEP_BYTES] {
        let policy = &self.setting.policy;
        // What seldom fails alone is looked for more often.
        let condition = random.pick(&[0, 1, 2, 2, 2, 3, 3, 3, 4]);
        let misses = |asked, connection| {
            let (url, other) = (Url::of(policy, asked), Connection::of(policy, connection));
            url.is_entry() && self.own().misses(condition, url, other)
        };
        let draw = |connection| {
            let missed = mask_of(URLS, |url| misses(upgraded(policy, url), connection));
            let any = self.setting.entry(random);
            random.bit_of(missed).or(any)
        };
        self.found(random, draw, |_, asked, connection| {
            misses(asked, connection)
        })
    }

    /// A request to a URL that is drawn for a connection, where the URL, what is asked for in its place and the connection are wanted; else one
    /// that is allowed.
    fn found(
        &self,
        random: &Random,
        draw: impl Fn(u8) -> Option<u8>,
        wanted: impl Fn(u8, u8, u8) -> bool,
    ) -> [u8; STEP_BYTES] {
        let mut step = self.request(random.pick(&[SEND, PICTURE]), random);
        for _ in 0..16 {
            let connection = self.setting.useful_connection(random);
            let Some(url) = draw(connection) else {
                break;
            };
            if wanted(url, upgraded(&self.setting.policy, url), connection) {
                step[1] = url;
                step[2] = connection;
                break;
            }
        }
        step
    }

    /// A key of the page's host that the home may read or write.
    fn key(&self, random: &Random, allowed: impl Fn(Connection, Cookie) -> bool) -> Option<u8> {
        let policy = &self.setting.policy;
        let host = Url::of(policy, self.home.url).host();
        let keys = (0..KEYS as u8)
            .filter(|&key| allowed(self.own(), Cookie::of(policy, host, key)))
            .fold(0, |mask, key| mask | 1 << key);
        random.bit_of(keys)
    }
}
