//! A policy and a script table, with what the generator has worked out of the policy: which URLs there are, and for each connection the
//! URLs that it fits, those that can be loaded on it and those that it may be redirected to.

use crate::labels::{partner, rows, upgraded, Connection, Url, CONNECTIONS, SCRIPTS, URLS};
use crate::policy;
use crate::random::Random;
use crate::scripts;

/// The page and the connection that a script is made for.
#[derive(Clone, Copy)]
pub struct Home {
    pub url: u8,
    pub connection: u8,
}

pub struct Setting {
    pub policy: Vec<u32>,
    pub scripts: Vec<u8>,
    urls: u64,
    entries: u64,
    /// The http rows that have a partner, and those of them that are an entry where the partner is none, or the other way round.
    upgraded: u64,
    half_entries: u64,
    /// By their own labels, whether they have a partner or not.
    fits: [u64; CONNECTIONS],
    fit_targets: [u64; CONNECTIONS],
    /// By the labels of the URL that the request goes to.
    loads: [u64; CONNECTIONS],
    targets: [u64; CONNECTIONS],
    /// The connections that fit some URL.
    useful: u64,
    homes: [Home; SCRIPTS],
}

impl Setting {
    pub fn random(random: &Random) -> Setting {
        let policy = policy::random_policy(random);
        Setting::over(policy, random)
    }

    /// With a policy that is well formed, and scripts for it.
    pub fn over(policy: Vec<u32>, random: &Random) -> Setting {
        let nowhere = Home {
            url: 0,
            connection: 0,
        };
        let mut setting = Setting {
            urls: rows(&policy, Url::exists),
            entries: rows(&policy, Url::is_entry),
            upgraded: mask_of(URLS, |url| partner(&policy, url).is_some()),
            half_entries: mask_of(URLS, |url| {
                let asked = upgraded(&policy, url);
                Url::of(&policy, url).is_entry() != Url::of(&policy, asked).is_entry()
            }),
            fits: [0; CONNECTIONS],
            fit_targets: [0; CONNECTIONS],
            loads: [0; CONNECTIONS],
            targets: [0; CONNECTIONS],
            useful: 0,
            homes: [nowhere; SCRIPTS],
            policy,
            scripts: Vec::new(),
        };
        setting.index();
        for script in 0..SCRIPTS {
            let connection = setting.useful_connection(random);
            setting.homes[script] = Home {
                url: setting.page(connection, random),
                connection,
            };
        }
        setting.scripts = scripts::random_table(&setting, random);
        setting
    }

    fn index(&mut self) {
        let policy = &self.policy;
        for n in 0..CONNECTIONS {
            let connection = Connection::of(policy, n as u8);
            let fits = |url| connection.fits(Url::of(policy, url));
            let redirects_to = |url| connection.redirects_to(Url::of(policy, url));
            self.fits[n] = mask_of(URLS, fits);
            self.fit_targets[n] = mask_of(URLS, redirects_to);
            self.loads[n] = mask_of(URLS, |url| fits(upgraded(policy, url)));
            self.targets[n] = mask_of(URLS, |url| redirects_to(upgraded(policy, url)));
        }
        self.useful = mask_of(CONNECTIONS, |n| self.fits[usize::from(n)] != 0);
    }

    pub fn home(&self, script: u8) -> Home {
        self.homes[usize::from(script)]
    }

    /// A script whose home this is, or else any.
    pub fn script_at(&self, url: u8, connection: u8, random: &Random) -> u8 {
        let at_home = mask_of(SCRIPTS, |script| {
            let home = self.home(script);
            home.url == url && home.connection == connection
        });
        let any = random.byte_below(SCRIPTS as u8);
        random.bit_of(at_home).unwrap_or(any)
    }

    /// A URL of the policy, or 0 where it has none.
    pub fn any_url(&self, random: &Random) -> u8 {
        random.bit_of(self.urls).unwrap_or(0)
    }

    /// A number below 64 that names no URL, or 64 where all do.
    pub fn no_url(&self, random: &Random) -> u8 {
        random.bit_of(!self.urls).unwrap_or(URLS as u8)
    }

    /// A URL that the connection fits, or else any.
    pub fn fitting_url(&self, connection: u8, random: &Random) -> u8 {
        let any = self.any_url(random);
        random
            .bit_of(self.fits[usize::from(connection)])
            .unwrap_or(any)
    }

    /// A URL that can be loaded on the connection, or else any.
    pub fn loadable_url(&self, connection: u8, random: &Random) -> u8 {
        let any = self.any_url(random);
        random
            .bit_of(self.loads[usize::from(connection)])
            .unwrap_or(any)
    }

    /// A URL that the connection fits: mostly one that it holds after a load, since only a state that is lent has an http row with a partner.
    fn page(&self, connection: u8, random: &Random) -> u8 {
        match random.bit_of(self.loads[usize::from(connection)]) {
            Some(url) if !random.one_in(4) => upgraded(&self.policy, url),
            _ => self.fitting_url(connection, random),
        }
    }

    /// An http row that has a partner.
    pub fn upgraded_url(&self, random: &Random) -> Option<u8> {
        random.bit_of(self.upgraded)
    }

    pub fn has_entries(&self) -> bool {
        self.entries != 0
    }

    pub fn entry(&self, random: &Random) -> Option<u8> {
        random.bit_of(self.entries)
    }

    /// A row that has a partner, and just one of the two is an entry.
    pub fn half_entry(&self, random: &Random) -> Option<u8> {
        random.bit_of(self.half_entries)
    }

    /// An http row whose partner this is.
    pub fn http_of(&self, url: u8, random: &Random) -> Option<u8> {
        random.bit_of(mask_of(URLS, |row| partner(&self.policy, row) == Some(url)))
    }

    /// A row that the connection fits and whose partner it does not fit, or the other way round.
    pub fn swayed_url(&self, connection: u8, random: &Random) -> Option<u8> {
        let n = usize::from(connection);
        random.bit_of(self.fits[n] ^ self.loads[n])
    }

    /// The same for a redirect.
    pub fn swayed_target(&self, connection: u8, random: &Random) -> Option<u8> {
        let n = usize::from(connection);
        random.bit_of(self.fit_targets[n] ^ self.targets[n])
    }

    /// A URL that cannot be loaded on the connection.
    pub fn forbidden_url(&self, connection: u8, random: &Random) -> Option<u8> {
        self.outside(self.loads[usize::from(connection)], random)
    }

    /// A URL that the connection may not be redirected to.
    pub fn forbidden_target(&self, connection: u8, random: &Random) -> Option<u8> {
        self.outside(self.targets[usize::from(connection)], random)
    }

    /// A URL that is none of these: one that has a partner, if there is one.
    fn outside(&self, rows: u64, random: &Random) -> Option<u8> {
        let others = self.urls & !rows;
        let upgraded = random.bit_of(others & self.upgraded);
        upgraded.or_else(|| random.bit_of(others))
    }

    pub fn fits_none(&self, connection: u8) -> bool {
        self.fits[usize::from(connection)] == 0
    }

    /// A URL that the policy has and the connection does not fit.
    pub fn misfit(&self, connection: u8, random: &Random) -> Option<u8> {
        random.bit_of(self.urls & !self.fits[usize::from(connection)])
    }

    /// A URL that the connection may be redirected to, or else any.
    pub fn target(&self, connection: u8, random: &Random) -> u8 {
        let any = self.any_url(random);
        random
            .bit_of(self.targets[usize::from(connection)])
            .unwrap_or(any)
    }

    /// A connection that fits some URL, or else any.
    pub fn useful_connection(&self, random: &Random) -> u8 {
        let any = random.byte_below(CONNECTIONS as u8);
        random.bit_of(self.useful).unwrap_or(any)
    }
}

/// The numbers below a count of which this holds, as a mask.
pub fn mask_of(count: usize, holds: impl Fn(u8) -> bool) -> u64 {
    (0..count as u8)
        .filter(|&n| holds(n))
        .fold(0, |mask, n| mask | 1 << n)
}
