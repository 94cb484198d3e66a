//! Journeys, and policies for them. Under a policy made at random connection 0 carries a journey, or more often none does; so the connection that is
//! to be told is chosen here, and those below are kept from carrying the journey, each by one condition at one place, which often is the last.

use reference::JOURNEY_URLS;

use crate::damage::refuse_policy;
use crate::labels::{
    partner, rows, upgraded, within, Connection, Url, CONNECTIONS, CONNECTIONS_AT, URLS,
};
use crate::policy::random_policy;
use crate::random::Random;
use crate::setting::mask_of;

/// What is given to be found.
#[derive(Clone, Debug, PartialEq, Eq)]
pub struct Given {
    pub policy: Vec<u32>,
    pub urls: Vec<u8>,
}

/// Which connection is told.
#[derive(Clone, Copy, Debug, PartialEq, Eq)]
pub enum Lowest {
    First,
    /// 1 to 30.
    Between,
    Last,
    None,
}

/// Which URLs a journey has if it can.
#[derive(Clone, Copy, Debug, PartialEq, Eq)]
pub enum Taste {
    Any,
    /// Such as have a partner, or are one.
    Upgraded,
    /// Entries that lack a writer of the connection.
    Excused,
}

impl Lowest {
    /// Where the connection stands that carries the journey, or is kept from it.
    fn place(self, random: &Random) -> u8 {
        let last = CONNECTIONS - 1;
        let place = match self {
            Lowest::First => 0,
            Lowest::Between => random.within(1..=last - 1),
            Lowest::Last => last,
            Lowest::None => random.below(CONNECTIONS),
        };
        place as u8
    }
}

const LOWEST: [(usize, Lowest); 4] = [
    (1, Lowest::First),
    (2, Lowest::Between),
    (1, Lowest::Last),
    (2, Lowest::None),
];

const TASTES: [(usize, Taste); 3] = [(2, Taste::Any), (1, Taste::Upgraded), (1, Taste::Excused)];

/// A length that is allowed: mostly short.
pub fn length(random: &Random) -> usize {
    random.pick(&[1, 2, 3, random.within(2..=6), random.within(1..=16), 16])
}

impl Given {
    /// Of any sort that is not refused.
    pub fn good(random: &Random) -> Given {
        let lowest = random.weighted(&LOWEST);
        let taste = random.weighted(&TASTES);
        Given::of(lowest, taste, length(random), random)
    }

    /// Of any sort, mostly such as are not refused.
    pub fn any(random: &Random) -> Given {
        match random.below(12) {
            0 => Given::of_bad_policy(random),
            1 => Given::of_rows(random),
            2 => {
                let Given { policy, .. } = Given::good(random);
                let urls = no_journey(&policy, random);
                Given { policy, urls }
            }
            3 => {
                let mut given = Given::good(random);
                given.miss(random.below(given.urls.len()), random);
                given
            }
            4 | 5 => {
                let mut given = Given::good(random);
                given.change(random.below(given.urls.len()), random);
                given
            }
            _ => Given::good(random),
        }
    }

    /// A journey that a connection carries, or would carry if it were not kept from it. One that is too long has its first URLs carried.
    pub fn of(lowest: Lowest, taste: Taste, length: usize, random: &Random) -> Given {
        let (mut policy, useful) = useful_policy(taste, random);
        let carrier = random.bit_of(useful).expect("a connection is useful");
        let urls = Reach::of(&policy, carrier, taste).journey(&policy, length, random);
        let place = lowest.place(random);
        swap(&mut policy, carrier, place);
        if length == 1 && random.one_in(8) {
            let Connection { writers, .. } = Connection::of(&policy, place);
            set(&mut policy, place, 0, writers);
        }
        spread(&mut policy, place, random);
        let end = match lowest {
            Lowest::None => CONNECTIONS as u8,
            _ => place,
        };
        let allowed = &urls[..urls.len().min(JOURNEY_URLS)];
        forbid_all(&mut policy, end, allowed, random);
        Given { policy, urls }
    }

    /// URLs of any policy, in any order.
    pub fn of_rows(random: &Random) -> Given {
        let policy = random_policy(random);
        let used = rows(&policy, Url::exists);
        let url = |_| random.bit_of(used).unwrap_or(0);
        Given {
            urls: (0..length(random)).map(url).collect(),
            policy,
        }
    }

    /// Under a policy that is damaged, or of another length; the journey may be no journey too.
    pub fn of_bad_policy(random: &Random) -> Given {
        let mut given = Given::good(random);
        match random.below(4) {
            0 => given.urls = no_journey(&given.policy, random),
            1 => given.miss(random.below(given.urls.len()), random),
            _ => (),
        }
        refuse_policy(&mut given.policy, random);
        given
    }

    /// Puts a number without a row at a place.
    pub fn miss(&mut self, place: usize, random: &Random) {
        self.urls[place] = no_url(&self.policy, random);
    }

    /// Puts another URL at a place: one that it is the partner of, its partner, or any.
    pub fn change(&mut self, place: usize, random: &Random) {
        let url = self.urls[place];
        let any = random.bit_of(rows(&self.policy, Url::exists));
        let other = match random.below(4) {
            0 => random.bit_of(mask_of(URLS, |it| partner(&self.policy, it) == Some(url))),
            1 => partner(&self.policy, url),
            _ => any,
        };
        self.urls[place] = other.or(any).unwrap_or(url);
    }
}

/// A policy, and the connections on which a URL to the taste can be loaded.
fn useful_policy(taste: Taste, random: &Random) -> (Vec<u32>, u64) {
    let with_useful = || {
        let policy = random_policy(random);
        let wanted = mask_of(URLS, |url| taste.wants(&policy, url));
        let loads = |connection, url| wanted >> url & 1 == 1 && takes(&policy, connection, 0, url);
        let is_useful = |connection| (0..URLS as u8).any(|url| loads(connection, url));
        let useful = mask_of(CONNECTIONS, is_useful);
        (policy, useful)
    };
    std::iter::repeat_with(with_useful)
        .find(|(_, useful)| *useful != 0)
        .expect("every third policy is useful")
}

impl Taste {
    fn wants(self, policy: &[u32], url: u8) -> bool {
        match self {
            Taste::Any => true,
            Taste::Upgraded => partner(policy, url).is_some(),
            Taste::Excused => asked(policy, url).is_entry(),
        }
    }
}

/// The URL that a request to this one goes to.
fn asked(policy: &[u32], url: u8) -> Url {
    Url::of(policy, upgraded(policy, url))
}

/// Whether a connection takes a URL that has a row at this place of a journey.
fn takes(policy: &[u32], connection: u8, place: usize, url: u8) -> bool {
    let connection = Connection::of(policy, connection);
    match place {
        0 => connection.fits(asked(policy, url)),
        _ => connection.redirects_to(asked(policy, url)),
    }
}

fn carries(policy: &[u32], connection: u8, urls: &[u8]) -> bool {
    let mut legs = urls.iter().enumerate();
    legs.all(|(place, &url)| takes(policy, connection, place, url))
}

/// The URLs that can be loaded on a connection, those that it may be redirected to, and those that a journey has if it can.
struct Reach {
    loads: u64,
    targets: u64,
    liked: u64,
}

impl Reach {
    fn of(policy: &[u32], connection: u8, taste: Taste) -> Reach {
        let Connection { writers, .. } = Connection::of(policy, connection);
        let is_excused = |url| !within(writers, asked(policy, url).writers);
        let likes = |url| taste.wants(policy, url) && (taste != Taste::Excused || is_excused(url));
        Reach {
            loads: mask_of(URLS, |url| takes(policy, connection, 0, url)),
            targets: mask_of(URLS, |url| takes(policy, connection, 1, url)),
            liked: mask_of(URLS, likes),
        }
    }

    /// It ends early where there is nowhere to go. The first URL is often one that the connection may not be redirected to.
    fn journey(&self, policy: &[u32], length: usize, random: &Random) -> Vec<u8> {
        let only_loads = random.bit_of(self.loads & !self.targets);
        let only_loads = only_loads.filter(|_| random.one_in(3));
        let first = only_loads.or(self.pick(self.loads, random));
        let mut urls = Vec::from_iter(first);
        while urls.len() < length {
            let again = random.pick(&[urls[0], urls[urls.len() - 1], random.pick(&urls)]);
            let again = random.pick(&[again, upgraded(policy, again)]);
            let may_go_again = self.targets >> again & 1 == 1;
            let again = Some(again).filter(|_| may_go_again && random.one_in(6));
            match again.or(self.pick(self.targets, random)) {
                Some(url) => urls.push(url),
                None => break,
            }
        }
        urls
    }

    /// One of these, mostly one that is liked.
    fn pick(&self, from: u64, random: &Random) -> Option<u8> {
        let liked = random.bit_of(from & self.liked);
        let liked = liked.filter(|_| !random.one_in(4));
        liked.or(random.bit_of(from))
    }
}

fn sets_at(connection: u8) -> usize {
    CONNECTIONS_AT + 3 * usize::from(connection)
}

/// Exchanges two connections.
fn swap(policy: &mut [u32], a: u8, b: u8) {
    for set in 0..3 {
        policy.swap(sets_at(a) + set, sets_at(b) + set);
    }
}

/// Gives a connection other readers and writers; its script readers stay within its readers.
fn set(policy: &mut [u32], connection: u8, readers: u32, writers: u32) {
    let at = sets_at(connection);
    policy[at] = readers;
    policy[at + 1] &= readers;
    policy[at + 2] = writers;
}

/// Makes some connections, or all, like one.
fn spread(policy: &mut [u32], from: u8, random: &Random) {
    let one_in = random.pick(&[1, 2, 2, 8]);
    let at = sets_at(from);
    for connection in 0..CONNECTIONS as u8 {
        if random.one_in(one_in) {
            policy.copy_within(at..at + 3, sets_at(connection));
        }
    }
}

/// Keeps the connections before this one from carrying the journey: each at a place of its own, or all at the same.
fn forbid_all(policy: &mut [u32], end: u8, urls: &[u8], random: &Random) {
    let shared = random.one_in(2).then(|| any_place(urls, random));
    for connection in 0..end {
        if carries(policy, connection, urls) {
            let place = shared.unwrap_or_else(|| any_place(urls, random));
            forbid(policy, connection, urls[place], place, random);
        }
    }
}

/// Every second time the last.
fn any_place(urls: &[u8], random: &Random) -> usize {
    random.pick(&[urls.len() - 1, random.below(urls.len())])
}

/// Changes one set of a connection so that it does not take the URL at this place of a journey.
fn forbid(policy: &mut [u32], connection: u8, url: u8, place: usize, random: &Random) {
    let url = asked(policy, url);
    let Connection {
        readers, writers, ..
    } = Connection::of(policy, connection);
    let mut ways = vec![(readers, writers & !url.message())];
    let outside = |set: u32| random.bit_of(u64::from(!set)).map(|it| 1 << it);
    ways.extend(outside(url.readers).map(|reader: u32| (readers | reader, writers)));
    if place > 0 {
        ways.push((readers & !url.event(), writers));
        let writer = outside(url.writers).filter(|_| !url.is_entry());
        ways.extend(writer.map(|writer: u32| (readers, writers | writer)));
    }
    let (readers, writers) = random.pick(&ways);
    set(policy, connection, readers, writers);
}

/// A number without a row: an empty one, or one above 63, of which the lowest bits may name a row.
pub fn no_url(policy: &[u32], random: &Random) -> u8 {
    let urls = URLS as u8;
    let empty = random.bit_of(rows(policy, |url| !url.exists()));
    let used = random.bit_of(rows(policy, Url::exists)).unwrap_or(0);
    let wraps = used + urls * random.within(1..=3) as u8;
    let above = random.pick(&[urls, u8::MAX, wraps, random.within(URLS..=255) as u8]);
    match random.one_in(2) {
        true => empty.unwrap_or(above),
        false => above,
    }
}

/// No journey: empty, too long, or with numbers that have no row among others.
pub fn no_journey(policy: &[u32], random: &Random) -> Vec<u8> {
    let used = rows(policy, Url::exists);
    let any = || match random.one_in(3) {
        true => no_url(policy, random),
        false => random.bit_of(used).unwrap_or(0),
    };
    let long = random.pick(&[JOURNEY_URLS + 1, random.within(JOURNEY_URLS + 1..=300)]);
    let length = random.pick(&[0, 1, long, random.within(1..=JOURNEY_URLS)]);
    std::iter::repeat_with(any).take(length).collect()
}

#[cfg(test)]
mod tests {
    use super::*;
    use reference::{journey_find, NO_CONNECTION};

    fn told(lowest: Lowest, taste: Taste, random: &Random) -> Option<u32> {
        let Given { policy, urls } = Given::of(lowest, taste, length(random), random);
        let found = journey_find(&policy, &urls);
        assert_eq!(found.number, 0, "{lowest:?}, {taste:?}: {urls:?}");
        (found.connection != NO_CONNECTION).then_some(found.connection)
    }

    #[test]
    fn the_connection_that_was_chosen_is_told() {
        let random = Random::new(1);
        for taste in TASTES.map(|(_, taste)| taste) {
            for _ in 0..200 {
                let of = |lowest| told(lowest, taste, &random);
                assert_eq!(of(Lowest::First), Some(0));
                assert_eq!(of(Lowest::Last), Some(31));
                assert_eq!(of(Lowest::None), None);
                let between = of(Lowest::Between).expect("a connection is told");
                assert!((1..31).contains(&between), "{between}");
            }
        }
    }

    #[test]
    fn a_long_journey_is_carried_as_far_as_it_may_go() {
        let random = Random::new(1);
        let long = |_| Given::of(Lowest::Last, Taste::Any, JOURNEY_URLS + 4, &random);
        let is_long = |it: &Given| it.urls.len() == JOURNEY_URLS + 4;
        let longs: Vec<Given> = (0..200).map(long).filter(is_long).collect();
        assert!(longs.len() > 50, "{}", longs.len());
        for Given { policy, urls } in longs {
            let found = journey_find(&policy, &urls[..JOURNEY_URLS]);
            assert_eq!((found.number, found.connection), (0, 31));
        }
    }

    #[test]
    fn what_is_no_journey_is_mostly_refused() {
        let random = Random::new(1);
        let refused = (0..1000).filter(|_| {
            let policy = Given::good(&random).policy;
            journey_find(&policy, &no_journey(&policy, &random)).number == reference::JOURNEY_BAD
        });
        assert!(refused.count() > 700);
    }

    #[test]
    fn a_number_without_a_row_has_none() {
        let random = Random::new(1);
        for _ in 0..1000 {
            let policy = Given::good(&random).policy;
            let found = journey_find(&policy, &[no_url(&policy, &random)]);
            assert_eq!(found.number, reference::JOURNEY_BAD);
        }
    }
}
