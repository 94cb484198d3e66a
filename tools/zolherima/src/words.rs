//! What keeps something from being allowed, in words: which endpoint is missing where, why it is asked for, and what could be changed.

use explain::{Because, Lack, Owner, Set};
use policy_text::{Names, Plan};
use zolherima::{Endpoints, Policy, URLS};

use crate::place::{at, Places};

/// A policy with the names and the lines of its text.
pub struct Words<'a> {
    pub policy: &'a Policy,
    pub plan: &'a Plan,
    pub names: Names<'a>,
    pub places: Places<'a>,
}

impl<'a> Words<'a> {
    pub fn new(policy: &'a Policy, plan: &'a Plan, text: &'a [u8]) -> Words<'a> {
        Words {
            policy,
            plan,
            names: Names::of(plan),
            places: Places::new(plan, text),
        }
    }

    /// `http bank is missing among the readers of connection shop`.
    pub fn lack(&self, lack: &Lack) -> String {
        let missing = self.names.set(lack.missing);
        let is = is(&missing);
        format!(
            "{missing} {is} missing among the {} of {}",
            set(lack.set),
            self.owner(lack.lacking)
        )
    }

    pub fn owner(&self, owner: Owner) -> String {
        match owner {
            Owner::Url(url) => format!("url {}", self.names.url(url)),
            Owner::Connection(connection) => {
                let name = self.names.connection(connection);
                match at(&self.plan.connections, connection) {
                    Some(_) => format!("connection {name}"),
                    None => name,
                }
            }
            Owner::Cookie { host, key } => format!("cookie {}", self.names.cookie(host, key)),
        }
    }

    /// Why it is asked for, in the terms of who learns and who shapes.
    pub fn reason(&self, lack: &Lack) -> String {
        match lack.because {
            Because::Event { url } => format!(
                "whoever watches {} on the wire sees that a request goes to {}, and so learns of what made it",
                self.host_of(url),
                self.names.url(url)
            ),
            Because::Message { url } if lack.set == Set::Writers => format!(
                "{} is where {} is asked for, and shapes what comes back",
                self.names.set(lack.missing),
                self.names.url(url)
            ),
            Because::Message { url } => format!(
                "{} is where a request to {} goes, and would learn of it",
                self.names.set(lack.missing),
                self.names.url(url)
            ),
            Because::Has { set: has, owner } => self.reason_of_sets(lack, has, owner),
        }
    }

    fn reason_of_sets(&self, lack: &Lack, has: Set, owner: Owner) -> String {
        let [has, lacking] = [
            format!("the {} of {}", set(has), self.owner(owner)),
            self.owner(lack.lacking),
        ];
        match (lack.set, owner) {
            (Set::Writers, Owner::Cookie { .. }) => {
                format!("{has} may have shaped it, and so would shape what a script on {lacking} does")
            }
            (Set::Writers, _) => {
                format!("{has} would shape {lacking}, and are not all among its writers")
            }
            (Set::Readers, _) => {
                format!("{has} would learn of {lacking}, and are not all among its readers")
            }
            (Set::ScriptReaders, _) => format!(
                "{has} would learn what a script on {lacking} does, and are not all among its script readers"
            ),
        }
    }

    fn host_of(&self, url: u32) -> String {
        self.names.host(self.host_of_url(url))
    }

    /// The number of a URL's host; all that is asked about is there.
    pub fn host_of_url(&self, url: u32) -> u32 {
        self.policy.url(url).map_or(0, |url| url.address.host())
    }

    /// The URLs that a connection can hold: those that it fits. One that has a partner is never asked for.
    pub fn urls_on(&self, connection: u32) -> impl Iterator<Item = u32> + '_ {
        let labels = self.policy.connection(connection).unwrap_or_default();
        let is_fit = move |url: &u32| self.policy.url(*url).is_some_and(|url| labels.fits(&url));
        let is_asked = |url: &u32| self.policy.partner(*url).is_none();
        (0..URLS as u32).filter(is_asked).filter(is_fit)
    }

    /// What could be changed in the text, so that the condition holds: what takes something away first, and of what gives more, to whom.
    pub fn mends(&self, lack: &Lack) -> Vec<String> {
        let taken = match lack.because {
            Because::Has { set: has, owner } => self.taken(lack.missing, has, owner),
            Because::Event { .. } | Because::Message { .. } => None,
        };
        let entry = match (lack.set, lack.lacking) {
            (Set::Writers, Owner::Url(url)) => Some(format!(
                "make {} an entry, to which anyone may lead",
                self.names.url(url)
            )),
            _ => None,
        };
        let added = Some(self.added(lack));
        let each = [taken, added, entry].into_iter().flatten();
        let first = |nth| if nth == 0 { "to allow it," } else { "or" };
        (0..)
            .zip(each)
            .map(|(nth, it)| format!("{} {it}", first(nth)))
            .collect()
    }

    /// The other set, made smaller, where nothing needs what is taken, or another connection in its place. Script readers that have no clause can be
    /// given one, and the readers stay.
    fn taken(&self, missing: Endpoints, of: Set, owner: Owner) -> Option<String> {
        let without = self.quoted(missing);
        let take = || format!("take {without} from {}", self.place(of, owner));
        match owner {
            Owner::Connection(connection) => {
                let needed = self.needed(connection, of);
                let has_own = self.places.has_script_readers(connection);
                Some(if missing.except(needed) != missing {
                    format!("use a connection without {without} among its {}", set(of))
                } else if of == Set::ScriptReaders && !has_own {
                    let (owner, line) = (self.owner(owner), self.line(of, owner));
                    format!("give {owner}{line} `script readers` without {without}")
                } else {
                    format!("{}{}", take(), self.taken_too(missing, of, connection))
                })
            }
            // A cookie stays one of its own host.
            Owner::Cookie { host, .. } => {
                let own = missing.iter().any(|endpoint| endpoint.host() == host);
                (!own).then(take)
            }
            Owner::Url(_) => Some(take()),
        }
    }

    /// Script readers stay within the readers, so what is taken from these is taken from them too.
    fn taken_too(&self, missing: Endpoints, of: Set, connection: u32) -> String {
        let labels = self.policy.connection(connection).unwrap_or_default();
        let stays = missing.except(labels.script_readers) == missing;
        if of != Set::Readers || stays || !self.places.has_script_readers(connection) {
            return String::new();
        }
        let line = self.line(Set::ScriptReaders, Owner::Connection(connection));
        format!(" and from its script readers{line}")
    }

    fn quoted(&self, endpoints: Endpoints) -> String {
        format!("`{}`", self.names.set(endpoints))
    }

    /// The set that is to grow, those that must grow with it, and what that means for a URL or a cookie.
    fn added(&self, lack: &Lack) -> String {
        let (missing, place) = (
            self.quoted(lack.missing),
            self.place(lack.set, lack.lacking),
        );
        let price = match (lack.lacking, lack.set) {
            (Owner::Connection(_), _) => "",
            (_, Set::Writers) => ", who may then shape it",
            (_, Set::Readers | Set::ScriptReaders) => ", who may then learn of it",
        };
        let with = [self.added_with(lack), self.added_to_lead(lack)].concat();
        format!("add {missing} to {place}{with}{price}")
    }

    /// A connection that has a URL's address among its writers leads there only where the URL has it among its own.
    fn added_to_lead(&self, lack: &Lack) -> String {
        let (Set::Writers, Because::Message { url }) = (lack.set, lack.because) else {
            return String::new();
        };
        let leads = |it: zolherima::Url| it.is_entry || lack.missing.is_within(it.writers);
        match self.policy.url(url).map_or(true, leads) {
            true => String::new(),
            false => format!(
                " and, so that what is there may also lead to it, to {}",
                self.place(Set::Writers, Owner::Url(url))
            ),
        }
    }

    /// What a connection's readers must stay within, and its script readers too.
    fn added_with(&self, lack: &Lack) -> String {
        let (Set::Readers | Set::ScriptReaders, Owner::Connection(connection)) =
            (lack.set, lack.lacking)
        else {
            return String::new();
        };
        let mut with = Vec::new();
        let readers = self
            .policy
            .connection(connection)
            .unwrap_or_default()
            .readers;
        if lack.set == Set::ScriptReaders
            && self.places.has_script_readers(connection)
            && !lack.missing.is_within(readers)
        {
            with.push(self.place(Set::Readers, lack.lacking));
        }
        let outgrown = self.outgrown(connection, lack.missing);
        with.extend(outgrown.map(|url| self.place(Set::Readers, Owner::Url(url))));
        match with.is_empty() {
            true => String::new(),
            false => format!(" and, so that it still fits, to {}", listed(&with)),
        }
    }

    /// The URLs that a connection fits, and would not with these readers more. One that has a partner is never asked for.
    fn outgrown(&self, connection: u32, more: Endpoints) -> impl Iterator<Item = u32> + '_ {
        let readers = |url: u32| self.policy.url(url).map(|url| url.readers);
        self.urls_on(connection)
            .filter(move |&url| readers(url).is_some_and(|readers| !more.is_within(readers)))
    }

    fn line(&self, of: Set, owner: Owner) -> String {
        let line = self.places.line(of, owner);
        line.map_or_else(
            || ", which is not declared".to_string(),
            |line| format!(" (line {line})"),
        )
    }

    /// A set, with the line where it stands.
    fn place(&self, of: Set, owner: Owner) -> String {
        let line = self.line(of, owner);
        let name = match (of, owner) {
            // They stand for both where they have no clause of their own.
            (Set::ScriptReaders, Owner::Connection(connection))
                if !self.places.has_script_readers(connection) =>
            {
                set(Set::Readers)
            }
            _ => set(of),
        };
        format!("the {name} of {}{line}", self.owner(owner))
    }
}

/// The verb for a set in words: a host with both of its endpoints is one thing.
pub fn is(set: &str) -> &'static str {
    match set.contains(", ") || set.starts_with("everyone") {
        true => "are",
        false => "is",
    }
}

fn set(set: Set) -> &'static str {
    match set {
        Set::Readers => "readers",
        Set::ScriptReaders => "script readers",
        Set::Writers => "writers",
    }
}

/// `a`, `a and b`, `a, b and c`; of many the first.
fn listed(items: &[String]) -> String {
    const MOST: usize = 4;
    match items {
        [] => String::new(),
        [one] => one.clone(),
        [first @ .., last] if items.len() <= MOST => format!("{} and {last}", first.join(", ")),
        _ => format!(
            "{} and {} more",
            items[..MOST].join(", "),
            items.len() - MOST
        ),
    }
}

/// Each condition without the endpoints of the same set that one before has told already; none that has no others.
pub fn own(lacks: &[Lack]) -> Vec<Lack> {
    let mut told: Vec<Lack> = Vec::new();
    for lack in lacks {
        let before = told
            .iter()
            .filter(|it| (it.set, it.lacking) == (lack.set, lack.lacking));
        let before = before.fold(Endpoints::NOBODY, |all, it| all.and(it.missing));
        let missing = lack.missing.except(before);
        if !missing.is_empty() {
            told.push(Lack { missing, ..*lack });
        }
    }
    told
}
