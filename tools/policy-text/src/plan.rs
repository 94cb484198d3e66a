//! What a text says, by number: every name is resolved.

use zolherima::{
    Endpoint, Endpoints, CONNECTIONS, HOSTS, KEYS, REGISTERS, SCRIPTS, STEP_BYTES, URLS,
};

use crate::span::{Clause, Span};

/// What was declared under a name.
#[derive(Clone, Debug, PartialEq, Eq)]
pub struct Named<T> {
    /// The name.
    pub name: String,
    /// Where the name stands in its declaration.
    pub span: Span,
    /// What it names.
    pub it: T,
}

/// A host.
#[derive(Clone, Copy, Debug, PartialEq, Eq)]
pub struct Host {
    /// Whether no request goes there by http.
    pub always_https: bool,
}

/// A cookie's label.
#[derive(Clone, Copy, Debug, PartialEq, Eq)]
pub struct Cookie {
    /// Who may learn of it.
    pub readers: Clause<Endpoints>,
    /// Who may have shaped it.
    pub writers: Clause<Endpoints>,
}

/// A URL.
#[derive(Clone, Copy, Debug, PartialEq, Eq)]
pub struct Url {
    /// Where it is.
    pub address: Endpoint,
    /// Whether anyone may lead there.
    pub is_entry: bool,
    /// Who may learn of it.
    pub readers: Clause<Endpoints>,
    /// Who may have shaped it.
    pub writers: Clause<Endpoints>,
    /// The URL by https that is asked for in its place.
    pub partner: Option<Clause<u32>>,
}

/// A connection's label.
#[derive(Clone, Copy, Debug, PartialEq, Eq)]
pub struct Connection {
    /// Who may learn of it.
    pub readers: Clause<Endpoints>,
    /// Who may learn what its scripts do; where the clause is left out, the readers and their clause.
    pub script_readers: Clause<Endpoints>,
    /// Who may have shaped it.
    pub writers: Clause<Endpoints>,
}

/// A script.
#[derive(Clone, Debug, PartialEq, Eq)]
pub struct Script {
    /// The URL of the page on which it is meant to run.
    pub page: Option<Clause<u32>>,
    /// The names of its registers.
    pub registers: [String; REGISTERS],
    /// Its steps: op, a, b, c.
    pub steps: Vec<Clause<[u8; STEP_BYTES]>>,
}

/// A record of the session.
#[derive(Clone, Debug, PartialEq, Eq)]
pub struct RecordLine {
    /// What is fed.
    pub bytes: Vec<u8>,
}

/// What a text says. Everything is at its number; none where nothing is declared.
#[derive(Clone, Debug, PartialEq, Eq)]
pub struct Plan {
    /// Hosts, 16.
    pub hosts: Vec<Option<Named<Host>>>,
    /// For each host its cookies by their keys, 16 times 8.
    pub cookies: Vec<Vec<Option<Named<Cookie>>>>,
    /// URLs, 64.
    pub urls: Vec<Option<Named<Url>>>,
    /// Connections, 32.
    pub connections: Vec<Option<Named<Connection>>>,
    /// Scripts, 16.
    pub scripts: Vec<Option<Named<Script>>>,
    /// The records of the session, each with its line.
    pub session: Vec<Clause<RecordLine>>,
}

impl Plan {
    pub(crate) fn new() -> Plan {
        Plan {
            hosts: vec![None; HOSTS],
            cookies: vec![vec![None; KEYS]; HOSTS],
            urls: vec![None; URLS],
            connections: vec![None; CONNECTIONS],
            scripts: vec![None; SCRIPTS],
            session: Vec::new(),
        }
    }
}
