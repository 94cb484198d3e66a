//! The declaration that is being read, with the clauses that were met.

use zolherima::{Endpoint, Endpoints, Scheme, REGISTERS, STEP_BYTES};

use super::declarations::Header;
use crate::diagnostic::Diagnostic;
use crate::kind::Kind;
use crate::plan::{Connection, Cookie, Host, Named, Plan, Script, Url};
use crate::span::{Clause, Span};
use crate::words::quoted;

/// What the lines that are being read belong to.
#[derive(Clone, Copy, Debug, PartialEq, Eq)]
pub(crate) enum Section {
    /// No declaration was met yet.
    None,
    /// A line that could not be read, so that it is not known what follows it.
    Unclear,
    Declaration(Kind),
    Session,
}

/// Whose cookies the steps of a script name.
#[derive(Clone, Copy, Debug)]
pub(crate) enum Page<'t> {
    /// The script does not say it.
    Unsaid,
    /// It says it, and there is an error in it.
    Unclear,
    /// Those of the host of this name.
    Of(&'t str),
}

pub(crate) struct Draft<'t> {
    pub section: Section,
    pub name: &'t str,
    /// Where the name is declared, or the word `session` stands.
    pub span: Span,
    /// Its number; none where the first line has an error. 0 for the session.
    pub number: Option<u32>,
    /// A line of it could not be read: what is missing may be there.
    pub has_error: bool,
    /// What lines that do not belong to it belong to, as was told.
    pub stray: Option<&'static str>,
    pub host: u32,
    pub scheme: Scheme,
    pub is_entry: bool,
    pub always_https: bool,
    pub readers: Option<Clause<Endpoints>>,
    pub script_readers: Option<Clause<Endpoints>>,
    pub writers: Option<Clause<Endpoints>>,
    pub partner: Option<Clause<u32>>,
    pub page: Option<Clause<u32>>,
    pub cookies_of: Page<'t>,
    pub registers: Option<Span>,
    pub register_names: [&'t str; REGISTERS],
    pub steps: Vec<Clause<[u8; STEP_BYTES]>>,
}

/// The names of registers that are given none.
pub(crate) const REGISTER_NAMES: [&str; REGISTERS] = ["r0", "r1", "r2", "r3"];

impl<'t> Draft<'t> {
    pub fn new(section: Section, span: Span) -> Draft<'t> {
        Draft {
            section,
            name: "",
            span,
            number: None,
            has_error: false,
            stray: None,
            host: 0,
            scheme: Scheme::Http,
            is_entry: false,
            always_https: false,
            readers: None,
            script_readers: None,
            writers: None,
            partner: None,
            page: None,
            cookies_of: Page::Unsaid,
            registers: None,
            register_names: REGISTER_NAMES,
            steps: Vec::new(),
        }
    }

    pub fn of(header: &Header<'t>, number: Option<u32>) -> Draft<'t> {
        let mut draft = Draft::new(Section::Declaration(header.kind), header.span());
        draft.name = header.name.map_or("", |name| name.name);
        draft.number = number;
        draft.has_error = !header.is_whole;
        draft.scheme = header.scheme;
        draft.is_entry = header.is_entry;
        draft.always_https = header.always_https;
        draft
    }

    /// Whether it is not known what the lines below belong to, since the first line has an error.
    pub fn is_unclear(&self) -> bool {
        match self.section {
            Section::None | Section::Session => false,
            Section::Unclear => true,
            Section::Declaration(_) => self.number.is_none() && self.has_error,
        }
    }

    /// The clauses that it needs and does not have.
    pub fn missing(&self) -> Vec<&'static str> {
        let needs_labels = matches!(
            self.section,
            Section::Declaration(Kind::Cookie | Kind::Url | Kind::Connection)
        );
        if !needs_labels || self.has_error {
            return Vec::new();
        }
        let clauses = [("readers", &self.readers), ("writers", &self.writers)];
        let missing = clauses.into_iter().filter(|(_, clause)| clause.is_none());
        missing.map(|(word, _)| word).collect()
    }

    /// As messages name it.
    pub fn described(&self) -> String {
        match self.section {
            Section::None | Section::Unclear => "nothing".to_string(),
            Section::Session => "the session".to_string(),
            Section::Declaration(kind) => format!("{kind} {}", quoted(self.name)),
        }
    }

    /// Puts it into the plan at its number. What is missing was told, and a plan with errors is not used.
    pub fn enter(self, plan: &mut Plan) {
        let (Section::Declaration(kind), Some(number)) = (self.section, self.number) else {
            return;
        };
        let (number, host) = (number as usize, self.host as usize);
        match kind {
            Kind::Host => plan.hosts[number] = Some(self.host()),
            Kind::Cookie => plan.cookies[host][number] = Some(self.cookie()),
            Kind::Url => plan.urls[number] = self.url(),
            Kind::Connection => plan.connections[number] = Some(self.connection()),
            Kind::Script => plan.scripts[number] = Some(self.script()),
        }
    }

    fn named<T>(&self, it: T) -> Named<T> {
        Named {
            name: self.name.to_string(),
            span: self.span,
            it,
        }
    }

    fn or_nobody(&self, clause: Option<Clause<Endpoints>>) -> Clause<Endpoints> {
        clause.unwrap_or(Clause {
            it: Endpoints::NOBODY,
            span: self.span,
        })
    }

    fn host(&self) -> Named<Host> {
        self.named(Host {
            always_https: self.always_https,
        })
    }

    fn cookie(&self) -> Named<Cookie> {
        self.named(Cookie {
            readers: self.or_nobody(self.readers),
            writers: self.or_nobody(self.writers),
        })
    }

    fn url(&self) -> Option<Named<Url>> {
        let address = match self.scheme {
            Scheme::Http => Endpoint::http(self.host),
            Scheme::Https => Endpoint::https(self.host),
        }?;
        Some(self.named(Url {
            address,
            is_entry: self.is_entry,
            readers: self.or_nobody(self.readers),
            writers: self.or_nobody(self.writers),
            partner: self.partner,
        }))
    }

    fn connection(&self) -> Named<Connection> {
        let readers = self.or_nobody(self.readers);
        self.named(Connection {
            readers,
            script_readers: self.script_readers.unwrap_or(readers),
            writers: self.or_nobody(self.writers),
        })
    }

    fn script(self) -> Named<Script> {
        Named {
            name: self.name.to_string(),
            span: self.span,
            it: Script {
                page: self.page,
                registers: self.register_names.map(str::to_string),
                steps: self.steps,
            },
        }
    }
}

/// What is told of clauses that are missing.
pub(crate) fn told_missing(what: &str, span: Span, missing: &[&str]) -> Diagnostic {
    let words: Vec<_> = missing.iter().map(|word| format!("no `{word}`")).collect();
    let message = format!("{what} has {}", words.join(" and "));
    let notes = missing.iter().map(|word| match *word {
        "readers" => {
            "readers are those who may learn of it, `nobody` where there are none; a URL has http of its host among them"
        }
        _ => "writers are those who may have shaped it, or what leads there; `nobody` where there are none",
    });
    let label = match missing {
        [word] => format!("below it goes `{word}`"),
        _ => "below it go `readers` and `writers`".to_string(),
    };
    Diagnostic::error(message, span, label).notes(notes.map(str::to_string))
}
