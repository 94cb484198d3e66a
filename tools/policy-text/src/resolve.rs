//! What names stand for. A text is read twice: first for what it declares, then for what it says, since a name may be used before it is declared.

use std::collections::{HashMap, HashSet};

use crate::diagnostic::Diagnostic;
use crate::errors::Errors;
use crate::kind::Kind;
use crate::nearest::nearest;
use crate::numbering::{Clash, Declared, Mention, Roll};
use crate::parse::Header;
use crate::span::Span;
use crate::words::{quoted, NAME_BYTES};

/// The names of a text.
#[derive(Default)]
pub(crate) struct Tables<'t> {
    hosts: Roll<'t>,
    urls: Roll<'t>,
    connections: Roll<'t>,
    scripts: Roll<'t>,
    /// By the name of their host.
    cookies: HashMap<&'t str, Roll<'t>>,
    hosts_of_urls: HashMap<&'t str, &'t str>,
}

impl<'t> Tables<'t> {
    /// The names of a kind; of cookies those of a host.
    pub fn roll(&self, kind: Kind, host: &str) -> Option<&Roll<'t>> {
        match kind {
            Kind::Host => Some(&self.hosts),
            Kind::Cookie => self.cookies.get(host),
            Kind::Url => Some(&self.urls),
            Kind::Connection => Some(&self.connections),
            Kind::Script => Some(&self.scripts),
        }
    }

    fn roll_of(&mut self, header: &Header<'t>) -> &mut Roll<'t> {
        match header.kind {
            Kind::Host => &mut self.hosts,
            Kind::Cookie => {
                let host = header.host.map_or("", |host| host.name);
                self.cookies.entry(host).or_default()
            }
            Kind::Url => &mut self.urls,
            Kind::Connection => &mut self.connections,
            Kind::Script => &mut self.scripts,
        }
    }

    /// The name of the host at which a URL is; none where its declaration does not say it.
    pub fn host_of_url(&self, url: &str) -> Option<&'t str> {
        self.hosts_of_urls.get(url).copied()
    }

    pub fn find(&self, kind: Kind, name: &str) -> Option<Declared> {
        self.roll(kind, "")?.find(name)
    }

    /// Enters a declaration and gives its number; none where it has an error, which is reported.
    pub fn declare(&mut self, header: &Header<'t>, errors: &mut Errors<'t>) -> Option<u32> {
        let roll = self.roll_of(header);
        let name = match header.name {
            Some(name) if header.is_whole => name,
            name => {
                roll.declare_broken(name);
                return None;
            }
        };
        let number = match roll.declare(name, header.number, header.kind.most()) {
            Ok(number) => number,
            Err(clash) => {
                report_clash(clash, name, header, errors);
                None
            }
        };
        if let (Kind::Url, Some(host)) = (header.kind, header.host) {
            self.hosts_of_urls.entry(name.name).or_insert(host.name);
        }
        number
    }
}

fn report_clash<'t>(
    clash: Clash<'t>,
    name: Mention<'t>,
    header: &Header<'t>,
    errors: &mut Errors<'t>,
) {
    let span = header.number.map_or(name.span, |number| number.span);
    match clash {
        Clash::Name(other) => {
            errors.report(name.span, |text| told_twice(name, header, other, text))
        }
        Clash::Number { number, other } => errors.report(span, |text| {
            let line = Errors::line(text, other.span);
            let kind = header.kind;
            let message = format!("{kind} {} has number {number}", quoted(other.name));
            let label = format!("{} would have it too", quoted(name.name));
            Diagnostic::error(message, span, label)
                .note(format!("it is declared in {line}"))
                .note("`number N` gives another; without it the number is one more than the last")
        }),
        Clash::Full => errors.report(name.span, |_| {
            let (kind, most) = (header.kind, header.kind.most());
            let message = match kind {
                Kind::Cookie => format!(
                    "a host has at most {most} cookies, numbered 0 to {}",
                    most - 1
                ),
                _ => format!(
                    "there are at most {most} {kind}s, numbered 0 to {}",
                    most - 1
                ),
            };
            Diagnostic::error(message, name.span, format!("it would have number {most}"))
        }),
    }
}

fn told_twice(name: Mention<'_>, header: &Header<'_>, other: Span, text: &[u8]) -> Diagnostic {
    let of = match (header.kind, header.host) {
        (Kind::Cookie, Some(host)) => format!(" of {}", quoted(host.name)),
        _ => String::new(),
    };
    let message = format!(
        "{} {}{of} is declared twice",
        header.kind,
        quoted(name.name)
    );
    let note = format!("the other is in {}", Errors::line(text, other));
    Diagnostic::error(message, name.span, "declared again here").note(note)
}

/// The names that are not declared, each told of once.
#[derive(Default)]
pub(crate) struct Unknown<'t> {
    told: HashSet<(Kind, &'t str, &'t str)>,
}

impl<'t> Unknown<'t> {
    /// Whether a name of a kind, of a cookie of a host, is to be told of.
    pub fn is_new(&mut self, kind: Kind, name: &'t str, host: &'t str) -> bool {
        self.told.insert((kind, name, host))
    }
}

/// What is told of a name that is not declared. `words` are those of the language that could stand in its place.
pub(crate) fn told_unknown(
    known: &Tables<'_>,
    kind: Kind,
    it: Mention<'_>,
    words: &[&str],
    text: &[u8],
) -> Diagnostic {
    let message = format!("there is no {kind} {}", quoted(it.name));
    let told = Diagnostic::error(message, it.span, "not declared");
    let names = known.roll(kind, "").into_iter().flat_map(Roll::names);
    if let Some(meant) = nearest(it.name, names.chain(words.iter().copied())) {
        return told.note(format!("did you mean `{meant}`?"));
    }
    let others = Kind::ALL.into_iter().filter(|other| *other != kind);
    let other = others.into_iter().find_map(|other| {
        let declared = known.find(other, it.name)?;
        Some(format!(
            "{} is a {other}, declared in {}",
            quoted(it.name),
            Errors::line(text, declared.span)
        ))
    });
    told.notes(other).notes(declaration(kind, it.name))
}

/// How a name is declared, if it can be.
fn declaration(kind: Kind, name: &str) -> Option<String> {
    if name.len() > NAME_BYTES {
        return None;
    }
    Some(match kind {
        Kind::Url => {
            format!("to declare it: `url {name} at https HOST`, and its readers and writers")
        }
        Kind::Connection => {
            format!("to declare it: `connection {name}`, and its readers and writers")
        }
        _ => format!("to declare it: `{} {name}`", kind.word()),
    })
}

/// What is told of a cookie that its host does not have.
pub(crate) fn told_unknown_cookie(known: &Tables<'_>, it: Mention<'_>, host: &str) -> Diagnostic {
    let message = format!("host {} has no cookie {}", quoted(host), quoted(it.name));
    let told = Diagnostic::error(message, it.span, "not declared");
    let names = known
        .roll(Kind::Cookie, host)
        .into_iter()
        .flat_map(Roll::names);
    let note = match nearest(it.name, names) {
        Some(meant) => format!("did you mean `{meant}`?"),
        None => format!("a line `cookie NAME of {host}` declares one"),
    };
    told.note(note).note(format!(
        "what {host} sends, and its scripts, have the cookies of {host} alone"
    ))
}
