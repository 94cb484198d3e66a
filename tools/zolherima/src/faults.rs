//! What number 2 refuses of a policy, at the clause that is to be changed.

use explain::{Owner, Set};
use policy_text::{Diagnostic, Level, Names, Plan, Span};
use zolherima::{faults, Endpoint, Fault};

use crate::place::{at, Places};
use crate::words::is;

/// Everything that the monitor would refuse the policy for, in the order of its rows.
pub fn diagnostics(words: &[u32], plan: &Plan, names: &Names, places: &Places) -> Vec<Diagnostic> {
    let said = Said {
        plan,
        names,
        places,
    };
    faults(words).map(|fault| said.diagnostic(fault)).collect()
}

struct Said<'a> {
    plan: &'a Plan,
    names: &'a Names<'a>,
    places: &'a Places<'a>,
}

impl Said<'_> {
    fn diagnostic(&self, fault: Fault) -> Diagnostic {
        match fault {
            Fault::EventEndpoint { url, missing } => {
                self.event_endpoint(url, &self.names.endpoint(missing))
            }
            Fault::ScriptReaders {
                connection,
                missing,
            } => self.script_readers(connection, &self.outside(connection, missing)),
            Fault::PartnerMissing { url } => self.partner_missing(url),
            Fault::PartnerUnfit { url, partner } => self.partner_unfit(url, partner),
            Fault::PartnerUncalled { url, partner } => self.partner_uncalled(url, partner),
            // The language cannot say the others.
            _ => refused(fault.to_string(), None, String::new(), Vec::new()),
        }
    }

    fn event_endpoint(&self, url: u32, missing: &str) -> Diagnostic {
        let name = self.names.url(url);
        refused(
            format!("the monitor refuses url {name}: {missing} is missing among its readers"),
            self.places.clause(Set::Readers, Owner::Url(url)),
            format!("add `{missing}`"),
            vec![format!(
                "{missing} is the event endpoint of {name}: whoever watches its host on the wire sees each request there"
            )],
        )
    }

    /// All script readers of a connection that are not among its readers; the library's rule tells the lowest.
    fn outside(&self, connection: u32, lowest: Endpoint) -> String {
        let all = at(&self.plan.connections, connection)
            .map(|it| it.it.script_readers.it.except(it.it.readers.it));
        self.names.set(all.unwrap_or_else(|| lowest.into()))
    }

    fn script_readers(&self, connection: u32, missing: &str) -> Diagnostic {
        let name = self.names.connection(connection);
        let owner = Owner::Connection(connection);
        let readers = self.places.line(Set::Readers, owner);
        let is = is(missing);
        refused(
            format!("the monitor refuses connection {name}: {missing} {is} among its script readers, and not among its readers"),
            self.places.clause(Set::ScriptReaders, owner),
            format!("take `{missing}` from here"),
            vec![format!(
                "or add it to the readers{}: who learns what a script does learns of its connection",
                readers.map(|line| format!(" (line {line})")).unwrap_or_default()
            )],
        )
    }

    fn partner_missing(&self, url: u32) -> Diagnostic {
        let (name, host) = (self.names.url(url), self.host_of(url));
        refused(
            format!("the monitor refuses url {name}: it is by http at {host}, which is always https, and has no partner"),
            self.declaration(url),
            "a `partner` clause is missing".to_string(),
            vec![format!(
                "the partner is a URL by https at {host}, which is asked for in its place{}",
                self.candidates(url)
            )],
        )
    }

    /// The URLs that could be the partner.
    fn candidates(&self, url: u32) -> String {
        let host = at(&self.plan.urls, url).map(|url| url.it.address.host());
        let https = host.and_then(Endpoint::https);
        let fits = |it: &&policy_text::Named<policy_text::Url>| Some(it.it.address) == https;
        let names: Vec<String> = self
            .plan
            .urls
            .iter()
            .flatten()
            .filter(fits)
            .map(|it| format!("`partner {}`", it.name))
            .collect();
        match names.is_empty() {
            true => ": there is none yet".to_string(),
            false => format!(": write {}", names.join(" or ")),
        }
    }

    fn partner_unfit(&self, url: u32, partner: u32) -> Diagnostic {
        let (name, partner, host) = (
            self.names.url(url),
            self.names.url(partner),
            self.host_of(url),
        );
        refused(
            format!(
                "the monitor refuses url {name}: its partner {partner} is not by https at {host}"
            ),
            self.partner_clause(url),
            format!("a URL by https at {host} goes here"),
            vec![format!("{name} is asked for by https, at the same host")],
        )
    }

    fn partner_uncalled(&self, url: u32, partner: u32) -> Diagnostic {
        let (name, partner) = (self.names.url(url), self.names.url(partner));
        refused(
            format!("the monitor refuses url {name}: it has a partner, {partner}, that is not called for"),
            self.partner_clause(url),
            "take this clause out".to_string(),
            vec!["a partner is for a URL by http at a host that is declared `always https`".to_string()],
        )
    }

    fn host_of(&self, url: u32) -> String {
        let host = at(&self.plan.urls, url).map(|url| url.it.address.host());
        host.map_or_else(String::new, |host| self.names.host(host))
    }

    fn declaration(&self, url: u32) -> Option<Span> {
        at(&self.plan.urls, url).map(|url| url.span)
    }

    fn partner_clause(&self, url: u32) -> Option<Span> {
        let url = at(&self.plan.urls, url)?;
        Some(
            url.it
                .partner
                .as_ref()
                .map_or(url.span, |partner| partner.span),
        )
    }
}

fn refused(message: String, span: Option<Span>, label: String, notes: Vec<String>) -> Diagnostic {
    Diagnostic {
        level: Level::Error,
        message,
        span,
        label,
        notes,
        count: 1,
    }
}
