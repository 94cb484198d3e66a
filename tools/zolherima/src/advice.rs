//! What is legal and probably not meant: what no connection lets happen, and scripts that run where their cookies are others.
//!
//! A script is judged where it runs: on the connections on which the session has it run, and on those on which the requests go out whose handler it
//! is; where there are none, on each on which the page can be that it is `for`. It is advised about where it would not be allowed on one of the
//! first, or on all of the last. Skips are not followed: a step is judged as if it were met.

use explain::{rules, Lack};
use policy_text::{Clause, Diagnostic, Level, Named, Plan, Script, Span};
use zolherima::{RecordKind, Said, Step, CONNECTIONS, STEP_BYTES, URLS};

use crate::place::at;
use crate::words::{own, Words};

/// All advice on a policy that the monitor takes.
pub fn diagnostics(words: &Words) -> Vec<Diagnostic> {
    let advice = Advice { words };
    let mut all = Vec::new();
    all.extend(advice.nothing());
    all.extend(advice.urls());
    all.extend(advice.connections());
    all.extend(advice.cookies());
    all.extend(advice.scripts());
    all.sort_by_key(|it| it.span.map(|span| span.start));
    all
}

fn holds_host(words: &Words, connection: u32, host: u32) -> bool {
    let mut urls = words.urls_on(connection);
    urls.any(|url| words.host_of_url(url) == host)
}

/// The connections on which scripts of a host's pages can run: those that such a page can be on, and those on which its scripts' requests go out.
fn script_connections(words: &Words, host: u32) -> Vec<u32> {
    let all = 0..CONNECTIONS as u32;
    let holds = |connection: &u32| holds_host(words, *connection, host);
    let mut found: Vec<u32> = all.clone().filter(holds).collect();
    let mut next = 0;
    while let Some(&from) = found.get(next) {
        let is_new = |to: &u32| !found.contains(to) && may_request(words, from, *to);
        let led: Vec<u32> = all.clone().filter(is_new).collect();
        found.extend(led);
        next += 1;
    }
    found
}

/// Whether a script that runs on one connection may request something on another.
fn may_request(words: &Words, from: u32, to: u32) -> bool {
    let mut urls = words.urls_on(to);
    urls.any(|url| rules::request(words.policy, from, url, to).is_empty())
}

/// Whether a connection ever holds a URL: it fits one that is asked for.
fn is_held(words: &Words, url: u32) -> bool {
    (0..CONNECTIONS as u32).any(|connection| fits(words, connection, url))
}

fn fits(words: &Words, connection: u32, url: u32) -> bool {
    rules::load(words.policy, connection, words.policy.asked_for(url)).is_empty()
}

/// The connections on which a script runs, as far as the file says; else those on which it could.
enum RunsOn {
    Known(Vec<u32>),
    Any(Vec<u32>),
}

struct Advice<'a> {
    words: &'a Words<'a>,
}

impl Advice<'_> {
    fn plan(&self) -> &Plan {
        self.words.plan
    }

    /// A file without a URL, as one that was cut.
    fn nothing(&self) -> Option<Diagnostic> {
        let has_url = self.plan().urls.iter().any(Option::is_some);
        let said = Diagnostic {
            level: Level::Advice,
            message: "there is no url, so nothing can be asked for".to_string(),
            span: None,
            label: String::new(),
            notes: Vec::new(),
            count: 1,
        };
        (!has_url).then_some(said)
    }

    /// URLs that no connection fits. One that has a partner is never asked for.
    fn urls(&self) -> Vec<Diagnostic> {
        numbered(&self.plan().urls)
            .filter(|(url, _)| self.words.policy.partner(*url).is_none())
            .filter(|(url, _)| !is_held(self.words, *url))
            .map(|(url, it)| self.unfit(url, it.span))
            .collect()
    }

    fn unfit(&self, url: u32, span: Span) -> Diagnostic {
        let name = self.words.names.url(url);
        let notes = numbered(&self.plan().connections).map(|(connection, it)| {
            let lacks = rules::load(self.words.policy, connection, url);
            format!("on {}: {}", it.name, self.each(&lacks))
        });
        advice(
            format!("no connection fits url {name}, so it can never be asked for"),
            span,
            "no connection for this",
            many(notes.collect()),
        )
    }

    fn connections(&self) -> Vec<Diagnostic> {
        numbered(&self.plan().connections)
            .filter(|(connection, _)| self.words.urls_on(*connection).next().is_none())
            .map(|(_, it)| self.useless(it))
            .collect()
    }

    fn useless(&self, it: &Named<policy_text::Connection>) -> Diagnostic {
        advice(
            format!("connection {} fits no URL, so nothing can be asked for on it", it.name),
            it.span,
            "nothing for this",
            vec!["a connection fits a URL whose readers have all of its readers, and whose address is among its writers".to_string()],
        )
    }

    fn cookies(&self) -> Vec<Diagnostic> {
        let mut all = Vec::new();
        let hosts = (0..).zip(&self.plan().cookies);
        for (host, keys) in hosts.filter(|(_, keys)| numbered(keys).next().is_some()) {
            let scripts = script_connections(self.words, host);
            for (key, it) in numbered(keys) {
                all.extend(self.never_set(host, key, it.span, &scripts));
                all.extend(self.never_sent(host, key, it.span));
            }
        }
        all
    }

    /// Whether a cookie can be set: brought by a response for its host, or written by a script of a page of its host, which can run on these connections.
    fn can_be_set(&self, host: u32, key: u32, scripts: &[u32]) -> bool {
        let policy = self.words.policy;
        let mut writing = scripts.iter();
        let mut bringing = 0..CONNECTIONS as u32;
        writing.any(|&connection| rules::write(policy, connection, host, key).is_empty())
            || bringing.any(|connection| {
                rules::store(policy, connection, host, key).is_empty()
                    && holds_host(self.words, connection, host)
            })
    }

    fn never_set(&self, host: u32, key: u32, span: Span, scripts: &[u32]) -> Option<Diagnostic> {
        if self.can_be_set(host, key, scripts) {
            return None;
        }
        let of_host = numbered(&self.plan().connections)
            .filter(|(connection, _)| holds_host(self.words, *connection, host));
        let notes = of_host.map(|(connection, it)| {
            let lacks = rules::store(self.words.policy, connection, host, key);
            format!("on {}: {}", it.name, self.each(&lacks))
        });
        let mut notes: Vec<String> = notes.collect();
        if notes.is_empty() {
            let host = self.words.names.host(host);
            notes.push(format!("no connection fits a URL of {host}"));
        }
        let cookie = self.words.names.cookie(host, key);
        Some(advice(
            format!("no connection can set cookie {cookie}"),
            span,
            "never stored",
            many(notes),
        ))
    }

    /// A cookie that no request carries. One that nobody may read is meant so.
    fn never_sent(&self, host: u32, key: u32, span: Span) -> Option<Diagnostic> {
        let readers = self.words.policy.cookie(host, key)?.readers;
        let policy = self.words.policy;
        let asked_for = (0..URLS as u32).filter(|&url| policy.partner(url).is_none());
        let urls = asked_for.filter_map(|url| policy.url(url));
        let mut urls = urls.filter(|url| url.address.host() == host);
        if urls.any(|url| readers.has(url.address)) || readers.is_empty() {
            return None;
        }
        let cookie = self.words.names.cookie(host, key);
        Some(advice(
            format!("no request carries cookie {cookie}: its readers have the address of no URL of its host that is asked for"),
            span,
            "never sent",
            Vec::new(),
        ))
    }

    fn scripts(&self) -> Vec<Diagnostic> {
        let mut all = Vec::new();
        for (script, it) in numbered(&self.plan().scripts) {
            let Some(page) = &it.it.page else { continue };
            let places = self.runs_on(script, page.it);
            all.extend(self.elsewhere(script, it, page.it));
            let steps = it.it.steps.iter();
            all.extend(steps.filter_map(|step| self.step(it, page.it, step, &places)));
        }
        all
    }

    /// Where a script of a page runs.
    fn runs_on(&self, script: u32, page: u32) -> RunsOn {
        let mut known = self.called_on(script, page);
        known.extend(self.run_on(script, page));
        known.sort_unstable();
        known.dedup();
        match known.is_empty() {
            true => RunsOn::Any(
                (0..CONNECTIONS as u32)
                    .filter(|&connection| fits(self.words, connection, page))
                    .collect(),
            ),
            false => RunsOn::Known(known),
        }
    }

    /// A record, or a request whose handler it is, that has a script run on a page of another host than that which it is for: its cookies are
    /// others there.
    fn elsewhere(&self, script: u32, it: &Named<Script>, page: u32) -> Vec<Diagnostic> {
        let host = self.words.host_of_url(page);
        let records = self.plan().session.iter();
        let ran =
            records.filter_map(|record| Some((record.span, run_by(&record.it.bytes, script)?)));
        ran.chain(self.handled(script))
            .filter(|(_, on)| self.words.policy.url(*on).is_some())
            .filter(|(_, on)| self.words.host_of_url(*on) != host)
            .map(|(span, on)| {
                let names = &self.words.names;
                let (on, other) = (names.url(on), names.host(self.words.host_of_url(on)));
                advice(
                    format!(
                        "script {} is for {}, and runs here on {on}",
                        it.name,
                        names.url(page)
                    ),
                    span,
                    "a page of another host",
                    vec![format!(
                        "its cookies are here those of {other}, by their keys"
                    )],
                )
            })
            .collect()
    }

    /// The requests whose handler a script is, and the pages of the scripts that make them.
    fn handled(&self, handler: u32) -> impl Iterator<Item = (Span, u32)> + '_ {
        let scripts = self.plan().scripts.iter().flatten();
        let of_pages = scripts.filter_map(|it| Some((&it.it.steps, it.it.page.as_ref()?.it)));
        of_pages.flat_map(move |(steps, page)| {
            let calls = steps.iter().filter(move |step| {
                matches!(Step::of(step.it), Step::Request { handler: of, .. } if u32::from(of) == handler)
            });
            calls.map(move |step| (step.span, page))
        })
    }

    /// The connections on which the session has a script run on a page.
    fn run_on(&self, script: u32, page: u32) -> Vec<u32> {
        let page = self.words.policy.asked_for(page);
        let records = self.plan().session.iter();
        let ran = records.filter(|record| run_by(&record.it.bytes, script) == Some(page));
        ran.filter_map(|record| Said::of(&record.it.bytes).ok())
            .map(|said| u32::from(said.connection))
            .filter(|&connection| fits(self.words, connection, page))
            .collect()
    }

    /// The connections on which the requests go out whose handler a script is.
    fn called_on(&self, handler: u32, page: u32) -> Vec<u32> {
        let scripts = self.plan().scripts.iter().flatten();
        let of_page = scripts.filter(|it| it.it.page.as_ref().is_some_and(|of| of.it == page));
        let steps = of_page.flat_map(|it| it.it.steps.iter());
        steps
            .filter_map(|step| match Step::of(step.it) {
                Step::Request {
                    connection,
                    handler: of,
                    ..
                } if u32::from(of) == handler => Some(u32::from(connection)),
                _ => None,
            })
            .collect()
    }

    /// Advice where a step would not be allowed where its script runs.
    fn step(
        &self,
        script: &Named<Script>,
        page: u32,
        step: &Clause<[u8; STEP_BYTES]>,
        places: &RunsOn,
    ) -> Option<Diagnostic> {
        let (RunsOn::Known(on) | RunsOn::Any(on)) = places;
        let lacks = on.iter().map(|&it| (it, self.lacks(page, step.it, it)));
        let stopped: Vec<(u32, Vec<Lack>)> = lacks.filter(|(_, it)| !it.is_empty()).collect();
        let is_told = match places {
            RunsOn::Known(_) => !stopped.is_empty(),
            RunsOn::Any(on) => !on.is_empty() && stopped.len() == on.len(),
        };
        is_told.then(|| self.stopped(script, page, step, &stopped))
    }

    fn lacks(&self, page: u32, step: [u8; STEP_BYTES], connection: u32) -> Vec<Lack> {
        let policy = self.words.policy;
        let host = self.words.host_of_url(page);
        match Step::of(step) {
            Step::Request {
                url,
                connection: on,
                ..
            }
            | Step::Picture {
                url,
                connection: on,
            } => {
                let asked = policy.asked_for(u32::from(url));
                rules::request(policy, connection, asked, u32::from(on))
            }
            Step::Read { key, .. } => rules::read(policy, connection, host, u32::from(key)),
            Step::Write { key, .. } => rules::write(policy, connection, host, u32::from(key)),
            _ => Vec::new(),
        }
    }

    fn stopped(
        &self,
        script: &Named<Script>,
        page: u32,
        step: &Clause<[u8; STEP_BYTES]>,
        asked: &[(u32, Vec<Lack>)],
    ) -> Diagnostic {
        let (verb, label) = match Step::of(step.it) {
            Step::Write { .. } => ("write this cookie", "this would be passed over"),
            Step::Read { .. } => ("read this cookie", "the script would stop here"),
            _ => ("make this request", "the script would stop here"),
        };
        let page = self.words.names.url(page);
        let (told, more) = asked.split_at(asked.len().min(2));
        let each = told.iter();
        let mut notes: Vec<String> = each.flat_map(|(on, lacks)| self.on(*on, lacks)).collect();
        if !more.is_empty() {
            notes.push(format!("likewise on {}", connections(more.len())));
        }
        advice(
            format!("script {} of page {page} may not {verb}", script.name),
            step.span,
            label,
            notes,
        )
    }

    /// What is missing where a script runs on a connection, why, and what could be changed.
    fn on(&self, connection: u32, lacks: &[Lack]) -> Vec<String> {
        let name = self.words.names.connection(connection);
        let mut notes = Vec::new();
        for lack in &own(lacks) {
            notes.push(format!("on {name}: {}", self.words.lack(lack)));
            notes.push(format!("  {}", self.words.reason(lack)));
            let mends = self.words.mends(lack);
            notes.extend(mends.into_iter().map(|mend| format!("  {mend}")));
        }
        notes
    }

    fn each(&self, lacks: &[Lack]) -> String {
        let each: Vec<String> = own(lacks)
            .iter()
            .map(|lack| self.words.lack(lack))
            .collect();
        each.join("; ")
    }
}

/// The URL on which a record has a script run.
fn run_by(record: &[u8], script: u32) -> Option<u32> {
    let said = Said::of(record).ok()?;
    match said.kind {
        RecordKind::DocumentResponse { script: run } if u32::from(run) == script => {
            Some(u32::from(said.url))
        }
        _ => None,
    }
}

fn numbered<T>(list: &[Option<T>]) -> impl Iterator<Item = (u32, &T)> {
    let numbers = 0..list.len() as u32;
    numbers.filter_map(|number| Some((number, at(list, number)?)))
}

/// Of many notes the first, and how many more there are.
fn many(mut notes: Vec<String>) -> Vec<String> {
    const MOST: usize = 8;
    let more = notes.len().saturating_sub(MOST);
    if more > 0 {
        notes.truncate(MOST);
        notes.push(format!("likewise on {}", connections(more)));
    }
    notes
}

fn connections(more: usize) -> String {
    match more {
        1 => "1 more connection".to_string(),
        _ => format!("{more} more connections"),
    }
}

fn advice(message: String, span: Span, label: &str, notes: Vec<String>) -> Diagnostic {
    Diagnostic {
        level: Level::Advice,
        message,
        span: Some(span),
        label: label.to_string(),
        notes,
        count: 1,
    }
}
