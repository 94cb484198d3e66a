//! What a record did, in words: a line for each thing that happened, and below it why, where something was not allowed.

use explain::{Did, End, Event, Explained, Lack, Why};
use zolherima::{Cookies, Pending, PendingKind, Refusal, Request, RequestKind, Said, REGISTERS};

use crate::words::{own, Words};

/// A line, and how deep it stands.
pub type Line = (usize, String);

pub struct Happened<'a> {
    words: &'a Words<'a>,
    /// Every step, and what is withheld, opened and freed.
    trace: bool,
    /// The URL that the record names.
    named: u32,
    lines: Vec<Line>,
    /// The script that runs, and the host of its page.
    script: u32,
    host: u32,
}

impl<'a> Happened<'a> {
    /// All that is to be said of a record.
    pub fn lines(
        words: &'a Words<'a>,
        record: &[u8],
        explained: &Explained,
        trace: bool,
    ) -> Vec<Line> {
        let mut happened = Happened {
            words,
            trace,
            named: Said::of(record).map_or(0, |said| said.url.into()),
            lines: Vec::new(),
            script: 0,
            host: 0,
        };
        for event in &explained.events {
            happened.event(event);
        }
        match &explained.outcome {
            Err((refusal, why)) => happened.refused(*refusal, why),
            Ok(_) if happened.lines.is_empty() => happened.say("accepted".to_string()),
            Ok(_) => {}
        }
        happened.lines
    }

    fn say(&mut self, text: String) {
        self.lines.push((1, text));
    }

    fn say_traced(&mut self, text: String) {
        if self.trace {
            self.say(text);
        }
    }

    /// Each condition that fails, with its reason and what could be changed; the first stands in the line above.
    fn say_lacks(&mut self, lacks: &[Lack]) {
        for (nth, lack) in own(lacks).iter().enumerate() {
            if nth > 0 {
                self.lines
                    .push((1, format!("also {}", self.words.lack(lack))));
            }
            self.lines.push((2, self.words.reason(lack)));
            let mends = self.words.mends(lack);
            self.lines.extend(mends.into_iter().map(|mend| (2, mend)));
        }
    }

    /// The first condition that fails.
    fn first(&self, lacks: &[Lack]) -> String {
        lacks
            .first()
            .map_or_else(String::new, |lack| self.words.lack(lack))
    }

    fn event(&mut self, event: &Event) {
        match event {
            Event::AskedInstead { named, asked } => self.asked_instead(*named, *asked),
            Event::Opened {
                connection,
                pending,
                replaced,
            } => self.opened(*connection, pending, replaced.as_ref()),
            Event::Moved { connection, to, .. } => self.moved(*connection, *to),
            Event::Stored {
                host,
                key,
                value,
                before,
            } => self.stored(*host, *key, *value, *before),
            Event::PassedOver {
                host,
                key,
                value,
                lacks,
            } => self.passed_over(*host, *key, *value, lacks),
            Event::Freed { connection } => self.freed(*connection),
            Event::Sent { request, withheld } => self.sent(request, withheld),
            Event::ScriptStarted { script, page, .. } => self.started(*script, *page),
            Event::StepRan {
                place,
                did,
                registers,
                ..
            } => self.step(*place, did, registers),
            Event::ScriptEnded { steps, why } => self.ended(*steps, why),
        }
    }

    fn asked_instead(&mut self, named: u32, asked: u32) {
        let names = &self.words.names;
        self.say(format!(
            "{} is at a host that is always https: {} is asked for in its place",
            names.url(named),
            names.url(asked)
        ));
    }

    fn moved(&mut self, connection: u32, to: u32) {
        let names = &self.words.names;
        self.say_traced(format!(
            "connection {} now awaits {}",
            names.connection(connection),
            names.url(to)
        ));
    }

    fn stored(&mut self, host: u32, key: u32, value: u32, before: Option<u32>) {
        let cookie = self.words.names.cookie(host, key);
        self.say(stored(&cookie, value, before));
    }

    fn freed(&mut self, connection: u32) {
        let name = self.words.names.connection(connection);
        self.say_traced(format!("connection {name} awaits nothing"));
    }

    fn opened(&mut self, connection: u32, pending: &Pending, replaced: Option<&Pending>) {
        let name = self.words.names.connection(connection);
        if let Some(replaced) = replaced {
            let text = awaited(self.words, replaced);
            self.say(format!("no longer awaited on {name}: {text}"));
        }
        let text = awaited(self.words, pending);
        self.say_traced(format!("connection {name} awaits {text}"));
    }

    fn passed_over(&mut self, host: u32, key: u32, value: u32, lacks: &[Lack]) {
        let cookie = self.words.names.cookie(host, key);
        let why = self.first(lacks);
        self.say(format!("passed over: {cookie} = {value}, since {why}"));
        self.say_lacks(lacks);
    }

    fn sent(&mut self, request: &Request, withheld: &[(u32, Vec<Lack>)]) {
        let names = &self.words.names;
        let host = self.words.host_of_url(u32::from(request.url));
        let (kind, then) = match request.kind {
            RequestKind::Document => ("document", String::new()),
            RequestKind::Picture => ("picture", String::new()),
            RequestKind::Script { handler } => (
                "script",
                format!(", then {}", names.script(u32::from(handler))),
            ),
        };
        self.say(format!(
            "sent: {kind} request to {} on {}{then}, {}",
            names.url(u32::from(request.url)),
            names.connection(u32::from(request.connection)),
            self.carried(host, &request.cookies)
        ));
        for (key, lacks) in withheld {
            let (cookie, why) = (names.cookie(host, *key), self.first(lacks));
            self.say_traced(format!("not with {cookie}, since {why}"));
        }
    }

    fn carried(&self, host: u32, cookies: &Cookies) -> String {
        let cookie = |(key, value)| format!("{} = {value}", self.words.names.cookie(host, key));
        let each: Vec<String> = cookies.iter().map(cookie).collect();
        match each.is_empty() {
            true => "without cookies".to_string(),
            false => format!("with {}", each.join(", ")),
        }
    }

    fn started(&mut self, script: u32, page: u32) {
        self.script = script;
        self.host = self.words.host_of_url(page);
        let names = &self.words.names;
        let text = format!(
            "script {} runs on {}",
            names.script(script),
            names.url(page)
        );
        self.say(text);
    }

    fn step(&mut self, place: u32, did: &Did, registers: &[u32; REGISTERS]) {
        if self.trace {
            let text = self.words.places.step(self.script, place);
            let registers = self.registers(registers);
            self.say(format!("step {}: {text}   [{registers}]", place + 1));
        }
        match did {
            Did::Wrote { key, value, before } => self.stored(self.host, *key, *value, *before),
            Did::PassedOver { key, value, lacks } => {
                self.passed_over(self.host, *key, *value, lacks);
            }
            _ => {}
        }
    }

    fn registers(&self, values: &[u32; REGISTERS]) -> String {
        let name = |nth| self.words.names.register(self.script, nth);
        let each = (0..).zip(values);
        let each: Vec<String> = each
            .map(|(nth, value)| format!("{} {value}", name(nth)))
            .collect();
        each.join(", ")
    }

    fn ended(&mut self, steps: u32, why: &End) {
        let script = self.words.names.script(self.script);
        match self.stopped(why) {
            None => {
                let is_empty = self.words.places.has_no_step(self.script);
                let text = match is_empty {
                    true => "it has no step".to_string(),
                    false => ended(steps, why),
                };
                self.say(format!("script {script} ended: {text}"));
            }
            Some((place, reason)) => {
                let text = self.words.places.step(self.script, place);
                self.say(format!(
                    "script {script} stopped at step {}, `{text}`: {reason}",
                    place + 1
                ));
            }
        }
        if let End::NotAllowed { lacks, .. } = why {
            self.say_lacks(lacks);
        }
    }

    /// The place and the reason, where a script did not come to its end.
    fn stopped(&self, why: &End) -> Option<(u32, String)> {
        match why {
            End::Step0 { .. } | End::PastTheLast => None,
            End::UnknownOp { place, op } => Some((*place, format!("there is no op {op}"))),
            End::OutOfRange {
                place,
                what,
                number,
            } => Some((*place, format!("there is no {what} {number}"))),
            End::NotAllowed { place, lacks } => Some((*place, self.first(lacks))),
            End::NoCookie { place, key } => Some((
                *place,
                format!(
                    "there is no cookie {} yet",
                    self.words.names.cookie(self.host, *key)
                ),
            )),
        }
    }

    fn refused(&mut self, refusal: Refusal, why: &Why) {
        let text = self.why(refusal, why);
        self.say(format!("refused {}: {text}", refusal.number()));
        if let Why::Labels(lacks) = why {
            self.say_lacks(lacks);
        }
    }

    fn holds_another(&self, asked: u32) -> String {
        let (url, named) = (self.words.names.url(asked), self.named);
        match self.words.policy.partner(named) {
            Some(partner) if partner == asked => format!(
                "its connection awaits {url}, which is asked for in place of {}: what arrives names {url}",
                self.words.names.url(named)
            ),
            _ => format!("its connection awaits {url}"),
        }
    }

    fn why(&self, refusal: Refusal, why: &Why) -> String {
        match why {
            Why::Malformed(_) => refusal.to_string(),
            Why::NoUrl { url } => format!("there is no URL {url}"),
            Why::NoTarget { target } => format!("there is no URL {target}"),
            Why::NoConnection { connection } => format!("there is no connection {connection}"),
            Why::NoScript { script } => format!("there is no script {script}"),
            Why::Free => "its connection awaits nothing".to_string(),
            Why::HoldsAnother { url } => self.holds_another(*url),
            Why::OtherKind { pending } => {
                format!("its connection awaits {}", awaited(self.words, pending))
            }
            Why::Labels(lacks) => self.first(lacks),
        }
    }
}

/// A cookie with its value, and that which it had before.
fn stored(cookie: &str, value: u32, before: Option<u32>) -> String {
    let before = before.map(|it| format!(", which was {it}"));
    format!("stored: {cookie} = {value}{}", before.unwrap_or_default())
}

/// How many steps there were, of which the last may be the end.
fn ended(steps: u32, why: &End) -> String {
    let count = |steps: u32| match steps {
        1 => "1 step".to_string(),
        _ => format!("{steps} steps"),
    };
    match why {
        End::PastTheLast => format!("{}, and none is left", count(steps)),
        _ => format!("{} and its end", count(steps.saturating_sub(1))),
    }
}

/// What a connection awaits.
pub fn awaited(words: &Words, pending: &Pending) -> String {
    let names = &words.names;
    let url = names.url(u32::from(pending.url));
    match pending.kind {
        PendingKind::Document => format!("the page {url}"),
        PendingKind::Picture => format!("the picture {url}"),
        PendingKind::Script { origin, handler } => format!(
            "the response of {url} to {}, for script {}",
            names.url(u32::from(origin)),
            names.script(u32::from(handler))
        ),
    }
}
