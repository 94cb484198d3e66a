//! What has been met: every variant that an explanation can have, and every lack of every rule.

use explain::{Because, Did, End, Event, Explained, Lack, Owner, Set, Why};
use std::collections::BTreeMap;
use zolherima::{RecordKind, Refusal, RequestKind, Said, Step};

/// All that a random test has to meet.
const ALL: [&str; 66] = [
    "event asked instead",
    "event opened",
    "event opened over another",
    "event moved",
    "event stored",
    "event stored over another",
    "event passed over",
    "event freed",
    "event sent",
    "event sent, withholding",
    "opened a document",
    "opened a script's request",
    "opened a picture",
    "moved a document",
    "moved a script's request",
    "moved a picture",
    "event script started",
    "event step ran",
    "event script ended",
    "did nothing",
    "did set",
    "did read",
    "did write",
    "did pass over",
    "did skip",
    "did request",
    "end at step 0",
    "end at unknown op",
    "end out of range: register",
    "end out of range: key",
    "end out of range: URL",
    "end out of range: connection",
    "end out of range: handler",
    "end not allowed",
    "end without cookie",
    "end past the last",
    "refused: kind unknown",
    "refused: key map empty",
    "refused: cut or too long",
    "refused: no URL",
    "refused: no target",
    "refused: no connection",
    "refused: no script",
    "refused: free",
    "refused: holds another",
    "refused: other kind",
    "refused: labels",
    "load: URL's readers lack connection's readers",
    "load: connection's writers lack message endpoint",
    "redirect: connection's readers lack event endpoint",
    "redirect: URL's readers lack connection's readers",
    "redirect: connection's writers lack message endpoint",
    "redirect: URL's writers lack connection's writers",
    "request: connection's script readers lack event endpoint",
    "request: connection's script readers lack connection's readers",
    "request: URL's readers lack connection's readers",
    "request: connection's writers lack message endpoint",
    "request: connection's writers lack connection's writers",
    "request: URL's writers lack connection's writers",
    "read: cookie's readers lack connection's script readers",
    "read: connection's writers lack cookie's writers",
    "write: connection's script readers lack cookie's readers",
    "write: cookie's writers lack connection's writers",
    "store: connection's readers lack cookie's readers",
    "store: cookie's writers lack connection's writers",
    "carry: cookie's readers lack message endpoint",
];

/// How often each was met.
#[derive(Default)]
pub struct Met {
    counts: BTreeMap<String, u32>,
}

impl Met {
    /// Counts what is in an explanation.
    pub fn note(&mut self, record: &[u8], explained: &Explained) {
        if let Err((_, why)) = &explained.outcome {
            self.count(refused(why));
            self.refused_by_labels(record, why);
        }
        self.note_kinds(explained);
        let mut last = None;
        for event in &explained.events {
            self.count(named(event));
            self.note_event(event, last);
            last = step(event).or(last);
        }
    }

    /// Counts what was opened or moved, by the kind of the request that follows.
    fn note_kinds(&mut self, explained: &Explained) {
        for pair in explained.events.windows(2) {
            let [cause, Event::Sent { request, .. }] = pair else {
                continue;
            };
            let did = match cause {
                Event::Moved { .. } => "moved",
                _ => "opened",
            };
            self.count(format!("{did} {}", kind(request.kind)));
        }
    }

    /// Panics where something never occurred, or something else did.
    pub fn assert_all(&self) {
        let met: Vec<&str> = self.counts.keys().map(String::as_str).collect();
        let never: Vec<&&str> = ALL.iter().filter(|name| !met.contains(name)).collect();
        let unlisted: Vec<&&str> = met.iter().filter(|name| !ALL.contains(name)).collect();
        assert!(never.is_empty(), "never met: {never:?}");
        assert!(unlisted.is_empty(), "met, and not listed: {unlisted:?}");
    }

    fn count(&mut self, name: impl Into<String>) {
        *self.counts.entry(name.into()).or_default() += 1;
    }

    fn refused_by_labels(&mut self, record: &[u8], why: &Why) {
        let Why::Labels(lacks) = why else { return };
        let rule = match Said::of(record).unwrap().kind {
            RecordKind::Load => "load",
            _ => "redirect",
        };
        self.lacks(rule, lacks);
    }

    fn note_event(&mut self, event: &Event, last: Option<Step>) {
        match event {
            Event::PassedOver { lacks, .. } => self.lacks("store", lacks),
            Event::Sent { withheld, .. } => withheld
                .iter()
                .for_each(|(_, lacks)| self.lacks("carry", lacks)),
            Event::StepRan { did, .. } => self.note_did(did),
            Event::ScriptEnded { why, .. } => self.note_end(why, last),
            _ => {}
        }
    }

    fn note_did(&mut self, did: &Did) {
        self.count(match did {
            Did::Nothing => "did nothing",
            Did::Set { .. } => "did set",
            Did::Read { .. } => "did read",
            Did::Wrote { .. } => "did write",
            Did::PassedOver { .. } => "did pass over",
            Did::Skipped { .. } => "did skip",
            Did::Requested => "did request",
        });
        if let Did::PassedOver { lacks, .. } = did {
            self.lacks("write", lacks);
        }
    }

    fn note_end(&mut self, why: &End, last: Option<Step>) {
        self.count(match why {
            End::Step0 { .. } => "end at step 0".to_string(),
            End::UnknownOp { .. } => "end at unknown op".to_string(),
            End::OutOfRange { what, .. } => format!("end out of range: {what}"),
            End::NotAllowed { .. } => "end not allowed".to_string(),
            End::NoCookie { .. } => "end without cookie".to_string(),
            End::PastTheLast => "end past the last".to_string(),
        });
        if let End::NotAllowed { lacks, .. } = why {
            let is_read = matches!(last, Some(Step::Read { .. }));
            self.lacks(if is_read { "read" } else { "request" }, lacks);
        }
    }

    fn lacks(&mut self, rule: &str, lacks: &[Lack]) {
        assert!(!lacks.is_empty(), "{rule}");
        for lack in lacks {
            assert!(!lack.missing.is_empty(), "{rule}: {lack:?}");
            let lacking = set_of(lack.set, lack.lacking);
            self.count(format!("{rule}: {lacking} lack {}", because(lack.because)));
        }
    }
}

fn kind(kind: RequestKind) -> &'static str {
    match kind {
        RequestKind::Document => "a document",
        RequestKind::Script { .. } => "a script's request",
        RequestKind::Picture => "a picture",
    }
}

fn step(event: &Event) -> Option<Step> {
    match event {
        Event::StepRan { step, .. } => Some(*step),
        _ => None,
    }
}

fn named(event: &Event) -> &'static str {
    match event {
        Event::AskedInstead { .. } => "event asked instead",
        Event::Opened { replaced: None, .. } => "event opened",
        Event::Opened { .. } => "event opened over another",
        Event::Moved { .. } => "event moved",
        Event::Stored { before: None, .. } => "event stored",
        Event::Stored { .. } => "event stored over another",
        Event::PassedOver { .. } => "event passed over",
        Event::Freed { .. } => "event freed",
        Event::Sent { withheld, .. } if withheld.is_empty() => "event sent",
        Event::Sent { .. } => "event sent, withholding",
        Event::ScriptStarted { .. } => "event script started",
        Event::StepRan { .. } => "event step ran",
        Event::ScriptEnded { .. } => "event script ended",
    }
}

fn refused(why: &Why) -> &'static str {
    match why {
        Why::Malformed(Refusal::KindUnknown) => "refused: kind unknown",
        Why::Malformed(Refusal::KeyMapEmpty) => "refused: key map empty",
        Why::Malformed(_) => "refused: cut or too long",
        Why::NoUrl { .. } => "refused: no URL",
        Why::NoTarget { .. } => "refused: no target",
        Why::NoConnection { .. } => "refused: no connection",
        Why::NoScript { .. } => "refused: no script",
        Why::Free => "refused: free",
        Why::HoldsAnother { .. } => "refused: holds another",
        Why::OtherKind { .. } => "refused: other kind",
        Why::Labels(_) => "refused: labels",
    }
}

fn set_of(set: Set, owner: Owner) -> String {
    let owner = match owner {
        Owner::Url(_) => "URL",
        Owner::Connection(_) => "connection",
        Owner::Cookie { .. } => "cookie",
    };
    let set = match set {
        Set::Readers => "readers",
        Set::ScriptReaders => "script readers",
        Set::Writers => "writers",
    };
    format!("{owner}'s {set}")
}

fn because(because: Because) -> String {
    match because {
        Because::Has { set, owner } => set_of(set, owner),
        Because::Event { .. } => "event endpoint".to_string(),
        Because::Message { .. } => "message endpoint".to_string(),
    }
}
