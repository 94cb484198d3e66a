//! Words of a policy, well formed or not: the faults that are told are just those that are there.

use cases::policy_bytes::policy_bytes;
use zolherima::{Fault, NO_PARTNER, NO_URL, POLICY_WORDS};
use zolherima_program::failure::Failure;

use crate::context::{same, Context, Verdict};
use crate::library::is_refused;
use cases::labels::{CONNECTIONS_AT, HTTPS_HOSTS_AT, PARTNERS_AT};

pub const EVENTS: &[&str] = &[
    "words that are a policy",
    "words of another length",
    "an address that is none",
    "an empty row with labels",
    "an event endpoint that is missing",
    "script readers outside the readers",
    "hosts above 15",
    "a partner that is missing",
    "a partner that is unfit",
    "a partner that is not called for",
    "several faults",
];

pub fn check(words: &[u32], context: &mut Context) -> Verdict {
    let refused = is_refused(words);
    let faults = context.front.faults(words);
    same("whether there are faults", &refused, &!faults.is_empty())?;
    same(
        "whether it is a policy",
        &!refused,
        &context.front.is_policy(words),
    )?;
    count(&faults, context);
    if words.len() == POLICY_WORDS {
        mends(words, &faults)?;
        shown(words, &faults, context)?;
    }
    Ok(())
}

fn count(faults: &[Fault], context: &mut Context) {
    if faults.is_empty() {
        context.seen.count("words that are a policy");
    }
    if faults.len() > 1 {
        context.seen.count("several faults");
    }
    for fault in faults {
        context.seen.count(event(fault));
    }
}

fn event(fault: &Fault) -> &'static str {
    match fault {
        Fault::Address { .. } => "an address that is none",
        Fault::EmptyRowLabelled { .. } => "an empty row with labels",
        Fault::EventEndpoint { .. } => "an event endpoint that is missing",
        Fault::ScriptReaders { .. } => "script readers outside the readers",
        Fault::HostsAbove { .. } => "hosts above 15",
        Fault::PartnerMissing { .. } => "a partner that is missing",
        Fault::PartnerUnfit { .. } => "a partner that is unfit",
        Fault::PartnerUncalled { .. } => "a partner that is not called for",
        // The builder alone is given numbers.
        Fault::Length { .. } | Fault::NumberAbove { .. } => "words of another length",
    }
}

/// Where all faults are mended the library takes the words, and where those of one row are left it does not.
fn mends(words: &[u32], faults: &[Fault]) -> Verdict {
    let mended = |left: Option<Row>| {
        let mut words = words.to_vec();
        let others = faults.iter().filter(|fault| Some(row_of(fault)) != left);
        others.for_each(|fault| mend(&mut words, fault));
        is_refused(&words)
    };
    same("refused, with all faults mended", &false, &mended(None))?;
    for fault in faults {
        let what = format!("refused, with all faults mended but those where {fault}");
        same(&what, &true, &mended(Some(row_of(fault))))?;
    }
    Ok(())
}

#[derive(PartialEq)]
enum Row {
    Url(u32),
    Connection(u32),
    Other,
}

fn row_of(fault: &Fault) -> Row {
    match *fault {
        Fault::Address { url, .. }
        | Fault::EmptyRowLabelled { url }
        | Fault::EventEndpoint { url, .. }
        | Fault::PartnerMissing { url }
        | Fault::PartnerUnfit { url, .. }
        | Fault::PartnerUncalled { url, .. } => Row::Url(url),
        Fault::ScriptReaders { connection, .. } => Row::Connection(connection),
        Fault::HostsAbove { .. } | Fault::Length { .. } | Fault::NumberAbove { .. } => Row::Other,
    }
}

/// Changes nothing that another row could miss.
fn mend(words: &mut [u32], fault: &Fault) {
    let row = |url: u32| 3 * url as usize;
    match *fault {
        Fault::Address { url, .. } | Fault::PartnerMissing { url } => {
            words[row(url)..][..3].copy_from_slice(&NO_URL);
        }
        Fault::EmptyRowLabelled { url } => words[row(url) + 1..][..2].fill(0),
        Fault::EventEndpoint { url, missing } => words[row(url) + 1] |= 1 << missing.number(),
        Fault::ScriptReaders { connection, .. } => {
            let at = CONNECTIONS_AT + row(connection);
            words[at + 1] &= words[at];
        }
        Fault::HostsAbove { .. } => words[HTTPS_HOSTS_AT] &= 0xffff,
        Fault::PartnerUnfit { url, .. } => {
            words[row(url)..][..3].copy_from_slice(&NO_URL);
            words[PARTNERS_AT + url as usize] = NO_PARTNER;
        }
        Fault::PartnerUncalled { url, .. } => words[PARTNERS_AT + url as usize] = NO_PARTNER,
        Fault::Length { .. } | Fault::NumberAbove { .. } => {}
    }
}

/// Words that are refused are not shown: each fault has a line instead, and of many the last line says how many more there are.
fn shown(words: &[u32], faults: &[Fault], context: &Context) -> Verdict {
    let told = match context.front.show(&policy_bytes(words)) {
        Ok(_) => 0,
        Err(Failure::Told(text)) => text.lines().map(faults_in).sum(),
        Err(other) => return Err(format!("refused otherwise: {}", other.message())),
    };
    same("faults that are told", &faults.len(), &told)
}

/// `error: and 3 more; ..` stands for three.
fn faults_in(line: &str) -> usize {
    let more = line.strip_prefix("error: and ");
    let more = more.and_then(|rest| rest.split(' ').next()?.parse().ok());
    more.unwrap_or(1)
}
