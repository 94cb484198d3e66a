//! Feeds the session of a file to the monitor, says of each record what happened and why, and gives the requests that went out.

use std::io::Write;

use explain::{explain_and_compare, End, Event, Explained};
use zolherima::{State, CONNECTIONS, HOSTS};

use crate::failure::Failure;
use crate::file::{Sound, SourceFile};
use crate::happened::{awaited, Happened, Line};
use crate::input::write;
use crate::progress::Progress;
use crate::words::Words;

pub fn run(
    file: &SourceFile,
    sound: &Sound,
    trace: bool,
    out: &mut impl Write,
) -> Result<Vec<u8>, Failure> {
    let words = Words::new(&sound.policy, &sound.plan, &file.text);
    let (mut state, mut totals, mut requests) = (State::new(), Totals::default(), Vec::new());
    let records = &sound.plan.session;
    let mut progress = Progress::new("record", records.len());
    for (nth, record) in records.iter().enumerate() {
        let explained =
            explain_and_compare(&sound.policy, &sound.scripts, &mut state, &record.it.bytes)
                .map_err(|difference| Failure::Bug(difference.to_string()))?;
        totals.count(&explained);
        requests.extend_from_slice(&explained.out);
        let mut lines = vec![(0, format!("{} {}", nth + 1, words.places.words(record)))];
        lines.extend(Happened::lines(&words, &record.it.bytes, &explained, trace));
        if trace {
            lines.extend(state_lines(&words, &state));
        }
        put(out, &lines)?;
        progress.tell(nth + 1);
    }
    put(out, &[(0, totals.told(&file.name))])?;
    Ok(requests)
}

#[derive(Default)]
struct Totals {
    accepted: usize,
    refused: usize,
    stopped: usize,
}

impl Totals {
    fn count(&mut self, explained: &Explained) {
        match explained.outcome {
            Ok(_) => self.accepted += 1,
            Err(_) => self.refused += 1,
        }
        let stopped = explained.events.iter().filter(|event| is_stop(event));
        self.stopped += stopped.count();
    }

    fn told(&self, file: &str) -> String {
        let stopped = match self.stopped {
            0 => String::new(),
            1 => ", 1 script stopped".to_string(),
            more => format!(", {more} scripts stopped"),
        };
        match self.accepted + self.refused {
            0 => format!("{file} has no session: nothing is fed"),
            _ => format!(
                "{} accepted, {} refused{stopped}",
                self.accepted, self.refused
            ),
        }
    }
}

/// Whether a script ended before its end.
fn is_stop(event: &Event) -> bool {
    match event {
        Event::ScriptEnded { why, .. } => !matches!(why, End::Step0 { .. } | End::PastTheLast),
        _ => false,
    }
}

fn put(out: &mut impl Write, lines: &[Line]) -> Result<(), Failure> {
    let line = |(depth, text): &Line| format!("{:1$}{text}\n", "", 4 * depth);
    let text: String = lines.iter().map(line).collect();
    write(out, text.as_bytes()).map_err(Failure::Broken)
}

/// The cookies that are present, and what is awaited.
fn state_lines(words: &Words, state: &State) -> Vec<Line> {
    let names = &words.names;
    let cookies = (0..HOSTS as u32).flat_map(|host| {
        let cookies = state.cookies(host).iter();
        cookies.map(move |(key, value)| (host, key, value))
    });
    let cookies =
        cookies.map(|(host, key, value)| format!("{} = {value}", names.cookie(host, key)));
    let pending = (0..CONNECTIONS as u32).filter_map(|connection| {
        let pending = state.pending(connection)?;
        let name = names.connection(connection);
        Some(format!("{name} awaits {}", awaited(words, &pending)))
    });
    let all = cookies.chain(pending);
    all.map(|text| (1, format!("after it: {text}"))).collect()
}

#[cfg(test)]
mod tests {
    use super::*;

    #[test]
    fn totals_are_told() {
        let told = |accepted, refused, stopped| {
            let totals = Totals {
                accepted,
                refused,
                stopped,
            };
            totals.told("a.policy")
        };
        assert_eq!(told(0, 0, 0), "a.policy has no session: nothing is fed");
        assert_eq!(told(2, 0, 0), "2 accepted, 0 refused");
        assert_eq!(told(0, 1, 0), "0 accepted, 1 refused");
        assert_eq!(told(2, 1, 1), "2 accepted, 1 refused, 1 script stopped");
        assert_eq!(told(2, 1, 2), "2 accepted, 1 refused, 2 scripts stopped");
    }
}
