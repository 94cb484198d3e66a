//! Where the sets, steps and records of a policy stand in its text.

use explain::{Owner, Set};
use policy_text::{Clause, Plan, Span};

pub struct Places<'a> {
    plan: &'a Plan,
    text: &'a [u8],
    /// The first byte of each line.
    starts: Vec<usize>,
}

impl<'a> Places<'a> {
    pub fn new(plan: &'a Plan, text: &'a [u8]) -> Places<'a> {
        let ends = (0..text.len()).filter(|&at| text[at] == b'\n');
        let starts = [0].into_iter().chain(ends.map(|end| end + 1)).collect();
        Places { plan, text, starts }
    }

    /// The line of a set's clause, from 1 on; none where the owner is not declared.
    pub fn line(&self, set: Set, owner: Owner) -> Option<usize> {
        self.clause(set, owner).map(|span| self.line_of(span))
    }

    fn line_of(&self, span: Span) -> usize {
        self.starts.partition_point(|&start| start <= span.start)
    }

    /// The clause of a set.
    pub fn clause(&self, set: Set, owner: Owner) -> Option<Span> {
        let plan = self.plan;
        match owner {
            Owner::Url(url) => {
                let url = &at(&plan.urls, url)?.it;
                Some(readers_or(set, url.readers.span, url.writers.span))
            }
            Owner::Cookie { host, key } => {
                let cookie = &at(plan.cookies.get(host as usize)?, key)?.it;
                Some(readers_or(set, cookie.readers.span, cookie.writers.span))
            }
            Owner::Connection(connection) => {
                let connection = &at(&plan.connections, connection)?.it;
                Some(match set {
                    Set::Readers => connection.readers.span,
                    Set::ScriptReaders => connection.script_readers.span,
                    Set::Writers => connection.writers.span,
                })
            }
        }
    }

    /// Whether a connection has a clause for its script readers, and not one for both.
    pub fn has_script_readers(&self, connection: u32) -> bool {
        let connection = at(&self.plan.connections, connection);
        connection.is_some_and(|it| it.it.script_readers.span != it.it.readers.span)
    }

    /// Whether a script has no step that is written.
    pub fn has_no_step(&self, script: u32) -> bool {
        at(&self.plan.scripts, script).map_or(true, |script| script.it.steps.is_empty())
    }

    /// The words of a step; past those that are written a script has nothing but ends.
    pub fn step(&self, script: u32, place: u32) -> String {
        let script = at(&self.plan.scripts, script);
        let step = script.and_then(|script| script.it.steps.get(place as usize));
        step.map_or_else(|| "end".to_string(), |step| self.words(step))
    }

    /// A clause as it is written, on one line.
    pub fn words<T>(&self, clause: &Clause<T>) -> String {
        let text = self.text.get(clause.span.start..clause.span.end);
        let text = String::from_utf8_lossy(text.unwrap_or_default());
        let lines = text
            .lines()
            .map(|line| line.split('#').next().unwrap_or(""));
        let words: Vec<&str> = lines.flat_map(str::split_whitespace).collect();
        words.join(" ")
    }
}

fn readers_or(set: Set, readers: Span, writers: Span) -> Span {
    match set {
        Set::Writers => writers,
        Set::Readers | Set::ScriptReaders => readers,
    }
}

/// What is declared under a number.
pub fn at<T>(list: &[Option<T>], number: u32) -> Option<&T> {
    list.get(number as usize)?.as_ref()
}
