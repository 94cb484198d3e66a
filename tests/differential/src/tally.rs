//! The counts of a test, and the table that it ends with.

use std::collections::BTreeMap;
use std::iter::once;

use cases::events;
use reference::{Answer, Event, Seen};
use zolherima::Refusal;

use crate::case::{Kind, Played};

#[derive(Default)]
pub struct Tally {
    pub cases: u64,
    pub calls: u64,
    pub runs: u64,
    pub run_records: u64,
    /// How often each number was answered.
    pub numbers: BTreeMap<u32, u64>,
    pub most_bytes: u32,
    pub most_steps: u32,
}

impl Tally {
    pub fn add_call(&mut self, answer: Answer) {
        self.calls += 1;
        *self.numbers.entry(answer.number).or_default() += 1;
        self.most_bytes = self.most_bytes.max(answer.bytes);
        self.most_steps = self.most_steps.max(answer.steps);
    }

    pub fn add_case(&mut self, played: &Played) {
        self.cases += 1;
        if played.kind == Kind::Run {
            self.runs += 1;
            self.run_records += played.calls;
        }
    }

    pub fn progress(&self, seconds: f64, seen: &Seen) -> String {
        format!(
            "{:.0} s: {} calls, {} runs, {:.0} calls per second, {} of {} events not seen yet",
            seconds,
            self.calls,
            self.runs,
            self.calls as f64 / seconds,
            seen.missing().len(),
            Event::ALL.len()
        )
    }

    pub fn print(&self, seconds: f64, seen: &Seen) {
        println!("cases            {:>12}", self.cases);
        println!("calls            {:>12}", self.calls);
        println!("calls per second {:>12.0}", self.calls as f64 / seconds);
        println!("whole runs       {:>12}", self.runs);
        println!("records in runs  {:>12}", self.run_records);
        println!("most output bytes{:>12}", self.most_bytes);
        println!("most steps       {:>12}", self.most_steps);
        self.print_numbers();
        events::print(&Event::ALL.map(|event| (event.name(), seen.count(event))));
    }

    fn print_numbers(&self) {
        let refusals = Refusal::LIST.iter().copied();
        for (number, meaning) in once((0, "accepted")).chain(refusals) {
            let count = self.numbers.get(&number).copied().unwrap_or(0);
            println!("{number:>2} {meaning:<63}{count:>12}");
        }
    }
}
