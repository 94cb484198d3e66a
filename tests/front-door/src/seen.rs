//! What must have occurred, so that a test cannot pass by doing nothing.

use cases::events::{never_seen, print, Counted};

#[derive(Default)]
pub struct Seen {
    counts: Vec<Counted>,
}

impl Seen {
    pub fn new(events: &[&'static str]) -> Seen {
        Seen {
            counts: events.iter().map(|event| (*event, 0)).collect(),
        }
    }

    pub fn count(&mut self, event: &str) {
        self.count_many(event, 1);
    }

    pub fn count_many(&mut self, event: &str, many: usize) {
        let counted = self.counts.iter_mut().find(|(name, _)| *name == event);
        let (_, count) = counted.expect("every event is listed");
        *count += many as u64;
    }

    pub fn print(&self) {
        for (name, count) in &self.counts {
            println!("{count:>12}  {name}");
        }
        print(&self.counts);
    }

    pub fn missing(&self) -> Vec<&'static str> {
        never_seen(&self.counts)
    }
}
