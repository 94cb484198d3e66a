//! How a test tells at its end which events it has seen.

/// The name of an event, and how often it was seen.
pub type Counted = (&'static str, u64);

/// Prints how many were seen, the rarest, and those that never were.
pub fn print(events: &[Counted]) {
    let never = never_seen(events);
    let all = events.len();
    println!("events seen      {:>5} of {all:>3}", all - never.len());
    if let Some((name, count)) = events.iter().min_by_key(|(_, count)| count) {
        println!("rarest           {count:>12} times: {name}");
    }
    for name in never {
        println!("never seen: {name}");
    }
}

pub fn never_seen(events: &[Counted]) -> Vec<&'static str> {
    let never = events.iter().filter(|(_, count)| *count == 0);
    never.map(|(name, _)| *name).collect()
}
