//! Counts of events by name, with the least numbers that a test asks for.

use std::collections::BTreeMap;

/// What must come up, by the start of its name, and how often at least.
pub type Wanted = [(&'static str, &'static [(&'static str, usize)])];

#[derive(Default)]
pub struct Counts(BTreeMap<String, usize>);

impl Counts {
    pub fn count(&mut self, event: impl Into<String>) {
        *self.0.entry(event.into()).or_default() += 1;
    }

    /// Prints how often each event came up. What must come up did, often enough.
    pub fn report(&self, test: &str, wanted: &Wanted) {
        for (start, events) in wanted {
            let named = self.0.iter().filter_map(|(event, times)| Some((event.strip_prefix(start)?.trim(), *times)));
            let counts: BTreeMap<&str, usize> = named.collect();
            println!("{test}: {start} {}", list(&counts));
            for (event, least) in *events {
                let times = counts.get(event).copied().unwrap_or(0);
                assert!(times >= *least, "{start} {event}: {times} times, {least} wanted");
            }
        }
    }
}

pub fn list(counts: &BTreeMap<&str, usize>) -> String {
    let each: Vec<String> = counts.iter().map(|(event, times)| format!("{event} {times}")).collect();
    each.join("; ")
}
