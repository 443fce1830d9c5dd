//! What came up, counted.
use std::collections::BTreeMap;

/// How often something was so: by topic, and number or name.
#[derive(Default)]
pub struct Tallies(BTreeMap<(&'static str, u32, &'static str), u64>);

impl Tallies {
    pub fn add(&mut self, topic: &'static str, name: &'static str) {
        self.add_many(topic, name, 1);
    }

    pub fn add_many(&mut self, topic: &'static str, name: &'static str, many: u64) {
        *self.0.entry((topic, 0, name)).or_default() += many;
    }

    pub fn add_number(&mut self, topic: &'static str, number: u32) {
        *self.0.entry((topic, number, "")).or_default() += 1;
    }

    pub fn add_code(&mut self, code: u32) {
        self.add_number("code", code);
    }

    pub fn of(&self, topic: &'static str, name: &'static str) -> u64 {
        self.0.get(&(topic, 0, name)).copied().unwrap_or(0)
    }

    pub fn of_number(&self, topic: &'static str, number: u32) -> u64 {
        self.0.get(&(topic, number, "")).copied().unwrap_or(0)
    }

    pub fn join(&mut self, other: Tallies) {
        other.0.into_iter().for_each(|(key, many)| *self.0.entry(key).or_default() += many);
    }

    /// A line for each topic.
    pub fn print(&self) {
        let mut topics: Vec<&str> = self.0.keys().map(|key| key.0).collect();
        topics.dedup();
        for topic in topics {
            let of_topic = self.0.iter().filter(|(key, _)| key.0 == topic);
            let parts = of_topic.map(|((_, number, name), many)| match *name {
                "" => format!("{number}: {many}"),
                _ => format!("{name}: {many}"),
            });
            println!("  {topic}: {}", parts.collect::<Vec<_>>().join(", "));
        }
    }
}
