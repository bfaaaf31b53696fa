//! What a comparison has found.

use std::collections::BTreeMap;

use oracle::replay::classes::Class;

/// How many failures are kept with their text.
const SHOWN: usize = 10;

#[derive(Default)]
pub struct Tally {
    /// The entry answered as the Rust and document 01 both do.
    pub same: u64,
    /// The entry answered as document 01 does, and the Rust differs in a listed way.
    pub differs: BTreeMap<Class, u64>,
    /// The entry answered as document 01 does; the Rust was not asked.
    pub alone: u64,
    /// How often the model gave each answer to a call, where a part counts them: the call's name and the refusal's number, 0 for none.
    pub answers: BTreeMap<(&'static str, u32), u64>,
    /// Anything else.
    pub failed: u64,
    pub failures: Vec<String>,
}

impl Tally {
    pub fn differs(&mut self, class: Class) {
        *self.differs.entry(class).or_default() += 1;
    }

    pub fn answers(&mut self, call: &'static str, refusal: u32) {
        *self.answers.entry((call, refusal)).or_default() += 1;
    }

    pub fn fails(&mut self, why: impl FnOnce() -> String) {
        self.failed += 1;
        if self.failures.len() < SHOWN {
            self.failures.push(why());
        }
    }

    pub fn calls(&self) -> u64 {
        self.same + self.differs.values().sum::<u64>() + self.alone + self.failed
    }

    pub fn add(&mut self, other: Tally) {
        self.same += other.same;
        self.alone += other.alone;
        self.failed += other.failed;
        for (class, count) in other.differs {
            *self.differs.entry(class).or_default() += count;
        }
        for (answer, count) in other.answers {
            *self.answers.entry(answer).or_default() += count;
        }
        self.failures.extend(other.failures);
        self.failures.truncate(SHOWN);
    }
}
