//! What the comparison reached, and how often.

use std::collections::BTreeMap;

#[derive(Default)]
pub struct Reached {
    situations: BTreeMap<String, u64>,
}

impl Reached {
    pub fn situation(&mut self, words: &str) {
        match self.situations.get_mut(words) {
            Some(times) => *times += 1,
            None => drop(self.situations.insert(words.into(), 1)),
        }
    }

    /// Those of the situations that never came up.
    pub fn never(&self, situations: &[String]) -> Vec<String> {
        let missing = situations.iter().filter(|words| !self.situations.contains_key(*words));
        missing.map(|words| format!("never reached: {words}")).collect()
    }

    pub fn print(&self) {
        for (words, times) in &self.situations {
            println!("{times:>10}  {words}");
        }
    }
}
