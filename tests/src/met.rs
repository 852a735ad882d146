//! How often each thing was met, by its name.
use std::collections::BTreeMap;

#[derive(Default, Debug)]
pub struct Met(BTreeMap<String, u64>);

impl Met {
    pub fn note(&mut self, name: impl Into<String>) {
        *self.0.entry(name.into()).or_default() += 1;
    }

    /// Prints the counts; each name that is wanted must be among them.
    pub fn finish(&self, wanted: &[String]) {
        println!("{:#?}", self.0);
        let missing: Vec<&String> = wanted.iter().filter(|&name| !self.0.contains_key(name)).collect();
        assert!(missing.is_empty(), "never met: {missing:?}");
    }
}
