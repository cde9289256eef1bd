//! Command-line options of the form `--name value`, each given at most once.

use std::collections::BTreeMap;

pub struct Options {
    given: BTreeMap<String, String>,
}

impl Options {
    /// The options after the command; an unknown, repeated or unfinished one is an error.
    pub fn parse(arguments: &[String], known: &[&str]) -> Result<Options, String> {
        let mut given = BTreeMap::new();
        for pair in arguments.chunks(2) {
            let name = pair[0].strip_prefix("--").ok_or_else(|| format!("not an option: {}", pair[0]))?;
            if !known.contains(&name) {
                return Err(format!("unknown option --{}; known: {}", name, known.join(", ")));
            }
            let value = pair.get(1).ok_or_else(|| format!("--{} needs a value", name))?;
            if given.insert(name.to_string(), value.clone()).is_some() {
                return Err(format!("--{} is given twice", name));
            }
        }
        Ok(Options { given })
    }

    pub fn text(&self, name: &str) -> Option<&str> {
        self.given.get(name).map(String::as_str)
    }

    pub fn number(&self, name: &str, otherwise: u64) -> Result<u64, String> {
        match self.given.get(name) {
            None => Ok(otherwise),
            Some(value) => value.parse().map_err(|_| format!("--{} needs a number, not {}", name, value)),
        }
    }
}
