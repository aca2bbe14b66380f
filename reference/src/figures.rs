//! The night in numbers: figures over a parameter's settings (M-111).

use crate::datainfo::Datainfo;

/// The report says `full` at so many settings, and keeps the figures of those.
pub const FULL: usize = 65_535;
const LEAST: i64 = -2_147_483_648;
const GREATEST: i64 = 2_147_483_647;

/// What a parameter was set to, as far as it is kept.
#[derive(Clone, Debug)]
pub enum Settings {
    /// Of an int or a scaled within the limits.
    Numbers(Vec<i64>),
    Count(usize),
}

impl Settings {
    pub fn none(datainfo: &Datainfo) -> Settings {
        match datainfo {
            Datainfo::Int { min, max } | Datainfo::Scaled { min, max, .. }
                if LEAST <= *min && *max <= GREATEST =>
            {
                Settings::Numbers(Vec::new())
            }
            _ => Settings::Count(0),
        }
    }

    fn count(&self) -> usize {
        match self {
            Settings::Numbers(numbers) => numbers.len(),
            Settings::Count(count) => *count,
        }
    }

    /// One more, by its stored form.
    pub fn add(&mut self, stored: &[u8]) {
        if self.count() == FULL {
            return;
        }
        match self {
            Settings::Numbers(numbers) => {
                let text = std::str::from_utf8(stored).expect("a token");
                numbers.push(text.parse().expect("a whole number within the limits"));
            }
            Settings::Count(count) => *count += 1,
        }
    }

    /// The line of the parameter `module:name`, with its line feed.
    pub fn line(&self, name: &[u8]) -> Vec<u8> {
        let count = self.count();
        let numbers = match self {
            Settings::Count(_) => String::new(),
            Settings::Numbers(numbers) => match (numbers.iter().min(), numbers.iter().max()) {
                (Some(least), Some(greatest)) => {
                    let sum: i64 = numbers.iter().sum();
                    format!(" least {least} greatest {greatest} sum {sum}")
                }
                _ => " none".to_string(),
            },
        };
        let full = if count == FULL { " full" } else { "" };
        [name, format!(" count {count}{numbers}{full}\n").as_bytes()].concat()
    }
}
