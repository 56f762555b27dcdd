//! The model's value beside the original's.
use crate::vecnook::Outcome;
use std::fmt::Debug;

/// Compares the model's value with the original's, keeps a finding, and gives the original's.
pub struct Check<'a> {
    pub findings: &'a mut Vec<String>,
}

impl Check<'_> {
    pub fn finding(&mut self, finding: String) {
        self.findings.push(finding);
    }

    pub fn same<T: PartialEq + Debug>(&mut self, what: &str, model: T, original: T) -> T {
        if model != original {
            self.finding(format!("{what}: model {}, original {}", short(&model), short(&original)));
        }
        original
    }

    pub fn outcome<T, N>(&mut self, what: &str, model: Result<T, N>, original: Outcome<T, N>) -> Result<T, N>
    where
        T: PartialEq + Debug,
        N: PartialEq + Debug,
    {
        match original {
            Ok(original) => self.same(what, model, original),
            Err(message) => {
                self.finding(format!(
                    "{what}: model {}, the original's message has no number: {message}",
                    short(&model)
                ));
                model
            }
        }
    }
}

fn short(value: &impl Debug) -> String {
    let text = format!("{value:?}");
    if text.len() > 2000 { format!("{}..", text.chars().take(2000).collect::<String>()) } else { text }
}
