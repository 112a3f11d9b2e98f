//! The words behind a command: its options and the rest.

use crate::commands::Command;
use crate::end::Fault;
use std::ffi::{OsStr, OsString};

/// A call of a command.
pub struct Call {
    /// Options with their values; those without have an empty one.
    options: Vec<(String, OsString)>,
    /// All other words, files mostly.
    pub rest: Vec<OsString>,
}

impl Call {
    /// Options may stand anywhere in front of `--`; a lone `-` is none.
    pub fn parse(command: &'static Command, words: &[OsString]) -> Result<Call, Fault> {
        let mut call = Call { options: vec![], rest: vec![] };
        let mut words = words.iter();
        while let Some(word) = words.next() {
            if word == "--" {
                call.rest.extend(words.by_ref().cloned());
            } else if word == "-" || !word.as_encoded_bytes().starts_with(b"-") {
                call.rest.push(word.clone());
            } else {
                let value = |wanted| if wanted { words.next().cloned() } else { Some(OsString::new()) };
                call.add(command, &word.to_string_lossy(), value)?;
            }
        }
        Ok(call)
    }

    /// One option; its value is asked for once it is known whether it has one.
    fn add(
        &mut self,
        command: &Command,
        option: &str,
        value: impl FnOnce(bool) -> Option<OsString>,
    ) -> Result<(), Fault> {
        let fault = |what: &str| Fault(format!("{option}: {what}; see story-image help {}", command.name));
        let wanted = command.option(option).ok_or_else(|| fault("no such option"))?;
        if self.value(option).is_some() {
            return Err(fault("given twice"));
        }
        let value = value(wanted).ok_or_else(|| fault("nothing stands behind it"))?;
        self.options.push((option.to_owned(), value));
        Ok(())
    }

    pub fn value(&self, option: &str) -> Option<&OsStr> {
        self.options.iter().find(|(name, _)| name == option).map(|(_, value)| value.as_os_str())
    }

    pub fn has(&self, option: &str) -> bool {
        self.value(option).is_some()
    }
}
