//! How the crate's many error types are said as the one table of numbers, and how a panic is told.
use std::{cell::RefCell, fmt, panic};

#[derive(Debug, Clone, PartialEq)]
pub enum Refusal {
    /// The crate's own error: its number and the byte that it carries.
    Crate(u8, Option<u8>),
    /// The crate's own error that has no number: its name.
    Unnumbered(&'static str),
    /// Message 2 was declined, with these bytes.
    Declined(Vec<u8>),
    /// The crate has no such refusal; this program keeps the rule.
    Harness(u8, Option<u8>),
    /// The crate did not return.
    Panic(String),
}

impl fmt::Display for Refusal {
    fn fmt(&self, f: &mut fmt::Formatter<'_>) -> fmt::Result {
        match self {
            Refusal::Crate(n, None) => write!(f, "refused {n}"),
            Refusal::Crate(n, Some(v)) => write!(f, "refused {n} {v}"),
            Refusal::Unnumbered(name) => write!(f, "error {name}"),
            Refusal::Declined(_) => write!(f, "refused 31"),
            Refusal::Harness(n, None) => write!(f, "harness {n}"),
            Refusal::Harness(n, Some(v)) => write!(f, "harness {n} {v}"),
            Refusal::Panic(text) => write!(f, "panic {text}"),
        }
    }
}

thread_local! { static LAST: RefCell<String> = const { RefCell::new(String::new()) }; }

/// From here on a panic prints nothing, and its place and message are kept for the answer.
pub fn keep_panics() {
    panic::set_hook(Box::new(|info| {
        let place = info.location().map_or(String::new(), |l| {
            let file = l.file().rsplit('/').next().unwrap_or("");
            format!("{file}:{} ", l.line())
        });
        let text = match info.payload().downcast_ref::<&str>() {
            Some(s) => s.to_string(),
            None => info.payload().downcast_ref::<String>().cloned().unwrap_or_default(),
        };
        LAST.with(|l| *l.borrow_mut() = format!("{place}{}", text.replace('\n', " ")));
    }));
}

/// The answer of a call, or the panic that took its place.
pub fn caught<T>(call: impl FnOnce() -> Result<T, Refusal>) -> Result<T, Refusal> {
    panic::catch_unwind(panic::AssertUnwindSafe(call))
        .unwrap_or_else(|_| Err(Refusal::Panic(LAST.with(|l| l.borrow().clone()))))
}
