//! The given Rust, asked. It runs as it was given; a panic is heard like any other answer.
pub mod api_versions;
pub mod fetch;
pub mod frames;
pub mod metadata;
pub mod primitives;

use crate::token::Token;
use std::cell::Cell;
use std::panic::{catch_unwind, set_hook, take_hook, AssertUnwindSafe};
use std::sync::Once;

#[derive(Debug, Clone, PartialEq, Eq)]
pub enum Heard<T> {
    Gave(T),
    Refused,
    Panicked(String),
}

/// The value, spelled, and the bytes used.
pub type Read = Heard<(Vec<Token<'static>>, usize)>;

/// The bytes written.
pub type Written = Heard<Vec<u8>>;

/// Why the Rust is not asked.
#[derive(Debug, Clone, Copy, PartialEq, Eq)]
pub enum Silence {
    /// Its types cannot hold the value.
    CannotHold,
    /// It has no such isolation level.
    NoSuchLevel,
    /// It would compare the rules with a stand-in of ours, or it would take too long.
    NotCompared,
}

thread_local! {
    static LISTENING: Cell<bool> = const { Cell::new(false) };
}

/// Asks, and keeps panics off standard error meanwhile. A panic outside is shown as ever.
pub fn listen<T, E>(ask: impl FnOnce() -> Result<T, E>) -> Heard<T> {
    static QUIET: Once = Once::new();
    QUIET.call_once(|| {
        let usual = take_hook();
        set_hook(Box::new(move |info| {
            if !LISTENING.get() {
                usual(info)
            }
        }));
    });
    LISTENING.set(true);
    let heard = catch_unwind(AssertUnwindSafe(ask));
    LISTENING.set(false);
    match heard {
        Ok(Ok(value)) => Heard::Gave(value),
        Ok(Err(_)) => Heard::Refused,
        Err(panic) => {
            let text = panic.downcast_ref::<&str>().map(|s| s.to_string());
            Heard::Panicked(text.or_else(|| panic.downcast_ref::<String>().cloned()).unwrap_or_default())
        }
    }
}
