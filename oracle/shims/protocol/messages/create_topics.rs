//! forced: messages/mod.rs names this module. Its message is outside the base, so there is nothing in it.
