//! The tracing macros, silent.

/// Takes an event and does nothing.
#[macro_export]
macro_rules! event {
    ($($any:tt)*) => {};
}
/// Takes an error event and does nothing.
#[macro_export]
macro_rules! error {
    ($($any:tt)*) => {};
}
/// Takes a debug event and does nothing.
#[macro_export]
macro_rules! debug {
    ($($any:tt)*) => {};
}
