//! Stand-in for `anyhow`: what `ynv.rs` and `resource.rs` use of it.
//! An error is the chain of its messages, outermost first.

use std::fmt;

pub struct Error {
    chain: Vec<String>,
}

pub type Result<T, E = Error> = std::result::Result<T, E>;

impl Error {
    pub fn msg(text: impl fmt::Display) -> Error {
        Error { chain: vec![text.to_string()] }
    }

    fn wrap(mut self, text: String) -> Error {
        self.chain.insert(0, text);
        self
    }
}

impl fmt::Display for Error {
    /// `{}` gives the outermost message, `{:#}` the whole chain.
    fn fmt(&self, f: &mut fmt::Formatter<'_>) -> fmt::Result {
        if f.alternate() {
            f.write_str(&self.chain.join(": "))
        } else {
            f.write_str(&self.chain[0])
        }
    }
}

impl fmt::Debug for Error {
    fn fmt(&self, f: &mut fmt::Formatter<'_>) -> fmt::Result {
        f.write_str(&self.chain.join(": "))
    }
}

pub trait Context<T> {
    fn context<C: fmt::Display>(self, text: C) -> Result<T>;
    fn with_context<C: fmt::Display, F: FnOnce() -> C>(self, text: F) -> Result<T>;
}

impl<T> Context<T> for Option<T> {
    fn context<C: fmt::Display>(self, text: C) -> Result<T> {
        self.ok_or_else(|| Error::msg(text))
    }
    fn with_context<C: fmt::Display, F: FnOnce() -> C>(self, text: F) -> Result<T> {
        self.ok_or_else(|| Error::msg(text()))
    }
}

impl<T> Context<T> for Result<T> {
    fn context<C: fmt::Display>(self, text: C) -> Result<T> {
        self.map_err(|e| e.wrap(text.to_string()))
    }
    fn with_context<C: fmt::Display, F: FnOnce() -> C>(self, text: F) -> Result<T> {
        self.map_err(|e| e.wrap(text().to_string()))
    }
}

#[macro_export]
macro_rules! bail {
    ($($text:tt)*) => {
        return Err($crate::Error::msg(format!($($text)*)))
    };
}
