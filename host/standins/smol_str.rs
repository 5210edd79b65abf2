//! Stands in for smol_str: a text, in place up to 22 bytes and else shared, as there; it also has the number of its making, by which
//! bindings of all scopes can be put in order. Where times are taken (--cfg timed) it has none, and so the size that it has there.
use std::borrow::Borrow;
use std::cell::Cell;
use std::fmt;
use std::ops::Deref;
use std::sync::Arc;

thread_local!(static MADE: Cell<u64> = const { Cell::new(0) });

const SHORT: usize = 22;

#[derive(Clone)]
enum Text {
    Short(u8, [u8; SHORT]),
    Long(Arc<str>),
}

pub struct SmolStr {
    text: Text,
    made: Made,
}

#[cfg(not(timed))]
type Made = u64;
#[cfg(timed)]
type Made = ();

#[cfg(not(timed))]
fn number() -> Made {
    let made = MADE.get();
    MADE.set(made + 1);
    made
}

#[cfg(timed)]
fn number() -> Made {}

impl SmolStr {
    pub fn new(text: impl AsRef<str>) -> Self {
        let text = text.as_ref();
        if text.len() > SHORT {
            return Self { text: Text::Long(text.into()), made: number() };
        }
        let mut bytes = [0; SHORT];
        bytes[..text.len()].copy_from_slice(text.as_bytes());
        Self { text: Text::Short(text.len() as u8, bytes), made: number() }
    }

    pub fn as_str(&self) -> &str {
        match &self.text {
            // Safety: the bytes are those of a text.
            Text::Short(length, bytes) => unsafe { std::str::from_utf8_unchecked(&bytes[..*length as usize]) },
            Text::Long(text) => text,
        }
    }

    pub fn made(&self) -> Made {
        self.made
    }
}

impl Clone for SmolStr {
    fn clone(&self) -> Self {
        Self { text: self.text.clone(), made: number() }
    }
}

impl fmt::Debug for SmolStr {
    fn fmt(&self, f: &mut fmt::Formatter<'_>) -> fmt::Result {
        fmt::Debug::fmt(self.as_str(), f)
    }
}

impl Deref for SmolStr {
    type Target = str;
    fn deref(&self) -> &str {
        self.as_str()
    }
}

impl Borrow<str> for SmolStr {
    fn borrow(&self) -> &str {
        self.as_str()
    }
}

impl PartialEq for SmolStr {
    fn eq(&self, other: &Self) -> bool {
        self.as_str() == other.as_str()
    }
}

impl Eq for SmolStr {}

impl PartialEq<str> for SmolStr {
    fn eq(&self, other: &str) -> bool {
        self.as_str() == other
    }
}

impl PartialEq<&str> for SmolStr {
    fn eq(&self, other: &&str) -> bool {
        self.as_str() == *other
    }
}

impl std::hash::Hash for SmolStr {
    fn hash<H: std::hash::Hasher>(&self, state: &mut H) {
        self.as_str().hash(state);
    }
}

impl fmt::Display for SmolStr {
    fn fmt(&self, f: &mut fmt::Formatter<'_>) -> fmt::Result {
        f.write_str(self.as_str())
    }
}
