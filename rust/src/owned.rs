//! Objects as a program gives them, and gets them back.

use crate::Refused;
use std::error::Error;
use std::fmt;
use std::ops::Deref;
use std::sync::Arc;

/// An object that is to be inserted: one of the program's, in a box or shared. A value becomes one
/// in a box.
#[derive(Debug)]
pub enum Owned<V> {
    /// The cache's alone.
    Box(Box<V>),
    /// Shared with the program; the cache drops its share.
    Arc(Arc<V>),
}

impl<V> Owned<V> {
    /// Shared, where it lies; what was in a box moves.
    pub fn into_arc(self) -> Arc<V> {
        match self {
            Owned::Box(it) => it.into(),
            Owned::Arc(it) => it,
        }
    }
}

impl<V> Deref for Owned<V> {
    type Target = V;

    fn deref(&self) -> &V {
        match self {
            Owned::Box(it) => it,
            Owned::Arc(it) => it,
        }
    }
}

impl<V> From<V> for Owned<V> {
    fn from(it: V) -> Owned<V> {
        Owned::Box(Box::new(it))
    }
}

impl<V> From<Box<V>> for Owned<V> {
    fn from(it: Box<V>) -> Owned<V> {
        Owned::Box(it)
    }
}

impl<V> From<Arc<V>> for Owned<V> {
    fn from(it: Arc<V>) -> Owned<V> {
        Owned::Arc(it)
    }
}

/// An insertion that was refused, with what was to be inserted.
pub struct Rejected<T> {
    /// Why it was refused.
    pub why: Refused,
    /// What wasn't inserted.
    pub object: T,
}

impl<T> fmt::Debug for Rejected<T> {
    fn fmt(&self, out: &mut fmt::Formatter<'_>) -> fmt::Result {
        out.debug_struct("Rejected")
            .field("why", &self.why)
            .finish_non_exhaustive()
    }
}

impl<T> fmt::Display for Rejected<T> {
    fn fmt(&self, out: &mut fmt::Formatter<'_>) -> fmt::Result {
        self.why.fmt(out)
    }
}

impl<T> Error for Rejected<T> {
    fn source(&self) -> Option<&(dyn Error + 'static)> {
        Some(&self.why)
    }
}
