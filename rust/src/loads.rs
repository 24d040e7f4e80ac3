//! Objects that are being loaded: of each key by one thread, for which others wait.

use crate::Pinned;
use std::borrow::Borrow;
use std::collections::HashMap;
use std::error::Error;
use std::fmt;
use std::hash::Hash;
use std::mem::forget;
use std::sync::{Arc, Condvar, Mutex, MutexGuard, PoisonError};
use std::thread::{self, ThreadId};

/// Why an object wasn't loaded.
#[derive(Clone, Copy, Debug, PartialEq, Eq)]
pub enum LoadError<E> {
    /// Its loader failed.
    Failed(E),
    /// The thread loads an object of this key already; or the thread that does waits for it, by
    /// whatever others.
    OwnKey,
}

impl<E: fmt::Display> fmt::Display for LoadError<E> {
    fn fmt(&self, out: &mut fmt::Formatter<'_>) -> fmt::Result {
        match self {
            LoadError::Failed(why) => why.fmt(out),
            LoadError::OwnKey => out.write_str("a loader waits for itself"),
        }
    }
}

impl<E: Error + 'static> Error for LoadError<E> {
    fn source(&self) -> Option<&(dyn Error + 'static)> {
        match self {
            LoadError::Failed(why) => Some(why),
            LoadError::OwnKey => None,
        }
    }
}

pub(crate) struct Loads<K, V> {
    table: Mutex<Table<K, V>>,
}

struct Table<K, V> {
    loads: HashMap<K, Load<V>>,
    /// For which key a thread waits.
    waits: HashMap<ThreadId, K>,
}

/// It is in the table while a thread loads or, after that failed, one waits.
struct Load<V> {
    /// None once it failed: who waits loads next.
    loader: Option<ThreadId>,
    waiting: usize,
    end: Arc<End<V>>,
}

/// What those have who wait, also when others load anew.
struct End<V> {
    changed: Condvar,
    loaded: Mutex<Option<Pinned<V>>>,
}

impl<K: Hash + Eq, V> Loads<K, V> {
    pub fn new() -> Loads<K, V> {
        let (loads, waits) = (HashMap::new(), HashMap::new());
        Loads {
            table: Mutex::new(Table { loads, waits }),
        }
    }

    /// What a look-up finds; else what is loaded, by this thread or by the one for which it waits.
    pub fn get_or<Q, E>(
        &self,
        key: &Q,
        lookup: impl Fn() -> Option<Pinned<V>>,
        load: impl FnOnce() -> Result<Pinned<V>, E>,
    ) -> Result<Pinned<V>, LoadError<E>>
    where
        K: Borrow<Q>,
        Q: Hash + Eq + ToOwned<Owned = K> + ?Sized,
    {
        if let Some(found) = lookup() {
            return Ok(found);
        }
        match self.turn(key) {
            Turn::Waited(pinned) => Ok(pinned),
            Turn::OwnKey => Err(LoadError::OwnKey),
            Turn::Mine(turn) => {
                // Another thread may have loaded it since.
                let pinned = match lookup() {
                    Some(found) => found,
                    None => load().map_err(LoadError::Failed)?,
                };
                turn.ends_with(&pinned);
                Ok(pinned)
            }
        }
    }

    /// Waits until this thread may load, or another one has.
    fn turn<'a, Q>(&'a self, key: &'a Q) -> Turn<'a, K, Q, V>
    where
        K: Borrow<Q>,
        Q: Hash + Eq + ToOwned<Owned = K> + ?Sized,
    {
        let (me, own) = (thread::current().id(), key.to_owned());
        let mut table = locked(&self.table);
        if !table.loads.contains_key(key) {
            table.loads.insert(own, Load::by(me));
            return Turn::Mine(Mine { loads: self, key });
        }
        if table.is_awaited(key, me) {
            return Turn::OwnKey;
        }
        table.waits.insert(me, own);
        table.load(key).waiting += 1;
        let end = Arc::clone(&table.load(key).end);
        loop {
            let loaded = locked(&end.loaded).as_ref().map(Pinned::shared);
            if let Some(pinned) = loaded {
                drop(table); // before `end`, which may give an object back
                return Turn::Waited(pinned);
            }
            if table.load(key).loader.is_none() {
                break;
            }
            table = end
                .changed
                .wait(table)
                .unwrap_or_else(PoisonError::into_inner);
        }
        let load = table.load(key);
        (load.loader, load.waiting) = (Some(me), load.waiting - 1);
        table.waits.remove(&me);
        Turn::Mine(Mine { loads: self, key })
    }
}

fn locked<T>(it: &Mutex<T>) -> MutexGuard<'_, T> {
    it.lock().unwrap_or_else(PoisonError::into_inner)
}

impl<K: Hash + Eq, V> Table<K, V> {
    fn load<Q: Hash + Eq + ?Sized>(&mut self, key: &Q) -> &mut Load<V>
    where
        K: Borrow<Q>,
    {
        self.loads
            .get_mut(key)
            .expect("a load of a thread or for one")
    }

    /// Whether who loads this is a thread, or waits for one that is, and so on.
    fn is_awaited<Q: Hash + Eq + ?Sized>(&self, key: &Q, thread: ThreadId) -> bool
    where
        K: Borrow<Q>,
    {
        let mut next = self.loads.get(key);
        while let Some(loader) = next.and_then(|it| it.loader) {
            if loader == thread {
                return true;
            }
            let awaited = self.waits.get(&loader);
            next = awaited.and_then(|its| self.loads.get(its.borrow()));
        }
        false
    }
}

impl<V> Load<V> {
    fn by(thread: ThreadId) -> Load<V> {
        let (changed, loaded) = (Condvar::new(), Mutex::new(None));
        Load {
            loader: Some(thread),
            waiting: 0,
            end: Arc::new(End { changed, loaded }),
        }
    }
}

// ---- A thread's turn ----------------------------------------------------------------------------

enum Turn<'a, K: Hash + Eq + Borrow<Q>, Q: Hash + Eq + ?Sized, V> {
    Mine(Mine<'a, K, Q, V>),
    Waited(Pinned<V>),
    OwnKey,
}

/// The turn to load. If it ends with nothing, one who waits is next.
struct Mine<'a, K: Hash + Eq + Borrow<Q>, Q: Hash + Eq + ?Sized, V> {
    loads: &'a Loads<K, V>,
    key: &'a Q,
}

impl<K: Hash + Eq + Borrow<Q>, Q: Hash + Eq + ?Sized, V> Mine<'_, K, Q, V> {
    fn ends_with(self, pinned: &Pinned<V>) {
        self.ends(Some(pinned));
        forget(self);
    }

    /// What those who wait get, if anything.
    fn ends(&self, pinned: Option<&Pinned<V>>) {
        let mut table = locked(&self.loads.table);
        let load = table.load(self.key);
        let end = Arc::clone(&load.end);
        if load.waiting > 0 && pinned.is_none() {
            load.loader = None;
            end.changed.notify_one();
            return;
        }
        if load.waiting > 0 {
            *locked(&end.loaded) = pinned.map(Pinned::shared);
            table.waits.retain(|_, key| (*key).borrow() != self.key);
            end.changed.notify_all();
        }
        table.loads.remove(self.key);
    }
}

impl<K: Hash + Eq + Borrow<Q>, Q: Hash + Eq + ?Sized, V> Drop for Mine<'_, K, Q, V> {
    fn drop(&mut self) {
        self.ends(None);
    }
}
