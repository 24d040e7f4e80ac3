//! A handle: a reference on an entry.

use crate::refused::judged;
use crate::{raw, Client, Key, Part, Refused};
use std::ptr::null_mut;

/// A reference on an entry, which keeps its key and value for as long. It gives itself back when it
/// goes, as a use of the entry, unless [`Client::pin_at`] gave it.
#[derive(Debug)]
pub struct Handle<'c> {
    client: &'c Client<'c>,
    held: raw::Handle,
    useful: bool,
}

impl<'c> Handle<'c> {
    pub(crate) fn of(client: &'c Client<'_>, held: raw::Handle, useful: bool) -> Handle<'c> {
        Handle {
            client,
            held,
            useful,
        }
    }

    pub(crate) fn raw(&self) -> raw::Handle {
        self.held
    }

    /// One handle more on the same entry.
    ///
    /// ```
    /// # use ferretgold::{Cache, Config, Key, Priority};
    /// # let cache = Cache::open(&Config::default()).unwrap();
    /// # let client = cache.client().unwrap();
    /// # let key = Key { w0: 7, w1: 1 };
    /// let (_, one) = client.insert_pinned(key, b"a block", 7, Priority::Low).unwrap();
    /// let other = one.reref().unwrap();
    /// drop(one);
    /// assert_eq!((other.key(), other.to_vec()), (key, b"a block".to_vec()));
    /// assert_eq!(client.held(), 1);
    /// ```
    pub fn reref(&self) -> Result<Handle<'c>, Refused> {
        let mut more = raw::Handle::default();
        judged(unsafe { raw::ferretgold_reref(self.client.raw(), self.held, &mut more) })?;
        Ok(Handle::of(self.client, more, true))
    }

    /// The key of the entry.
    pub fn key(&self) -> Key {
        let mut key = Key::default();
        let status = unsafe { raw::ferretgold_handle_key(self.client.raw(), self.held, &mut key) };
        debug_assert_eq!(status, 0);
        key
    }

    /// How many bytes the value has.
    pub fn len(&self) -> usize {
        let mut length = 0;
        let status =
            unsafe { raw::ferretgold_value_len(self.client.raw(), self.held, &mut length) };
        debug_assert_eq!(status, 0);
        length
    }

    /// Whether the value has no byte.
    pub fn is_empty(&self) -> bool {
        self.len() == 0
    }

    /// Copies the value to the front of the buffer, and says how many bytes it has.
    pub fn read(&self, buffer: &mut [u8]) -> Result<usize, Refused> {
        let (at, room, mut length) = (buffer.as_mut_ptr().cast(), buffer.len(), 0);
        let client = self.client.raw();
        judged(unsafe { raw::ferretgold_read_value(client, self.held, at, room, &mut length) })?;
        Ok(length)
    }

    /// Copies bytes from an offset on to the front of the buffer: as many as there are, and as it has
    /// room for.
    pub fn read_part(&self, offset: usize, buffer: &mut [u8]) -> Part {
        let (at, room, mut part) = (buffer.as_mut_ptr().cast(), buffer.len(), Part::default());
        let client = self.client.raw();
        let status =
            unsafe { raw::ferretgold_read_part(client, self.held, offset, at, room, &mut part) };
        debug_assert_eq!(status, 0);
        part
    }

    /// A copy of the value.
    pub fn to_vec(&self) -> Vec<u8> {
        let mut bytes = vec![0; self.len()];
        let read = self.read(&mut bytes);
        debug_assert_eq!(read, Ok(bytes.len()));
        bytes
    }

    /// Gives the handle back: as a use of its entry if `useful`. If it was the last one, and the entry
    /// was erased or `erase_if_last` is set, one try is made to free the entry. Says whether this
    /// freed an entry.
    pub fn release(self, useful: bool, erase_if_last: bool) -> bool {
        let mut freed = false;
        self.give_back(useful, erase_if_last, &mut freed);
        std::mem::forget(self);
        freed
    }

    fn give_back(&self, useful: bool, erase_if_last: bool, freed: *mut bool) {
        let client = self.client.raw();
        let status =
            unsafe { raw::ferretgold_release(client, self.held, useful, erase_if_last, freed) };
        debug_assert_eq!(status, 0);
    }
}

impl Drop for Handle<'_> {
    fn drop(&mut self) {
        self.give_back(self.useful, false, null_mut());
    }
}
