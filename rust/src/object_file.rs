//! Caches of objects that are dumped to a path while they run, and that start warm from there, by
//! `ferretgold_file.h`.

#![deny(unsafe_op_in_unsafe_fn)]

use crate::file::{error_of, in_c, Called, FileError, Loaded, OK};
use crate::{panics, raw, Inserted, Objects, Owned, Priority, Refused};
use std::ffi::c_void;
use std::path::Path;
use std::ptr;
use std::slice;

impl<V: Send + Sync> Objects<V> {
    /// Saves what it has to a file at `path`, whole or not at all, while other threads work with it, and
    /// says how many entries that are. `bytes` shows an object's bytes. A dump is no picture of one
    /// moment, and is only for keys that name content which never changes.
    ///
    /// ```no_run
    /// # use ferretgold::{FileError, Objects};
    /// # fn main() -> Result<(), FileError> {
    /// # let (cache, path): (Objects<Vec<u8>>, &std::path::Path) = todo!();
    /// cache.dump(path, |block| block)?;
    /// // And when the program begins anew:
    /// cache.warm(path, |block| Some(block.to_vec()))?;
    /// # Ok(())
    /// # }
    /// ```
    pub fn dump<F>(&self, path: &Path, mut bytes: F) -> Result<u64, FileError>
    where
        F: FnMut(&V) -> &[u8],
    {
        let path = in_c(path).map_err(FileError::Write)?;
        let (mut called, mut saved) = (Called::of(&mut bytes), 0);
        // SAFETY: the functions cast the context to what it is, which nobody else uses meanwhile.
        let status = unsafe {
            raw::ferretgold_object_dump(
                self.raw(),
                size::<V, F>,
                copy::<V, F>,
                ptr::from_mut(&mut called).cast(),
                path.as_ptr(),
                &mut saved,
            )
        };
        panics::go_on();
        match (status, called.ended()) {
            (OK, _) => Ok(saved),
            (_, failed) => Err(error_of(status, failed, Refused::NULL)),
        }
    }

    /// Inserts what [`Objects::dump`] saved at `path`, whole or not at all: `make` makes the object of
    /// each entry of its bytes, or leaves it out. Of one key the last comes in. Where `make` panics, those
    /// before are in the cache.
    pub fn warm<F, O>(&self, path: &Path, make: F) -> Result<Loaded, FileError>
    where
        F: FnMut(&[u8]) -> Option<O>,
        O: Into<Owned<V>>,
    {
        let path = in_c(path).map_err(FileError::Read)?;
        let (mut loaded, mut making) = (Loaded::default(), Making { to: self, make });
        let mut called = Called::of(&mut making);
        // SAFETY: the function casts the context to what it is, which nobody else uses meanwhile.
        let status = unsafe {
            let context = ptr::from_mut(&mut called).cast();
            let insert = insert::<V, F, O>;
            raw::ferretgold_object_warm(self.raw(), path.as_ptr(), insert, context, &mut loaded)
        };
        panics::go_on();
        match (status, called.ended()) {
            (OK, _) => Ok(loaded),
            (_, failed) => Err(error_of(status, failed, Refused::NULL)),
        }
    }
}

/// Where objects go, and how they are made.
struct Making<'a, V, F> {
    to: &'a Objects<V>,
    make: F,
}

/// How many bytes an object has. Once the function panicked one, which can't be copied: that ends the
/// dump.
///
/// # Safety
/// The context is a [`Called`] of such a function, and the handle shows an object of this type.
unsafe extern "C" fn size<V, F>(context: *mut c_void, handle: *const raw::ObjectHandle) -> u64
where
    F: FnMut(&V) -> &[u8],
{
    // SAFETY: the caller says so.
    let (called, object) =
        unsafe { (&mut *context.cast::<Called<F>>(), &*(*handle).object.cast()) };
    called
        .by(|bytes| Ok(bytes(object).len() as u64))
        .unwrap_or(1)
}

/// # Safety
/// As of [`size`]; there is room for so many bytes.
unsafe extern "C" fn copy<V, F>(
    context: *mut c_void,
    handle: *const raw::ObjectHandle,
    offset: u64,
    to: *mut c_void,
    count: usize,
) -> bool
where
    F: FnMut(&V) -> &[u8],
{
    // SAFETY: the caller says so.
    let (called, object) =
        unsafe { (&mut *context.cast::<Called<F>>(), &*(*handle).object.cast()) };
    let copied = called.by(|bytes| {
        let from = &bytes(object)[offset as usize..][..count];
        // SAFETY: there is room.
        unsafe {
            to.cast::<u8>()
                .copy_from_nonoverlapping(from.as_ptr(), count)
        };
        Ok(())
    });
    copied.is_some()
}

/// # Safety
/// The context is a [`Called`] of such a [`Making`], and the entry's bytes are there.
unsafe extern "C" fn insert<V, F, O>(context: *mut c_void, saved: *const raw::ObjectSaved) -> bool
where
    V: Send + Sync,
    F: FnMut(&[u8]) -> Option<O>,
    O: Into<Owned<V>>,
{
    // SAFETY: the caller says so.
    let (called, saved) = unsafe { (&mut *context.cast::<Called<Making<V, F>>>(), &*saved) };
    let bytes = match saved.length {
        0 => &[],
        // SAFETY: the caller says so.
        length => unsafe { slice::from_raw_parts(saved.bytes.cast::<u8>(), length) },
    };
    let placed = called.by(|it| {
        let Some(object) = (it.make)(bytes) else {
            return Ok(false);
        };
        let (key, charge) = (saved.key.into(), saved.charge);
        let came = it
            .to
            .insert_with_priority(&key, object, charge, Priority::Low);
        Ok(matches!(came, Ok(Inserted::Placed)))
    });
    placed == Some(true)
}
