//! Caches that are saved and loaded, by `ferretgold_file.h`.

use crate::{raw, Cache, Client, Closed, Config, Refused};
use std::any::Any;
use std::error::Error;
use std::ffi::{c_void, CStr, CString};
use std::fmt;
use std::io::{self, ErrorKind, Read, Write};
use std::os::unix::ffi::OsStrExt;
use std::panic::{catch_unwind, resume_unwind, AssertUnwindSafe};
use std::path::Path;
use std::ptr::{null_mut, NonNull};
use std::slice;

/// Why a cache wasn't saved or loaded.
#[derive(Debug)]
#[non_exhaustive]
pub enum FileError {
    /// Writing failed.
    Write(io::Error),
    /// Reading failed.
    Read(io::Error),
    /// It is no file of a cache.
    Kind,
    /// The file has a version that the library doesn't know.
    Version,
    /// The file is cut off, too long, or changed.
    Damaged,
    /// The configuration was refused, or no seed could be drawn for it.
    Refused(Refused),
    /// Memory was refused.
    Memory,
    /// No client or no handle was to be had to walk over a cache.
    Busy,
}

/// What came of loading a file.
#[repr(C)]
#[derive(Clone, Copy, Debug, Default, PartialEq, Eq)]
pub struct Loaded {
    /// The entries that the file has, up to its damage.
    pub entries: u64,
    /// Those that are in the cache.
    pub left: u64,
    /// The others: there was no room, or a later entry of the key.
    pub lost: u64,
}

impl Closed {
    /// Saves what look-ups could find, and flushes the writer: a [`std::io::BufWriter`], say, as each entry
    /// is written by itself. [`Cache::load`] begins with it. Only for keys that name content which never
    /// changes.
    ///
    /// ```
    /// # use ferretgold::{Cache, Config, FileError, Got, Key, Priority};
    /// # fn main() -> Result<(), FileError> {
    /// # let config = Config { slots: 64, ..Config::default() };
    /// # let (key, mut block) = (Key { w0: 7, w1: 1 }, [0; 4096]);
    /// let cache = Cache::open(&config).map_err(FileError::Refused)?;
    /// cache.client().unwrap().insert(key, b"a block", 7, Priority::Low).unwrap();
    /// let mut file = Vec::new();
    /// cache.close_keeping().unwrap().save(&mut file)?;
    ///
    /// let (warm, loaded) = Cache::load(&config, &mut &file[..])?;
    /// assert_eq!((loaded.entries, loaded.left), (1, 1));
    /// assert_eq!(warm.client().unwrap().get(key, &mut block, true), Got::Value(7));
    ///
    /// file.pop();
    /// assert!(matches!(Cache::load(&config, &mut &file[..]), Err(FileError::Damaged)));
    /// # Ok(())
    /// # }
    /// ```
    pub fn save<W: Write + ?Sized>(&self, to: &mut W) -> Result<(), FileError> {
        let mut called = Called::of(to);
        let context = (&mut called as *mut Called<'_, W>).cast();
        let status = unsafe { raw::ferretgold_save(self.at.as_ptr(), write::<W>, context) };
        let failed = called.ended();
        match status {
            OK => to.flush().map_err(FileError::Write),
            _ => Err(error_of(status, failed, Refused::NULL)),
        }
    }
}

impl Client<'_> {
    /// Saves what the cache has to a file at `path`, whole or not at all, while other threads work with
    /// it, and says how many entries that are. [`Cache::load`] begins with it. A dump is no picture of
    /// one moment, and is only for keys that name content which never changes.
    pub fn dump(&self, path: &Path) -> Result<u64, FileError> {
        let (path, mut saved) = (in_c(path).map_err(FileError::Write)?, 0);
        match unsafe { raw::ferretgold_dump(self.raw(), path.as_ptr(), &mut saved) } {
            OK => Ok(saved),
            status => Err(error_of(status, None, Refused::NULL)),
        }
    }
}

/// A path as C has it.
pub(crate) fn in_c(path: &Path) -> io::Result<CString> {
    Ok(CString::new(path.as_os_str().as_bytes())?)
}

impl Cache {
    /// Opens a cache that begins with what [`Closed::save`] or [`Client::dump`] wrote: each entry once, with
    /// its key, its value, its charge and its uses. Where they are too many, those of most uses come in, and
    /// of one key the last (`ferretgold_file.h` says it exactly). While it loads it takes at most twice
    /// [`Config::memory`] and 64 KiB, with one shard three times. The reader is read to its end: a
    /// [`std::io::BufReader`], say, as each entry is read by itself.
    pub fn load<R: Read + ?Sized>(
        config: &Config,
        from: &mut R,
    ) -> Result<(Cache, Loaded), FileError> {
        load(config, from, false).map(|(cache, loaded, _)| (cache, loaded))
    }

    /// The same, and of a file that is damaged what stands before the damage. Says last whether it was
    /// whole.
    pub fn load_front<R: Read + ?Sized>(
        config: &Config,
        from: &mut R,
    ) -> Result<(Cache, Loaded, bool), FileError> {
        load(config, from, true)
    }
}

fn load<R: Read + ?Sized>(
    config: &Config,
    from: &mut R,
    keep_front: bool,
) -> Result<(Cache, Loaded, bool), FileError> {
    let (mut called, mut at, mut loaded) = (Called::of(from), null_mut(), Loaded::default());
    let (raw, context) = (config.raw(), (&mut called as *mut Called<'_, R>).cast());
    let status =
        unsafe { raw::ferretgold_load(&raw, read::<R>, context, keep_front, &mut at, &mut loaded) };
    let failed = called.ended();
    match NonNull::new(at) {
        Some(at) => Ok((Cache { at }, loaded, status == OK)),
        None => {
            let refused = config.check().err().unwrap_or(Refused::NO_SEED);
            Err(error_of(status, failed, refused))
        }
    }
}

// ---- Calls from C --------------------------------------------------------------------------------

/// A writer or a reader while C calls it. How it failed, and what it panicked with, wait until C has
/// returned: nothing unwinds through C.
pub(crate) struct Called<'a, T: ?Sized> {
    it: &'a mut T,
    failed: Option<io::Error>,
    panicked: Option<Box<dyn Any + Send>>,
}

impl<'a, T: ?Sized> Called<'a, T> {
    pub(crate) fn of(it: &'a mut T) -> Called<'a, T> {
        Called {
            it,
            failed: None,
            panicked: None,
        }
    }

    /// What a call of it came to, if it came to its end. None is made behind one that panicked.
    pub(crate) fn by<D>(&mut self, call: impl FnOnce(&mut T) -> io::Result<D>) -> Option<D> {
        if self.panicked.is_some() {
            return None;
        }
        let it = &mut *self.it;
        match catch_unwind(AssertUnwindSafe(|| call(it))) {
            Ok(Ok(done)) => return Some(done),
            Ok(Err(why)) => self.failed = Some(why),
            Err(why) => self.panicked = Some(why),
        }
        None
    }

    /// How it failed; a panic goes on.
    pub(crate) fn ended(self) -> Option<io::Error> {
        if let Some(why) = self.panicked {
            resume_unwind(why);
        }
        self.failed
    }
}

unsafe extern "C" fn write<W: Write + ?Sized>(
    context: *mut c_void,
    bytes: *const c_void,
    count: usize,
) -> bool {
    let called = &mut *context.cast::<Called<'_, W>>();
    let bytes = slice::from_raw_parts(bytes.cast::<u8>(), count);
    called.by(|to| to.write_all(bytes)).is_some()
}

unsafe extern "C" fn read<R: Read + ?Sized>(
    context: *mut c_void,
    bytes: *mut c_void,
    count: usize,
    could: *mut bool,
) -> usize {
    let called = &mut *context.cast::<Called<'_, R>>();
    // No reader sees what C had there.
    bytes.cast::<u8>().write_bytes(0, count);
    let bytes = slice::from_raw_parts_mut(bytes.cast::<u8>(), count);
    let has = called.by(|from| fill(from, bytes));
    *could = has.is_some();
    has.unwrap_or(0)
}

/// Reads as many bytes as there is room for, and fewer only at the end: how many.
fn fill<R: Read + ?Sized>(from: &mut R, bytes: &mut [u8]) -> io::Result<usize> {
    let mut has = 0;
    while has < bytes.len() {
        match from.read(&mut bytes[has..]) {
            Ok(0) => break,
            Ok(count) => has += count,
            Err(why) if why.kind() == ErrorKind::Interrupted => {}
            Err(why) => return Err(why),
        }
    }
    Ok(has)
}

// ---- Refusals ------------------------------------------------------------------------------------

pub(crate) const OK: u32 = 0;
const WRITE: u32 = 2;
const READ: u32 = 3;
const KIND: u32 = 4;
const VERSION: u32 = 5;
const DAMAGED: u32 = 6;
const REFUSED: u32 = 7;
const MEMORY: u32 = 8;
const BUSY: u32 = 9;

/// What a status says, with how a writer or a reader failed, or why the configuration was refused.
pub(crate) fn error_of(status: u32, failed: Option<io::Error>, refused: Refused) -> FileError {
    let failed = failed.unwrap_or_else(|| ErrorKind::Other.into());
    match status {
        WRITE => FileError::Write(failed),
        READ => FileError::Read(failed),
        KIND => FileError::Kind,
        VERSION => FileError::Version,
        DAMAGED => FileError::Damaged,
        MEMORY => FileError::Memory,
        BUSY => FileError::Busy,
        _ => FileError::Refused(refused),
    }
}

impl fmt::Display for FileError {
    fn fmt(&self, out: &mut fmt::Formatter<'_>) -> fmt::Result {
        let status = match self {
            FileError::Write(_) => WRITE,
            FileError::Read(_) => READ,
            FileError::Kind => KIND,
            FileError::Version => VERSION,
            FileError::Damaged => DAMAGED,
            FileError::Refused(_) => REFUSED,
            FileError::Memory => MEMORY,
            FileError::Busy => BUSY,
        };
        let text = unsafe { CStr::from_ptr(raw::ferretgold_file_status_text(status)) };
        out.write_str(text.to_str().unwrap_or("unknown"))
    }
}

impl Error for FileError {
    fn source(&self) -> Option<&(dyn Error + 'static)> {
        match self {
            FileError::Write(why) | FileError::Read(why) => Some(why),
            FileError::Refused(why) => Some(why),
            _ => None,
        }
    }
}
