//! The library's functions, over slices and numbers. All calls of C stand here, and what the header
//! says is owed is paid here:
//!
//! - The words are all zero before their first call. They lie in a `Cell` that is never read, set
//!   or copied, so only the library writes them. They may move, since a call borrows them.
//! - `Words` isn't `Sync`, and no call runs code of Rust. So there is one call at a time.
//! - Each pointer and length are those of one slice, and an empty slice's pointer isn't null.
//! - What a call writes to is the words, a local variable or a slice that is borrowed alone. So
//!   nothing overlaps.
//! - `malloc`, `realloc` and `free` are the C library's, which Rust's standard library stands on.
//! - A signal handler, and the child of a process with threads, are only come by in unsafe code.
//!   The crate's page tells that such code may call nothing here.
//!
//! Each `SAFETY` below refers to this list.

use crate::error::{loaded, told, Result};
use crate::ffi;
use std::cell::Cell;
use std::ptr;

/// The two words that hold a hive. It is closed with them.
pub struct Words(Cell<ffi::HiveWords>);

// SAFETY: the header lets a hive pass from thread to thread where a lock, a start or a join orders
// that. Safe Rust has no other way for a value that isn't `Sync`.
unsafe impl Send for Words {}

/// A handle, which is of use to its session alone.
#[derive(Clone, Copy)]
pub struct Handle {
    pub session: u8,
    pub number: u64,
}

/// What the parts of one image have in common. `entries` tells that they are of one state.
pub struct Stamp {
    pub moment: u64,
    pub sequence: u32,
    pub entries: u64,
}

/// A change as `zug_cause` takes it.
pub struct Asked<'a> {
    pub change: u32,
    pub text: &'a [u8],
    pub number: u32,
    pub bytes: &'a [u8],
    pub subtree: bool,
}

/// What a question tells that fills a room. Type and size may be told with a status that isn't 0.
#[derive(Default)]
pub struct Answer {
    pub status: u32,
    pub kind: u32,
    pub size: u32,
}

impl Words {
    /// Panics where the library that was linked isn't the one that the declarations are for.
    fn empty() -> Words {
        let version = ffi::zug_version();
        let is_fitting = version / 10_000 == ffi::VERSION / 10_000 && version >= ffi::VERSION;
        assert!(
            is_fitting,
            "libzugmeled {version} was linked, and {} is needed",
            ffi::VERSION
        );
        Words(Cell::new(ffi::HiveWords {
            holds: 0,
            at: ptr::null_mut(),
        }))
    }

    pub fn new(root_name: &[u8], descriptor: &[u8], moment: u64) -> Result<Words> {
        let words = Words::empty();
        // SAFETY: by the list at the top.
        told(unsafe {
            ffi::zug_hive_new(
                words.at(),
                root_name.as_ptr(),
                root_name.len(),
                descriptor.as_ptr(),
                descriptor.len(),
                moment,
            )
        })?;
        Ok(words)
    }

    pub fn load(bytes: &[u8]) -> Result<Words> {
        let words = Words::empty();
        let mut fault = 0;
        // SAFETY: by the list at the top.
        let status =
            unsafe { ffi::zug_hive_load(words.at(), bytes.as_ptr(), bytes.len(), &mut fault) };
        loaded(status, fault)?;
        Ok(words)
    }

    /// How many entries there were, and how many of them are kept.
    pub fn entries(&self) -> Result<(u64, u64)> {
        let (mut entries, mut kept) = (0, 0);
        // SAFETY: by the list at the top.
        told(unsafe { ffi::zug_entries(self.at(), &mut entries, &mut kept) })?;
        Ok((entries, kept))
    }

    pub fn cut(&self) -> Result<u64> {
        let mut cut = 0;
        // SAFETY: by the list at the top.
        told(unsafe { ffi::zug_hive_cut(self.at(), &mut cut) })?;
        Ok(cut)
    }

    /// How many bytes the image has, and how many entries there were.
    pub fn image_size(&self) -> Result<(u64, u64)> {
        let (mut size, mut entries) = (0, 0);
        // SAFETY: by the list at the top.
        told(unsafe { ffi::zug_image_size(self.at(), &mut size, &mut entries) })?;
        Ok((size, entries))
    }

    pub fn image_part(&self, stamp: &Stamp, offset: u64, room: &mut [u8]) -> Result<()> {
        // SAFETY: by the list at the top.
        told(unsafe {
            ffi::zug_image_part(
                self.at(),
                stamp.moment,
                stamp.sequence,
                stamp.entries,
                offset,
                room.as_mut_ptr(),
                room.len(),
            )
        })
    }

    pub fn open_root(&self, session: u8, moment: u64, mask: u32) -> Result<Handle> {
        let mut number = 0;
        // SAFETY: by the list at the top.
        told(unsafe { ffi::zug_open_root(self.at(), session, moment, mask, &mut number) })?;
        Ok(Handle { session, number })
    }

    pub fn open_key(&self, key: Handle, moment: u64, path: &[u8], mask: u32) -> Result<Handle> {
        let mut number = 0;
        // SAFETY: by the list at the top.
        told(unsafe {
            ffi::zug_open_key(
                self.at(),
                key.session,
                moment,
                key.number,
                path.as_ptr(),
                path.len(),
                mask,
                &mut number,
            )
        })?;
        Ok(Handle { number, ..key })
    }

    /// The key's handle, and the disposition.
    pub fn create_key(
        &self,
        key: Handle,
        moment: u64,
        path: &[u8],
        mask: u32,
        descriptor: &[u8],
    ) -> Result<(Handle, u32)> {
        let (mut number, mut disposition) = (0, 0);
        // SAFETY: by the list at the top.
        told(unsafe {
            ffi::zug_create_key(
                self.at(),
                key.session,
                moment,
                key.number,
                path.as_ptr(),
                path.len(),
                mask,
                descriptor.as_ptr(),
                descriptor.len(),
                &mut number,
                &mut disposition,
            )
        })?;
        Ok((Handle { number, ..key }, disposition))
    }

    pub fn set_value(
        &self,
        key: Handle,
        moment: u64,
        name: &[u8],
        kind: u32,
        bytes: &[u8],
    ) -> Result<()> {
        // SAFETY: by the list at the top.
        told(unsafe {
            ffi::zug_set_value(
                self.at(),
                key.session,
                moment,
                key.number,
                name.as_ptr(),
                name.len(),
                kind,
                bytes.as_ptr(),
                bytes.len(),
            )
        })
    }

    pub fn delete_value(&self, key: Handle, moment: u64, name: &[u8]) -> Result<()> {
        // SAFETY: by the list at the top.
        told(unsafe {
            ffi::zug_delete_value(
                self.at(),
                key.session,
                moment,
                key.number,
                name.as_ptr(),
                name.len(),
            )
        })
    }

    pub fn delete_key(&self, key: Handle, moment: u64, path: &[u8]) -> Result<()> {
        // SAFETY: by the list at the top.
        told(unsafe {
            ffi::zug_delete_key(
                self.at(),
                key.session,
                moment,
                key.number,
                path.as_ptr(),
                path.len(),
            )
        })
    }

    pub fn delete_tree(&self, key: Handle, moment: u64, path: &[u8]) -> Result<()> {
        // SAFETY: by the list at the top.
        told(unsafe {
            ffi::zug_delete_tree(
                self.at(),
                key.session,
                moment,
                key.number,
                path.as_ptr(),
                path.len(),
            )
        })
    }

    pub fn set_security(&self, key: Handle, moment: u64, descriptor: &[u8]) -> Result<()> {
        // SAFETY: by the list at the top.
        told(unsafe {
            ffi::zug_set_security(
                self.at(),
                key.session,
                moment,
                key.number,
                descriptor.as_ptr(),
                descriptor.len(),
            )
        })
    }

    /// The number of the watch.
    pub fn notify(&self, key: Handle, moment: u64, filter: u32, subtree: bool) -> Result<u64> {
        let mut watch = 0;
        // SAFETY: by the list at the top.
        told(unsafe {
            ffi::zug_notify(
                self.at(),
                key.session,
                moment,
                key.number,
                filter,
                subtree,
                &mut watch,
            )
        })?;
        Ok(watch)
    }

    pub fn close(&self, key: Handle, moment: u64) -> Result<()> {
        // SAFETY: by the list at the top.
        told(unsafe { ffi::zug_close(self.at(), key.session, moment, key.number) })
    }

    pub fn query_value(&self, key: Handle, name: &[u8], room: &mut [u8]) -> Answer {
        let mut answer = Answer::default();
        // SAFETY: by the list at the top.
        answer.status = unsafe {
            ffi::zug_query_value(
                self.at(),
                key.session,
                key.number,
                name.as_ptr(),
                name.len(),
                room.as_mut_ptr(),
                room.len(),
                &mut answer.kind,
                &mut answer.size,
            )
        };
        answer
    }

    /// The size of the subkey's name, and when it was last written.
    pub fn enum_key(&self, key: Handle, index: u32, room: &mut [u8]) -> Result<(u32, u64)> {
        let (mut size, mut time) = (0, 0);
        // SAFETY: by the list at the top.
        told(unsafe {
            ffi::zug_enum_key(
                self.at(),
                key.session,
                key.number,
                index,
                room.as_mut_ptr(),
                room.len(),
                &mut size,
                &mut time,
            )
        })?;
        Ok((size, time))
    }

    /// The size of the value's name, and the answer of its data.
    pub fn enum_value(
        &self,
        key: Handle,
        index: u32,
        name_room: &mut [u8],
        room: &mut [u8],
    ) -> (u32, Answer) {
        let mut name_size = 0;
        let mut answer = Answer::default();
        // SAFETY: by the list at the top.
        answer.status = unsafe {
            ffi::zug_enum_value(
                self.at(),
                key.session,
                key.number,
                index,
                name_room.as_mut_ptr(),
                name_room.len(),
                &mut name_size,
                room.as_mut_ptr(),
                room.len(),
                &mut answer.kind,
                &mut answer.size,
            )
        };
        (name_size, answer)
    }

    pub fn query_info(&self, key: Handle) -> Result<ffi::Info> {
        let mut info = ffi::Info::default();
        // SAFETY: by the list at the top.
        told(unsafe { ffi::zug_query_info(self.at(), key.session, key.number, &mut info) })?;
        Ok(info)
    }

    pub fn get_security(&self, key: Handle, room: &mut [u8]) -> Answer {
        let mut answer = Answer::default();
        // SAFETY: by the list at the top.
        answer.status = unsafe {
            ffi::zug_get_security(
                self.at(),
                key.session,
                key.number,
                room.as_mut_ptr(),
                room.len(),
                &mut answer.size,
            )
        };
        answer
    }

    /// The key at the end of a path, with its name at the front of the room.
    pub fn key_at(&self, path: &[u8], room: &mut [u8]) -> Result<ffi::Subkey> {
        let mut key = ffi::Subkey::default();
        // SAFETY: by the list at the top.
        told(unsafe {
            ffi::zug_key_at(
                self.at(),
                path.as_ptr(),
                path.len(),
                &mut key,
                room.as_mut_ptr(),
                room.len(),
            )
        })?;
        Ok(key)
    }

    /// How many subkeys were told, from an index on.
    pub fn subkeys_at(
        &self,
        path: &[u8],
        index: u32,
        rows: &mut [ffi::Subkey],
        room: &mut [u8],
    ) -> Result<u32> {
        let mut count = 0;
        // SAFETY: by the list at the top.
        told(unsafe {
            ffi::zug_subkeys_at(
                self.at(),
                path.as_ptr(),
                path.len(),
                index,
                rows.as_mut_ptr(),
                rows.len(),
                room.as_mut_ptr(),
                room.len(),
                &mut count,
            )
        })?;
        Ok(count)
    }

    /// How many values were told, from an index on. Where the room is too short the first row tells
    /// the first value.
    pub fn values_at(
        &self,
        path: &[u8],
        index: u32,
        rows: &mut [ffi::Value],
        room: &mut [u8],
    ) -> Result<u32> {
        let mut count = 0;
        // SAFETY: by the list at the top.
        told(unsafe {
            ffi::zug_values_at(
                self.at(),
                path.as_ptr(),
                path.len(),
                index,
                rows.as_mut_ptr(),
                rows.len(),
                room.as_mut_ptr(),
                room.len(),
                &mut count,
            )
        })?;
        Ok(count)
    }

    /// How many subkeys were told with all their values, from an index on.
    pub fn subkeys_with_values_at(
        &self,
        path: &[u8],
        index: u32,
        subkeys: &mut [ffi::Subkey],
        values: &mut [ffi::Value],
        room: &mut [u8],
    ) -> Result<u32> {
        let mut count = 0;
        // SAFETY: by the list at the top.
        told(unsafe {
            ffi::zug_subkeys_with_values_at(
                self.at(),
                path.as_ptr(),
                path.len(),
                index,
                subkeys.as_mut_ptr(),
                subkeys.len(),
                values.as_mut_ptr(),
                values.len(),
                room.as_mut_ptr(),
                room.len(),
                &mut count,
            )
        })?;
        Ok(count)
    }

    /// The numbers of the watch and of the entry, and the reason.
    pub fn take_notice(&self, session: u8) -> Result<(u64, u64, u32)> {
        let (mut watch, mut entry, mut reason) = (0, 0, 0);
        // SAFETY: by the list at the top.
        told(unsafe {
            ffi::zug_take_notice(self.at(), session, &mut watch, &mut entry, &mut reason)
        })?;
        Ok((watch, entry, reason))
    }

    pub fn cause(&self, key: Handle, moment: u64, asked: &Asked<'_>) -> Result<()> {
        // SAFETY: by the list at the top.
        told(unsafe {
            ffi::zug_cause(
                self.at(),
                key.session,
                moment,
                asked.change,
                key.number,
                asked.text.as_ptr(),
                asked.text.len(),
                asked.number,
                asked.bytes.as_ptr(),
                asked.bytes.len(),
                asked.subtree,
            )
        })
    }

    fn at(&self) -> *mut ffi::HiveWords {
        self.0.as_ptr()
    }
}

impl Drop for Words {
    fn drop(&mut self) {
        // SAFETY: by the list at the top.
        unsafe { ffi::zug_hive_close(self.at()) }
    }
}
