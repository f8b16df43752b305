//! Sets of rights, and of kinds of changes.

use crate::ffi;
use std::ops::BitOr;

/// The rights that a key is opened with. They are joined by `|`.
///
/// Rights with another bit than these have are refused:
/// [`Status::INVALID_PARAMETER`](crate::Status::INVALID_PARAMETER).
#[derive(Clone, Copy, Debug, Default, PartialEq, Eq, Hash)]
pub struct Rights(pub u32);

impl Rights {
    /// To ask for values, and for the key's numbers.
    pub const QUERY_VALUE: Rights = Rights(ffi::QUERY_VALUE);
    /// To set and delete values.
    pub const SET_VALUE: Rights = Rights(ffi::SET_VALUE);
    /// To make subkeys. No call asks for it.
    pub const CREATE_SUB_KEY: Rights = Rights(ffi::CREATE_SUB_KEY);
    /// To list subkeys.
    pub const ENUMERATE_SUB_KEYS: Rights = Rights(ffi::ENUMERATE_SUB_KEYS);
    /// To ask for notices.
    pub const NOTIFY: Rights = Rights(ffi::NOTIFY);
    /// To make links. No call asks for it.
    pub const CREATE_LINK: Rights = Rights(ffi::CREATE_LINK);
    /// To delete trees.
    pub const DELETE: Rights = Rights(ffi::DELETE);
    /// To read the security descriptor.
    pub const READ_CONTROL: Rights = Rights(ffi::READ_CONTROL);
    /// To set the security descriptor.
    pub const WRITE_DAC: Rights = Rights(ffi::WRITE_DAC);
    /// To set the owner. No call asks for it.
    pub const WRITE_OWNER: Rights = Rights(ffi::WRITE_OWNER);
    /// No right: such a key still opens and makes others.
    pub const NONE: Rights = Rights(0);
    /// What reading needs.
    pub const READ: Rights =
        Rights(ffi::QUERY_VALUE | ffi::ENUMERATE_SUB_KEYS | ffi::NOTIFY | ffi::READ_CONTROL);
    /// All rights.
    pub const ALL: Rights = Rights(ffi::ALL_ACCESS);
}

impl BitOr for Rights {
    type Output = Rights;

    fn bitor(self, other: Rights) -> Rights {
        Rights(self.0 | other.0)
    }
}

/// The kinds of changes that a notice is asked of. They are joined by `|`.
///
/// A filter without any of the first four, or with another bit than these have, is refused:
/// [`Status::INVALID_PARAMETER`](crate::Status::INVALID_PARAMETER).
#[derive(Clone, Copy, Debug, Default, PartialEq, Eq, Hash)]
pub struct Filter(pub u32);

impl Filter {
    /// A subkey is made or deleted.
    pub const NAME: Filter = Filter(ffi::FILTER_NAME);
    /// The security descriptor is set.
    pub const ATTRIBUTES: Filter = Filter(ffi::FILTER_ATTRIBUTES);
    /// A value is set or deleted.
    pub const LAST_SET: Filter = Filter(ffi::FILTER_LAST_SET);
    /// The security descriptor is set.
    pub const SECURITY: Filter = Filter(ffi::FILTER_SECURITY);
    /// That the thread may end. It changes nothing, since no watch ends with a thread.
    pub const THREAD_AGNOSTIC: Filter = Filter(ffi::FILTER_THREAD_AGNOSTIC);
}

impl BitOr for Filter {
    type Output = Filter;

    fn bitor(self, other: Filter) -> Filter {
        Filter(self.0 | other.0)
    }
}
