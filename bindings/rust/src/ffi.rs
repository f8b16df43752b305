//! The declarations of `zugmeled.h`, which says what each function does, and what its caller owes.

// All constants of the header stand here, also those that the crate has no use for.
#![allow(dead_code)]

use std::ffi::c_void;

pub const VERSION: u32 = 10_000;

// Statuses.
pub const SUCCESS: u32 = 0;
pub const FILE_NOT_FOUND: u32 = 2;
pub const ACCESS_DENIED: u32 = 5;
pub const INVALID_HANDLE: u32 = 6;
pub const NOT_ENOUGH_MEMORY: u32 = 8;
pub const INVALID_PARAMETER: u32 = 87;
pub const INSUFFICIENT_BUFFER: u32 = 122;
pub const BUSY: u32 = 170;
pub const ALREADY_EXISTS: u32 = 183;
pub const MORE_DATA: u32 = 234;
pub const NO_MORE_ITEMS: u32 = 259;
pub const NOT_REGISTRY_FILE: u32 = 1017;
pub const KEY_DELETED: u32 = 1018;
pub const NO_SYSTEM_RESOURCES: u32 = 1450;

// Rights.
pub const QUERY_VALUE: u32 = 0x1;
pub const SET_VALUE: u32 = 0x2;
pub const CREATE_SUB_KEY: u32 = 0x4;
pub const ENUMERATE_SUB_KEYS: u32 = 0x8;
pub const NOTIFY: u32 = 0x10;
pub const CREATE_LINK: u32 = 0x20;
pub const DELETE: u32 = 0x1_0000;
pub const READ_CONTROL: u32 = 0x2_0000;
pub const WRITE_DAC: u32 = 0x4_0000;
pub const WRITE_OWNER: u32 = 0x8_0000;
pub const ALL_ACCESS: u32 = 0xF_003F;

// Types of values.
pub const NONE: u32 = 0;
pub const SZ: u32 = 1;
pub const EXPAND_SZ: u32 = 2;
pub const BINARY: u32 = 3;
pub const DWORD: u32 = 4;
pub const DWORD_BIG_ENDIAN: u32 = 5;
pub const LINK: u32 = 6;
pub const MULTI_SZ: u32 = 7;
pub const RESOURCE_LIST: u32 = 8;
pub const FULL_RESOURCE_DESCRIPTOR: u32 = 9;
pub const RESOURCE_REQUIREMENTS_LIST: u32 = 10;
pub const QWORD: u32 = 11;

// Limits.
pub const KEY_NAME_LIMIT: u32 = 255;
pub const VALUE_NAME_LIMIT: u32 = 16_383;
pub const PATH_LIMIT: u32 = 512;
pub const DATA_LIMIT: u32 = 1_048_576;
pub const DESCRIPTOR_LIMIT: u32 = 65_535;
pub const SESSIONS_LIMIT: u32 = 64;
pub const MADE_LIMIT: u32 = 32;
pub const SUBKEYS_LIMIT: u32 = 60_000;
pub const VALUES_LIMIT: u32 = 16_384;
pub const HANDLES_LIMIT: u32 = 16_384;
pub const WATCHES_LIMIT: u32 = 4_096;
pub const JOURNAL_LIMIT: u32 = 16_777_216;
pub const BINS_LIMIT: u32 = 268_435_456;

// What `zug_create_key` did.
pub const CREATED: u32 = 1;
pub const OPENED: u32 = 2;

// Kinds of changes.
pub const FILTER_NAME: u32 = 0x1;
pub const FILTER_ATTRIBUTES: u32 = 0x2;
pub const FILTER_LAST_SET: u32 = 0x4;
pub const FILTER_SECURITY: u32 = 0x8;
pub const FILTER_THREAD_AGNOSTIC: u32 = 0x1000_0000;

// Why a notice came.
pub const MATCHED: u32 = 1;
pub const GONE: u32 = 2;
pub const CLOSED: u32 = 3;

// The changes that `zug_cause` knows.
pub const OPEN_ROOT: u32 = 0;
pub const OPEN_KEY: u32 = 1;
pub const CREATE_KEY: u32 = 2;
pub const SET: u32 = 3;
pub const DELETE_VALUE: u32 = 4;
pub const DELETE_KEY: u32 = 5;
pub const DELETE_TREE: u32 = 6;
pub const SET_SECURITY: u32 = 7;
pub const NOTIFY_CHANGE: u32 = 8;
pub const CLOSE: u32 = 9;

/// `zug_hive`: what a hive is held by. All zero it holds none.
#[repr(C)]
pub struct HiveWords {
    pub holds: u64,
    pub at: *mut c_void,
}

/// `zug_info`: what `zug_query_info` tells.
#[repr(C)]
#[derive(Default)]
pub struct Info {
    pub subkeys: u32,
    pub longest_key: u32,
    pub values: u32,
    pub longest_value: u32,
    pub largest: u32,
    pub security: u32,
    pub time: u64,
}

/// `zug_subkey`: a key, as it stands among others.
#[repr(C)]
#[derive(Clone, Default)]
pub struct Subkey {
    pub time: u64,
    pub name_size: u32,
    pub subkeys: u32,
    pub values: u32,
    pub marks: u32,
}

/// `zug_value`: a value, as it stands among others.
#[repr(C)]
#[derive(Clone, Default)]
pub struct Value {
    pub name_size: u32,
    pub kind: u32,
    pub size: u32,
}

unsafe extern "C" {
    pub safe fn zug_version() -> u32;

    pub fn zug_hive_new(
        hive: *mut HiveWords,
        root_name: *const u8,
        root_name_length: usize,
        descriptor: *const u8,
        descriptor_length: usize,
        moment: u64,
    ) -> u32;
    pub fn zug_hive_load(
        hive: *mut HiveWords,
        bytes: *const u8,
        length: usize,
        fault: *mut u8,
    ) -> u32;
    pub fn zug_hive_close(hive: *mut HiveWords);

    pub fn zug_entries(hive: *mut HiveWords, entries: *mut u64, kept: *mut u64) -> u32;
    pub fn zug_hive_cut(hive: *mut HiveWords, cut: *mut u64) -> u32;

    pub fn zug_image_size(hive: *mut HiveWords, size: *mut u64, entries: *mut u64) -> u32;
    pub fn zug_image_part(
        hive: *mut HiveWords,
        moment: u64,
        sequence: u32,
        entries: u64,
        offset: u64,
        room: *mut u8,
        room_length: usize,
    ) -> u32;

    pub fn zug_open_root(
        hive: *mut HiveWords,
        session: u8,
        moment: u64,
        mask: u32,
        opened: *mut u64,
    ) -> u32;
    pub fn zug_open_key(
        hive: *mut HiveWords,
        session: u8,
        moment: u64,
        handle: u64,
        path: *const u8,
        path_length: usize,
        mask: u32,
        opened: *mut u64,
    ) -> u32;
    pub fn zug_create_key(
        hive: *mut HiveWords,
        session: u8,
        moment: u64,
        handle: u64,
        path: *const u8,
        path_length: usize,
        mask: u32,
        descriptor: *const u8,
        descriptor_length: usize,
        opened: *mut u64,
        disposition: *mut u32,
    ) -> u32;
    pub fn zug_set_value(
        hive: *mut HiveWords,
        session: u8,
        moment: u64,
        handle: u64,
        name: *const u8,
        name_length: usize,
        kind: u32,
        bytes: *const u8,
        length: usize,
    ) -> u32;
    pub fn zug_delete_value(
        hive: *mut HiveWords,
        session: u8,
        moment: u64,
        handle: u64,
        name: *const u8,
        name_length: usize,
    ) -> u32;
    pub fn zug_delete_key(
        hive: *mut HiveWords,
        session: u8,
        moment: u64,
        handle: u64,
        path: *const u8,
        path_length: usize,
    ) -> u32;
    pub fn zug_delete_tree(
        hive: *mut HiveWords,
        session: u8,
        moment: u64,
        handle: u64,
        path: *const u8,
        path_length: usize,
    ) -> u32;
    pub fn zug_set_security(
        hive: *mut HiveWords,
        session: u8,
        moment: u64,
        handle: u64,
        descriptor: *const u8,
        descriptor_length: usize,
    ) -> u32;
    pub fn zug_notify(
        hive: *mut HiveWords,
        session: u8,
        moment: u64,
        handle: u64,
        filter: u32,
        subtree: bool,
        watch: *mut u64,
    ) -> u32;
    pub fn zug_close(hive: *mut HiveWords, session: u8, moment: u64, handle: u64) -> u32;

    pub fn zug_query_value(
        hive: *mut HiveWords,
        session: u8,
        handle: u64,
        name: *const u8,
        name_length: usize,
        room: *mut u8,
        room_length: usize,
        kind: *mut u32,
        size: *mut u32,
    ) -> u32;
    pub fn zug_enum_key(
        hive: *mut HiveWords,
        session: u8,
        handle: u64,
        index: u32,
        name_room: *mut u8,
        name_room_length: usize,
        name_size: *mut u32,
        time: *mut u64,
    ) -> u32;
    pub fn zug_enum_value(
        hive: *mut HiveWords,
        session: u8,
        handle: u64,
        index: u32,
        name_room: *mut u8,
        name_room_length: usize,
        name_size: *mut u32,
        room: *mut u8,
        room_length: usize,
        kind: *mut u32,
        size: *mut u32,
    ) -> u32;
    pub fn zug_query_info(hive: *mut HiveWords, session: u8, handle: u64, info: *mut Info) -> u32;
    pub fn zug_get_security(
        hive: *mut HiveWords,
        session: u8,
        handle: u64,
        room: *mut u8,
        room_length: usize,
        size: *mut u32,
    ) -> u32;

    pub fn zug_key_at(
        hive: *mut HiveWords,
        path: *const u8,
        path_length: usize,
        key: *mut Subkey,
        name_room: *mut u8,
        name_room_length: usize,
    ) -> u32;
    pub fn zug_subkeys_at(
        hive: *mut HiveWords,
        path: *const u8,
        path_length: usize,
        index: u32,
        subkeys: *mut Subkey,
        subkeys_length: usize,
        name_room: *mut u8,
        name_room_length: usize,
        count: *mut u32,
    ) -> u32;
    pub fn zug_values_at(
        hive: *mut HiveWords,
        path: *const u8,
        path_length: usize,
        index: u32,
        values: *mut Value,
        values_length: usize,
        room: *mut u8,
        room_length: usize,
        count: *mut u32,
    ) -> u32;
    pub fn zug_subkeys_with_values_at(
        hive: *mut HiveWords,
        path: *const u8,
        path_length: usize,
        index: u32,
        subkeys: *mut Subkey,
        subkeys_length: usize,
        values: *mut Value,
        values_length: usize,
        room: *mut u8,
        room_length: usize,
        count: *mut u32,
    ) -> u32;

    pub fn zug_take_notice(
        hive: *mut HiveWords,
        session: u8,
        watch: *mut u64,
        entry: *mut u64,
        reason: *mut u32,
    ) -> u32;

    pub fn zug_cause(
        hive: *mut HiveWords,
        session: u8,
        moment: u64,
        change: u32,
        handle: u64,
        text: *const u8,
        text_length: usize,
        number: u32,
        bytes: *const u8,
        length: usize,
        subtree: bool,
    ) -> u32;
}
