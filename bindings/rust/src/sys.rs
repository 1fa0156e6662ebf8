//! The calls of the library, as luvazhimba.h has them. A slice crosses as a pointer and a length.

#[repr(C)]
#[derive(Default)]
pub struct Base {
    pub len: usize,
    pub is_reply: bool,
}

#[repr(C)]
#[derive(Default)]
pub struct Ids {
    pub own: usize,
    pub count: usize,
    pub len: usize,
}

#[repr(C)]
#[derive(Clone, Copy, Default)]
pub struct Fields {
    pub sent: i64,
    pub own: usize,
    pub count: usize,
    pub len: usize,
    pub is_dated: bool,
}

#[repr(C)]
#[derive(Default)]
pub struct Totals {
    pub messages: usize,
    pub count: usize,
    pub len: usize,
}

#[repr(C)]
#[derive(Clone, Copy, Default)]
pub struct Row {
    pub depth: usize,
    pub place: usize,
    pub is_message: bool,
}

pub const DONE: u8 = 0;
pub const NO_ROOM: u8 = 1;
pub const NO_MEMORY: u8 = 2;
pub const NO_INSTANT: u8 = 3;
pub const OUTSIDE: u8 = 4;
pub const NO_MBOX: u8 = 5;
pub const TOO_LONG: u8 = 6;

extern "C" {
    pub fn luv_base_subject(subject: *const u8, subject_len: usize, text: *mut u8, text_len: usize, found: *mut Base) -> u8;
    pub fn luv_message_ids(
        message: *const u8, message_len: usize, texts: *mut u8, texts_len: usize, lens: *mut usize, lens_len: usize, found: *mut Ids,
    ) -> u8;
    pub fn luv_sent_date(message: *const u8, message_len: usize, arrival: i64, sent: *mut i64) -> u8;
    pub fn luv_fields(
        message: *const u8, message_len: usize, arrival: i64, texts: *mut u8, texts_len: usize, lens: *mut usize, lens_len: usize,
        found: *mut Fields,
    ) -> u8;
    pub fn luv_fields_of_mbox(
        mbox: *const u8, mbox_len: usize, messages: *mut crate::Message, messages_len: usize, fields: *mut Fields, fields_len: usize,
        texts: *mut u8, texts_len: usize, lens: *mut usize, lens_len: usize, found: *mut Totals,
    ) -> u8;
    pub fn luv_cut(mbox: *const u8, mbox_len: usize, messages: *mut crate::Message, messages_len: usize, count: *mut usize) -> u8;
    pub fn luv_threads(
        bytes: *const u8, bytes_len: usize, messages: *const crate::Message, messages_len: usize, merge: bool, key0: u64, key1: u64,
        rows: *mut Row, rows_len: usize, count: *mut usize,
    ) -> u8;
    pub fn luv_threads_of_mbox(
        mbox: *const u8, mbox_len: usize, merge: bool, key0: u64, key1: u64, rows: *mut Row, rows_len: usize, count: *mut usize,
    ) -> u8;
}
