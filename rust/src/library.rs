//! The calls of the static library, as include/sycamoot.h declares them.

#[repr(C)]
#[derive(Clone, Copy, Debug, PartialEq, Eq)]
pub struct Answer {
    pub position: u64,
    pub number: u32,
    pub rows: u32,
    pub terms: u32,
    pub store: u32,
}

#[repr(C)]
#[derive(Clone, Copy, Debug, PartialEq, Eq)]
pub struct Text {
    pub start: u64,
    pub length: u64,
    pub number: u32,
}

#[repr(C)]
#[derive(Clone, Copy, Debug, PartialEq, Eq)]
pub struct Written {
    pub position: u64,
    pub number: u32,
}

#[repr(C)]
#[derive(Clone, Copy, Debug, PartialEq, Eq)]
pub struct Checked {
    pub number: u32,
    pub yes: u32,
}

#[repr(C)]
#[derive(Clone, Copy, Debug, PartialEq, Eq)]
pub struct Found {
    pub number: u32,
    pub rows: u32,
    pub first: u32,
}

#[repr(C)]
#[derive(Clone, Copy, Debug, PartialEq, Eq)]
pub struct Compared {
    pub number: u32,
    pub same: u32,
    pub left: u32,
    pub right: u32,
}

/// A writer: of rows, terms and store, each with its length and how much of it is used, over the front of an output.
pub type Writer = unsafe extern "C" fn(*const u32, usize, u32, *const u32, usize, u32, *const u8, usize, u32, *mut u8, usize) -> Written;

extern "C" {
    pub fn sycamoot_read(
        document: *const u8,
        document_length: usize,
        base: *const u8,
        base_length: usize,
        mode: u32,
        work: *mut u8,
        work_length: usize,
        rows: *mut u32,
        row_words: usize,
        terms: *mut u32,
        term_words: usize,
        store: *mut u8,
        store_length: usize,
    ) -> Answer;

    pub fn sycamoot_term_text(
        terms: *const u32,
        term_words: usize,
        term_count: u32,
        store: *const u8,
        store_length: usize,
        store_count: u32,
        term: u32,
    ) -> Text;

    pub fn sycamoot_write(
        rows: *const u32,
        row_words: usize,
        row_count: u32,
        terms: *const u32,
        term_words: usize,
        term_count: u32,
        store: *const u8,
        store_length: usize,
        store_count: u32,
        out: *mut u8,
        out_length: usize,
    ) -> Written;

    pub fn sycamoot_write_index(
        rows: *const u32,
        row_words: usize,
        row_count: u32,
        terms: *const u32,
        term_words: usize,
        term_count: u32,
        store: *const u8,
        store_length: usize,
        store_count: u32,
        out: *mut u8,
        out_length: usize,
    ) -> Written;

    pub fn sycamoot_check_index(
        rows: *const u32,
        row_words: usize,
        row_count: u32,
        terms: *const u32,
        term_words: usize,
        term_count: u32,
        store: *const u8,
        store_length: usize,
        store_count: u32,
        index: *const u8,
        index_length: usize,
    ) -> Checked;

    pub fn sycamoot_look_up(address: *const u8, address_length: usize, index: *const u8, index_length: usize) -> Found;

    pub fn sycamoot_compare(
        left_rows: *const u32,
        left_row_words: usize,
        left_row_count: u32,
        left_terms: *const u32,
        left_term_words: usize,
        left_term_count: u32,
        left_store: *const u8,
        left_store_length: usize,
        left_store_count: u32,
        right_rows: *const u32,
        right_row_words: usize,
        right_row_count: u32,
        right_terms: *const u32,
        right_term_words: usize,
        right_term_count: u32,
        right_store: *const u8,
        right_store_length: usize,
        right_store_count: u32,
        pairing: *const u32,
        pairing_words: usize,
        left_list: *mut u32,
        left_list_length: usize,
        right_list: *mut u32,
        right_list_length: usize,
    ) -> Compared;

    pub fn sycamoot_compare_indexed(
        left_rows: *const u32,
        left_row_words: usize,
        left_row_count: u32,
        left_terms: *const u32,
        left_term_words: usize,
        left_term_count: u32,
        left_store: *const u8,
        left_store_length: usize,
        left_store_count: u32,
        right_rows: *const u32,
        right_row_words: usize,
        right_row_count: u32,
        right_terms: *const u32,
        right_term_words: usize,
        right_term_count: u32,
        right_store: *const u8,
        right_store_length: usize,
        right_store_count: u32,
        pairing: *const u32,
        pairing_words: usize,
        left_list: *mut u32,
        left_list_length: usize,
        right_list: *mut u32,
        right_list_length: usize,
        index: *mut u32,
        index_words: usize,
    ) -> Compared;
}
