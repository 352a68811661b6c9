//! The functions of host/pirrozketa.h, and its sizes.

use std::ffi::c_char;

extern "C" {
    /// Of tests/library/sizes.c.
    pub fn header_size(name: *const c_char) -> usize;
    pub fn pirrozketa_version() -> u16;
    pub fn pirrozketa_clear(image: *mut u8, image_len: usize) -> u8;
    pub fn pirrozketa_check(image: *const u8, image_len: usize) -> u8;
    pub fn pirrozketa_count(image: *const u8, image_len: usize) -> u16;
    pub fn pirrozketa_last(image: *const u8, image_len: usize) -> u16;
    pub fn pirrozketa_edits(image: *const u8, image_len: usize) -> u32;
    pub fn pirrozketa_add(
        image: *mut u8,
        image_len: usize,
        rule: *const u8,
        rule_len: usize,
        p: usize,
        place: *mut usize,
    ) -> u8;
    pub fn pirrozketa_drop(image: *mut u8, image_len: usize, number: u16, place: *mut usize) -> u8;
    pub fn pirrozketa_move(image: *mut u8, image_len: usize, number: u16, p: usize, place: *mut usize) -> u8;
    pub fn pirrozketa_set_class(
        image: *mut u8,
        image_len: usize,
        symbol: u8,
        letters: *const u8,
        letters_len: usize,
        place: *mut usize,
    ) -> u8;
    pub fn pirrozketa_read_file(
        file: *const u8,
        file_len: usize,
        image: *mut u8,
        image_len: usize,
        place: *mut usize,
    ) -> u8;
    pub fn pirrozketa_write_file(
        image: *const u8,
        image_len: usize,
        out: *mut u8,
        out_len: usize,
        bytes: *mut usize,
    ) -> u8;
    pub fn pirrozketa_build(
        image: *const u8,
        image_len: usize,
        words: *mut u16,
        words_len: usize,
        sets: *mut u64,
        sets_len: usize,
        place: *mut usize,
    ) -> u8;
    pub fn pirrozketa_list_clear(list: *mut u32, list_len: usize) -> u8;
    pub fn pirrozketa_list_check(list: *const u32, list_len: usize) -> u8;
    pub fn pirrozketa_list_names(list: *const u32, list_len: usize) -> u16;
    pub fn pirrozketa_list_states(list: *const u32, list_len: usize) -> u16;
    pub fn pirrozketa_list_add(
        list: *mut u32,
        list_len: usize,
        name: *const u8,
        name_len: usize,
        phones: *const u8,
        phones_len: usize,
        place: *mut usize,
    ) -> u8;
    pub fn pirrozketa_list_remove(
        list: *mut u32,
        list_len: usize,
        name: *const u8,
        name_len: usize,
        place: *mut usize,
    ) -> u8;
    pub fn pirrozketa_list_read_out(
        list: *const u32,
        list_len: usize,
        out: *mut u8,
        out_len: usize,
        bytes: *mut usize,
    ) -> u8;
    pub fn pirrozketa_read_name(
        image: *const u8,
        image_len: usize,
        list: *const u32,
        list_len: usize,
        name: *const u8,
        name_len: usize,
        phones: *mut u8,
        phones_len: usize,
        numbers: *mut u16,
        numbers_len: usize,
        given: *mut usize,
        applied: *mut usize,
        contested: *mut usize,
    ) -> u8;
    pub fn pirrozketa_speak(
        image: *const u8,
        image_len: usize,
        list: *const u32,
        list_len: usize,
        words: *const u16,
        words_len: usize,
        sets: *const u64,
        sets_len: usize,
        name: *const u8,
        name_len: usize,
        phones: *mut u8,
        phones_len: usize,
        numbers: *mut u16,
        numbers_len: usize,
        given: *mut usize,
        applied: *mut usize,
        steps: *mut usize,
        contested: *mut usize,
    ) -> u8;
    pub fn pirrozketa_speak_many(
        image: *const u8,
        image_len: usize,
        list: *const u32,
        list_len: usize,
        words: *const u16,
        words_len: usize,
        sets: *const u64,
        sets_len: usize,
        names: *const u8,
        names_len: usize,
        phones: *mut u8,
        phones_len: usize,
        numbers: *mut u16,
        numbers_len: usize,
        replies: *mut usize,
        replies_len: usize,
        count: *mut usize,
    ) -> u8;
    pub fn pirrozketa_speak_sheet(
        image: *const u8,
        image_len: usize,
        list: *const u32,
        list_len: usize,
        words: *const u16,
        words_len: usize,
        sets: *const u64,
        sets_len: usize,
        sheet: *const u8,
        sheet_len: usize,
        phones: *mut u8,
        phones_len: usize,
        numbers: *mut u16,
        numbers_len: usize,
        replies: *mut usize,
        replies_len: usize,
        tree: *mut u16,
        tree_len: usize,
        kept: *mut u32,
        kept_len: usize,
        place: *mut usize,
        steps: *mut usize,
        names: *mut usize,
    ) -> u8;
}
