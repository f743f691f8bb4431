//! The functions of the archive, as interface/pinthar.h declares them.

extern "C" {
    pub fn pinthar_full_words(
        file: *const u8,
        file_size: usize,
        out: *mut u32,
        out_size: usize,
    ) -> u64;
    pub fn pinthar_mark_words(
        file: *const u8,
        file_size: usize,
        out: *mut u64,
        out_size: usize,
    ) -> u64;
    pub fn pinthar_class_names(
        file: *const u8,
        file_size: usize,
        out: *mut u8,
        out_size: usize,
    ) -> u64;
    pub fn pinthar_merged_words(
        file: *const u8,
        file_size: usize,
        out: *mut u32,
        out_size: usize,
    ) -> u64;
    pub fn pinthar_listing(file: *const u8, file_size: usize, out: *mut u8, out_size: usize)
        -> u64;
    pub fn pinthar_lookup(
        file: *const u8,
        file_size: usize,
        s0: u32,
        s1: u32,
        s2: u32,
        s3: u32,
    ) -> u64;
    pub fn pinthar_verdict(file: *const u8, file_size: usize) -> u64;
    pub fn pinthar_component(file: *const u8, file_size: usize, component: u32) -> u64;
}

/// A function that writes entries.
pub type Writer<T> = unsafe extern "C" fn(*const u8, usize, *mut T, usize) -> u64;
