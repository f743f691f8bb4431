//! The proved library, as interface/pinthar.h declares it.

type Writer<T> = unsafe extern "C" fn(*const u8, usize, *mut T, usize) -> u64;

#[link(name = "pinthar", kind = "static")]
extern "C" {
    fn pinthar_full_words(file: *const u8, size: usize, out: *mut u32, room: usize) -> u64;
    fn pinthar_mark_words(file: *const u8, size: usize, out: *mut u64, room: usize) -> u64;
    fn pinthar_class_names(file: *const u8, size: usize, out: *mut u8, room: usize) -> u64;
    fn pinthar_merged_words(file: *const u8, size: usize, out: *mut u32, room: usize) -> u64;
    fn pinthar_listing(file: *const u8, size: usize, out: *mut u8, room: usize) -> u64;
    fn pinthar_lookup(file: *const u8, size: usize, s0: u32, s1: u32, s2: u32, s3: u32) -> u64;
    fn pinthar_verdict(file: *const u8, size: usize) -> u64;
}

fn write<T>(function: Writer<T>, file: &[u8], out: &mut [T]) -> u64 {
    // SAFETY: the functions ask nothing of their caller but two slices that are valid for the call.
    unsafe { function(file.as_ptr(), file.len(), out.as_mut_ptr(), out.len()) }
}

pub fn full_words(file: &[u8], out: &mut [u32]) -> u64 {
    write(pinthar_full_words, file, out)
}

pub fn mark_words(file: &[u8], out: &mut [u64]) -> u64 {
    write(pinthar_mark_words, file, out)
}

pub fn class_names(file: &[u8], out: &mut [u8]) -> u64 {
    write(pinthar_class_names, file, out)
}

pub fn merged_words(file: &[u8], out: &mut [u32]) -> u64 {
    write(pinthar_merged_words, file, out)
}

pub fn listing(file: &[u8], out: &mut [u8]) -> u64 {
    write(pinthar_listing, file, out)
}

pub fn lookup(file: &[u8], [s0, s1, s2, s3]: [u32; 4]) -> u64 {
    // SAFETY: the function asks nothing of its caller but a slice that is valid for the call.
    unsafe { pinthar_lookup(file.as_ptr(), file.len(), s0, s1, s2, s3) }
}

pub fn verdict(file: &[u8]) -> u64 {
    // SAFETY: as above.
    unsafe { pinthar_verdict(file.as_ptr(), file.len()) }
}
