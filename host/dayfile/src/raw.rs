//! The exported calls as they are, on slices: one function each, nothing added. `include/dayfile.h` has their promises.
//!
//! A slice goes over as its pointer and its length. The library reads and writes inside the slices that it is lent and
//! nowhere else, keeps none of them, and accepts any length and any contents, so these functions are safe.

mod exported {
    extern "C" {
        pub fn dayfile_write(
            numbers: *const u16,
            count: usize,
            sizes: *const usize,
            sizes_count: usize,
            bytes: *const u8,
            bytes_size: usize,
            out: *mut u8,
            room: usize,
        ) -> u64;
        pub fn dayfile_read(file: *const u8, size: usize) -> u64;
        pub fn dayfile_report(file: *const u8, size: usize, at: usize) -> u64;
        pub fn dayfile_mend(file: *const u8, size: usize, out: *mut u8, room: usize) -> u64;
    }
}

pub fn write(numbers: &[u16], sizes: &[usize], bytes: &[u8], out: &mut [u8]) -> u64 {
    // Safety: each pointer is that of a slice, beside its length.
    unsafe {
        exported::dayfile_write(
            numbers.as_ptr(),
            numbers.len(),
            sizes.as_ptr(),
            sizes.len(),
            bytes.as_ptr(),
            bytes.len(),
            out.as_mut_ptr(),
            out.len(),
        )
    }
}

pub fn read(file: &[u8]) -> u64 {
    // Safety: the pointer is that of a slice, beside its length.
    unsafe { exported::dayfile_read(file.as_ptr(), file.len()) }
}

pub fn report(file: &[u8], at: usize) -> u64 {
    // Safety: the pointer is that of a slice, beside its length.
    unsafe { exported::dayfile_report(file.as_ptr(), file.len(), at) }
}

pub fn mend(file: &[u8], out: &mut [u8]) -> u64 {
    // Safety: each pointer is that of a slice, beside its length.
    unsafe { exported::dayfile_mend(file.as_ptr(), file.len(), out.as_mut_ptr(), out.len()) }
}
