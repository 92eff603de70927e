//! The operations of the archives, as C calls them.

pub type Verdict = unsafe extern "C" fn(file: *const u8, file_length: usize, table: *mut u64, table_length: usize) -> u64;
pub type Check = unsafe extern "C" fn(file: *const u8, file_length: usize, table: *const u64, table_length: usize) -> u64;

extern "C" {
    pub fn verdict(file: *const u8, file_length: usize, table: *mut u64, table_length: usize) -> u64;
    pub fn verdict_large(file: *const u8, file_length: usize, table: *mut u64, table_length: usize) -> u64;
    pub fn check(file: *const u8, file_length: usize, table: *const u64, table_length: usize) -> u64;
    pub fn check_large(file: *const u8, file_length: usize, table: *const u64, table_length: usize) -> u64;
}
