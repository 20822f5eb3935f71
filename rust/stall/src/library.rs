//! The calls as the library has them, for a caller that wants no wrapper. `include/stall.h` says what each does, what its
//! pointers must be, and what the bits of its answer are.

unsafe extern "C" {
    /// Fills the map of a frame file.
    pub fn stall_fill(file: *const u8, file_len: u64, map: *mut u8, map_len: u64) -> u64;
    /// Begins a fill in steps.
    pub fn stall_fill_begin(file: *const u8, file_len: u64, map: *mut u8, map_len: u64) -> u64;
    /// Fills the cells of some records.
    pub fn stall_fill_some(
        file: *const u8,
        file_len: u64,
        map: *mut u8,
        map_len: u64,
        first: u64,
        count: u64,
    ) -> u64;
    /// Ends a fill in steps.
    pub fn stall_fill_end(file: *const u8, file_len: u64, map: *const u8, map_len: u64) -> u64;
    /// Tests a route.
    pub fn stall_route(
        file: *const u8,
        file_len: u64,
        map: *const u8,
        map_len: u64,
        numbers: *const i16,
        numbers_len: u64,
    ) -> u64;
    /// Reads the header's values and a record.
    pub fn stall_read(
        file: *const u8,
        file_len: u64,
        record: u64,
        out: *mut i32,
        out_len: u64,
    ) -> u64;
}
