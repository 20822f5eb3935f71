//! The calls as the library has them, for a caller that wants no wrapper. `include/desk.h` says what each does, what its
//! pointers must be, and what the bits of its answer are.

unsafe extern "C" {
    /// Writes a frame file.
    pub fn desk_write(
        grid: *const i32,
        grid_len: u64,
        triangles: *const i32,
        triangles_len: u64,
        out: *mut u8,
        out_len: u64,
    ) -> u64;

    /// Writes the frame file of a scanner's PLY file.
    pub fn desk_scan(
        ply: *const u8,
        ply_len: u64,
        grid: *const i32,
        grid_len: u64,
        out: *mut u8,
        out_len: u64,
    ) -> u64;

    /// Says which triangle of a frame file is behind a cell.
    pub fn desk_bar(
        file: *const u8,
        file_len: u64,
        cell: u64,
        weights: *mut i64,
        weights_len: u64,
    ) -> u64;
}
