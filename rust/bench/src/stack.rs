//! How much stack the libraries' calls take: a call runs on painted bytes, and the paint that is left
//! is counted. For x86-64.

use desk::library::{desk_bar, desk_scan, desk_write};
use stall::library::{stall_fill, stall_read, stall_route};
use std::arch::asm;

const PAINT: u8 = 0xa5;

/// The bytes of stack that a call has written to, down to the lowest.
///
/// # Safety
/// The function keeps to the C convention and may be called with these arguments: whole numbers and
/// addresses. It may take fewer.
unsafe fn depth(function: *const (), arguments: [usize; 6]) -> usize {
    let mut stack = vec![PAINT; 1 << 20];
    let top = stack.as_mut_ptr_range().end as usize & !15;
    let [a, b, c, d, e, f] = arguments;
    // the call runs on a stack of its own, and r12 outlives it
    asm!(
        "mov r12, rsp",
        "mov rsp, r13",
        "call rax",
        "mov rsp, r12",
        in("rax") function,
        in("r13") top,
        in("rdi") a, in("rsi") b, in("rdx") c, in("rcx") d, in("r8") e, in("r9") f,
        out("r12") _,
        clobber_abi("C"),
    );
    let left = stack.iter().take_while(|byte| **byte == PAINT).count();
    top - (stack.as_ptr() as usize + left)
}

/// The stack of a fill.
pub fn fill(file: &[u8], map: &mut [u8]) -> usize {
    let (file, file_len) = (file.as_ptr() as usize, file.len());
    let (map, map_len) = (map.as_mut_ptr() as usize, map.len());
    // SAFETY: the slices outlive the call, and the library keeps neither.
    unsafe {
        depth(
            stall_fill as *const (),
            [file, file_len, map, map_len, 0, 0],
        )
    }
}

/// The stack of a route test.
pub fn route(file: &[u8], map: &[u8], numbers: &[i16]) -> usize {
    let (file, file_len) = (file.as_ptr() as usize, file.len());
    let (map, map_len) = (map.as_ptr() as usize, map.len());
    let (numbers, numbers_len) = (numbers.as_ptr() as usize, numbers.len());
    let arguments = [file, file_len, map, map_len, numbers, numbers_len];
    // SAFETY: the slices outlive the call, and the library keeps none.
    unsafe { depth(stall_route as *const (), arguments) }
}

/// The stack of a reading of record 0.
pub fn read(file: &[u8]) -> usize {
    let mut out = [0i32; stall::READ_NUMBERS];
    let (file, file_len) = (file.as_ptr() as usize, file.len());
    let out_at = out.as_mut_ptr() as usize;
    // SAFETY: the slices outlive the call, and the library keeps neither.
    unsafe {
        depth(
            stall_read as *const (),
            [file, file_len, 0, out_at, out.len(), 0],
        )
    }
}

/// The stack of a write.
pub fn write(grid: &[i32], triangles: &[i32]) -> usize {
    let mut out = vec![0u8; desk::FILE_MOST];
    let (grid, grid_len) = (grid.as_ptr() as usize, grid.len());
    let (triangles, triangles_len) = (triangles.as_ptr() as usize, triangles.len());
    let (out, out_len) = (out.as_mut_ptr() as usize, out.len());
    let arguments = [grid, grid_len, triangles, triangles_len, out, out_len];
    // SAFETY: the slices outlive the call, and the library keeps none.
    unsafe { depth(desk_write as *const (), arguments) }
}

/// The stack of a scan.
pub fn scan(ply: &[u8], grid: &[i32]) -> usize {
    let mut out = vec![0u8; desk::FILE_MOST];
    let (ply, ply_len) = (ply.as_ptr() as usize, ply.len());
    let (grid, grid_len) = (grid.as_ptr() as usize, grid.len());
    let (out, out_len) = (out.as_mut_ptr() as usize, out.len());
    let arguments = [ply, ply_len, grid, grid_len, out, out_len];
    // SAFETY: the slices outlive the call, and the library keeps none.
    unsafe { depth(desk_scan as *const (), arguments) }
}

/// The stack of a search for the bar behind a cell.
pub fn bar(file: &[u8], cell: usize) -> usize {
    let mut weights = [0i64; desk::WEIGHTS];
    let (file, file_len) = (file.as_ptr() as usize, file.len());
    let weights_at = weights.as_mut_ptr() as usize;
    let arguments = [file, file_len, cell, weights_at, weights.len(), 0];
    // SAFETY: the slices outlive the call, and the library keeps neither.
    unsafe { depth(desk_bar as *const (), arguments) }
}
