//! The heap that psci.h asks for, over Rust's: each block has its layout before it.
use alloc::alloc::{alloc, dealloc, Layout};
use core::ptr;

/// No request has a larger alignment.
const ALIGN: usize = 16;

/// A block, where `ok` is not 0.
#[repr(C)]
pub struct Block {
    ok: usize,
    block: *mut u8,
}

#[no_mangle]
extern "C" fn rattle_alloc(size: usize, align: usize) -> Block {
    let room = size.max(align).checked_add(ALIGN).filter(|_| align <= ALIGN);
    let layout = room.and_then(|room| Layout::from_size_align(room, ALIGN).ok());
    // SAFETY: the layout is of ALIGN bytes and more.
    match layout.map(|it| (it, unsafe { alloc(it) })) {
        Some((layout, start)) if !start.is_null() => unsafe {
            start.cast::<Layout>().write(layout);
            Block { ok: 1, block: start.add(ALIGN) }
        },
        _ => Block { ok: 0, block: ptr::NonNull::dangling().as_ptr() },
    }
}

#[no_mangle]
unsafe extern "C" fn rattle_dealloc(block: *mut u8) {
    // SAFETY: what rattle_alloc gave comes back once.
    unsafe { dealloc(block.sub(ALIGN), block.sub(ALIGN).cast::<Layout>().read()) }
}

#[no_mangle]
unsafe extern "C" fn rattle_realloc(block: *mut u8, kept: usize, size: usize, align: usize) -> Block {
    let made = rattle_alloc(size, align);
    if made.ok != 0 {
        // SAFETY: these are two blocks, each of so many bytes.
        unsafe {
            ptr::copy_nonoverlapping(block, made.block, kept.min(size));
            rattle_dealloc(block);
        }
    }
    made
}
