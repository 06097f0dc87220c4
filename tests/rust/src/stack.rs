//! How much stack a call takes: it runs in a thread whose stack was filled with one byte, and what is no longer so was used.

use std::ffi::c_void;
use std::ptr;

/// Room for the C library's `pthread_attr_t`.
#[repr(C, align(16))]
struct Attributes([u8; 128]);

unsafe extern "C" {
    fn pthread_attr_init(attributes: *mut Attributes) -> i32;
    fn pthread_attr_setstack(attributes: *mut Attributes, low: *mut c_void, size: usize) -> i32;
    fn pthread_create(thread: *mut usize, attributes: *const Attributes, start: extern "C" fn(*mut c_void) -> *mut c_void, given: *mut c_void) -> i32;
    fn pthread_join(thread: usize, result: *mut *mut c_void) -> i32;
}

const FILL: u8 = 0xa5;

/// A page of the stack, all filled.
#[derive(Clone)]
#[repr(C, align(4096))]
struct Page([u8; 4096]);

extern "C" fn start(given: *mut c_void) -> *mut c_void {
    // `reach` hands over its run, and waits until this has ended.
    let run = unsafe { &mut *given.cast::<&mut dyn FnMut()>() };
    run();
    ptr::null_mut()
}

/// The bytes from the deepest one used up to the top, with what a thread itself takes.
fn reach(mut run: &mut dyn FnMut()) -> usize {
    let mut pages = vec![Page([FILL; 4096]); 256];
    let size = pages.len() * 4096;
    let low = pages.as_mut_ptr().cast::<c_void>();
    let (mut attributes, mut thread) = (Attributes([0; 128]), 0);
    // The stack lives until the thread is joined, and nothing else looks at it before.
    let failed = unsafe {
        pthread_attr_init(&mut attributes)
            | pthread_attr_setstack(&mut attributes, low, size)
            | pthread_create(&mut thread, &attributes, start, (&raw mut run).cast())
            | pthread_join(thread, ptr::null_mut())
    };
    assert_eq!(failed, 0, "a thread");
    let unused = pages.iter().flat_map(|page| page.0).take_while(|&byte| byte == FILL).count();
    size - unused
}

/// The bytes of stack that a run takes.
pub fn stack(run: &mut dyn FnMut()) -> usize {
    let thread = reach(&mut || ());
    reach(run) - thread
}
