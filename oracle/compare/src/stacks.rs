//! How much stack a call needs: it runs on a thread whose stack is lent here, filled before
//! and looked through after.

use std::ffi::c_void;
use std::ptr::null_mut;

/// The lent stack, in 64-bit words: 4 MB.
const WORDS: usize = 1 << 19;
const FILL: u64 = 0x5AFE_57AC_5AFE_57AC;

/// glibc's `pthread_attr_t` on x86-64 takes 56 bytes.
#[repr(C, align(16))]
struct Attributes([u64; 16]);

#[repr(C, align(4096))]
#[derive(Clone, Copy)]
struct Page([u64; 512]);

extern "C" {
    fn pthread_attr_init(attributes: *mut Attributes) -> i32;
    fn pthread_attr_setstack(attributes: *mut Attributes, stack: *mut c_void, bytes: usize) -> i32;
    fn pthread_create(
        thread: *mut u64,
        attributes: *const Attributes,
        start: extern "C" fn(*mut c_void) -> *mut c_void,
        argument: *mut c_void,
    ) -> i32;
    fn pthread_join(thread: u64, value: *mut *mut c_void) -> i32;
}

extern "C" fn start(argument: *mut c_void) -> *mut c_void {
    let call = unsafe { &mut *(argument as *mut &mut (dyn FnMut() + Send)) };
    call();
    null_mut()
}

/// The bytes of stack that a thread touches which makes this call and nothing else.
fn touched(call: &mut (dyn FnMut() + Send)) -> usize {
    let mut stack = vec![Page([FILL; 512]); WORDS / 512];
    let (mut attributes, mut thread, mut call) = (Attributes([0; 16]), 0, call);
    let argument = &mut call as *mut &mut (dyn FnMut() + Send) as *mut c_void;
    unsafe {
        assert_eq!(pthread_attr_init(&mut attributes), 0);
        assert_eq!(pthread_attr_setstack(&mut attributes, stack.as_mut_ptr() as *mut c_void, 8 * WORDS), 0);
        assert_eq!(pthread_create(&mut thread, &attributes, start, argument), 0);
        assert_eq!(pthread_join(thread, null_mut()), 0);
    }
    let left = stack.iter().flat_map(|page| page.0).take_while(|&word| word == FILL).count();
    assert!(left > 0, "the lent stack is too small");
    8 * (WORDS - left)
}

/// The bytes of stack that a call needs, less what the thread itself takes.
pub fn needed(call: &mut (dyn FnMut() + Send)) -> usize {
    touched(call) - touched(&mut || {})
}
