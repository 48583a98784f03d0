//! The stack that a call uses at its peak: the call runs on a stack that was painted before, and
//! the paint that is left is counted.
use std::alloc::{Layout, alloc, dealloc};
use std::ffi::c_void;
use std::slice;
use std::sync::OnceLock;

const SIZE: usize = 8 << 20;
const PAINT: u8 = 0xA5;

/// Room for glibc's `pthread_attr_t`, which has 56 bytes.
#[repr(C, align(16))]
struct Attributes([u8; 128]);

unsafe extern "C" {
    fn pthread_attr_init(attributes: *mut Attributes) -> i32;
    fn pthread_attr_setstack(attributes: *mut Attributes, lowest: *mut u8, size: usize) -> i32;
    fn pthread_create(
        thread: *mut usize,
        attributes: *const Attributes,
        start: extern "C" fn(*mut c_void) -> *mut c_void,
        argument: *mut c_void,
    ) -> i32;
    fn pthread_join(thread: usize, result: *mut *mut c_void) -> i32;
}

type Call<'a> = &'a mut dyn FnMut();

extern "C" fn start(argument: *mut c_void) -> *mut c_void {
    // SAFETY: `on_stack` passes a `Call` that lives until the thread is joined.
    let call = unsafe { &mut *argument.cast::<Call>() };
    call();
    std::ptr::null_mut()
}

/// The bytes of stack that `call` uses beyond those of an empty call.
pub fn peak(mut call: impl FnMut()) -> usize {
    static EMPTY: OnceLock<usize> = OnceLock::new();
    used(&mut call).saturating_sub(*EMPTY.get_or_init(|| used(&mut || {})))
}

fn used(mut call: Call) -> usize {
    let layout = Layout::from_size_align(SIZE, 4_096).expect("a power of two");
    // SAFETY: the memory has `layout`, all of it is written before it is read, the thread that
    // uses it is joined before it is read again, and it is freed once.
    unsafe {
        let lowest = alloc(layout);
        assert!(!lowest.is_null(), "no memory for a stack");
        lowest.write_bytes(PAINT, SIZE);
        on_stack(lowest, &mut call);
        let stack = slice::from_raw_parts(lowest, SIZE);
        let untouched = stack.iter().take_while(|&&byte| byte == PAINT).count();
        dealloc(lowest, layout);
        SIZE - untouched
    }
}

/// Runs a call on a thread with this stack.
///
/// # Safety
/// `lowest` is the start of `SIZE` bytes that nothing else uses.
unsafe fn on_stack(lowest: *mut u8, call: &mut Call) {
    let mut attributes = Attributes([0; 128]);
    let mut thread = 0;
    let argument = (call as *mut Call).cast();
    // SAFETY: the attributes are set up before they are used, and the thread is joined here.
    unsafe {
        assert_eq!(pthread_attr_init(&mut attributes), 0);
        assert_eq!(pthread_attr_setstack(&mut attributes, lowest, SIZE), 0);
        assert_eq!(pthread_create(&mut thread, &attributes, start, argument), 0);
        assert_eq!(pthread_join(thread, std::ptr::null_mut()), 0);
    }
}
