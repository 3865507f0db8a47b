//! How much stack a call takes: it runs on a stack of its own, which was painted before, and what
//! has lost its paint afterwards was in use.

use std::ffi::c_void;

/// Bytes of the painted stack: far more than any call takes.
const STACK: usize = 4 << 20;
/// The colour.
const PAINT: u8 = 0xA5;

/// Storage for a `pthread_attr_t`, on any system.
type Attributes = [u64; 32];

extern "C" {
    fn pthread_attr_init(attributes: *mut Attributes) -> i32;
    fn pthread_attr_setstack(attributes: *mut Attributes, low: *mut c_void, bytes: usize) -> i32;
    fn pthread_attr_destroy(attributes: *mut Attributes) -> i32;
    fn pthread_create(
        thread: *mut usize,
        attributes: *const Attributes,
        begin: extern "C" fn(*mut c_void) -> *mut c_void,
        argument: *mut c_void,
    ) -> i32;
    fn pthread_join(thread: usize, result: *mut *mut c_void) -> i32;
}

/// What is called on the painted stack.
type Call<'a> = &'a mut dyn FnMut();

extern "C" fn begin(argument: *mut c_void) -> *mut c_void {
    // SAFETY: the argument is the call that `used` lends until the thread has ended.
    let call = unsafe { &mut *argument.cast::<Call>() };
    call();
    std::ptr::null_mut()
}

/// The bytes of a fresh stack from its top down to the deepest that was written.
fn used(mut call: Call) -> usize {
    let mut stack = vec![[PAINT; 4096]; STACK / 4096 + 16];
    let bytes = stack.as_flattened_mut();
    let skip = bytes.as_ptr().align_offset(65536);
    let painted = &mut bytes[skip..][..STACK];
    let mut attributes: Attributes = [0; 32];
    let mut thread = 0;
    // SAFETY: the attributes are larger than any system's, and the stack and the call outlive the
    // thread, which is joined before they are looked at again.
    unsafe {
        assert_eq!(pthread_attr_init(&mut attributes), 0);
        assert_eq!(
            pthread_attr_setstack(&mut attributes, painted.as_mut_ptr().cast(), STACK),
            0
        );
        let argument = (&raw mut call).cast();
        assert_eq!(pthread_create(&mut thread, &attributes, begin, argument), 0);
        assert_eq!(pthread_join(thread, std::ptr::null_mut()), 0);
        pthread_attr_destroy(&mut attributes);
    }
    STACK - painted.iter().take_while(|&&byte| byte == PAINT).count()
}

/// The bytes of stack that a call takes, above what a thread takes that calls nothing.
pub fn stack_of(call: Call) -> usize {
    used(call) - used(&mut || {})
}
