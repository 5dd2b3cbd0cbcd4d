//! How many bytes of stack a call takes: it is run in a thread whose stack was filled with a pattern before.

use std::ffi::c_void;

/// Room for any call of ours, and much more.
const SIZE: usize = 1 << 20;
const PATTERN: u8 = 0xa5;

/// Large enough for the attributes of a thread.
#[repr(C, align(16))]
struct Attributes([u8; 128]);

extern "C" {
    fn pthread_attr_init(attributes: *mut Attributes) -> i32;
    fn pthread_attr_setstack(attributes: *mut Attributes, stack: *mut c_void, size: usize) -> i32;
    fn pthread_attr_destroy(attributes: *mut Attributes) -> i32;
    fn pthread_create(
        thread: *mut usize,
        attributes: *const Attributes,
        run: extern "C" fn(*mut c_void) -> *mut c_void,
        argument: *mut c_void,
    ) -> i32;
    fn pthread_join(thread: usize, result: *mut *mut c_void) -> i32;
}

/// A stack to run calls on, again and again.
pub struct Stack {
    words: Vec<u128>,
}

impl Stack {
    pub fn new() -> Stack {
        Stack { words: vec![0; SIZE / 16] }
    }

    /// The bytes that the thread of a run wrote to, from the top of its stack down; the thread's own are among them.
    fn touched<F: FnMut()>(&mut self, mut run: F) -> usize {
        let stack: *mut u8 = self.words.as_mut_ptr().cast();
        // The thread runs on this memory alone, and is over before it is read.
        unsafe {
            stack.write_bytes(PATTERN, SIZE);
            let mut attributes = Attributes([0; 128]);
            let mut thread = 0;
            assert_eq!(pthread_attr_init(&mut attributes), 0);
            assert_eq!(pthread_attr_setstack(&mut attributes, stack.cast(), SIZE), 0);
            assert_eq!(pthread_create(&mut thread, &attributes, called::<F>, (&raw mut run).cast()), 0);
            assert_eq!(pthread_join(thread, std::ptr::null_mut()), 0);
            pthread_attr_destroy(&mut attributes);
            SIZE - (0..SIZE).position(|at| *stack.add(at) != PATTERN).unwrap_or(SIZE)
        }
    }

    /// The bytes that a run takes beyond those of a thread that does nothing.
    pub fn used(&mut self, run: impl FnMut()) -> usize {
        let idle = self.touched(|| ());
        self.touched(run).saturating_sub(idle)
    }
}

extern "C" fn called<F: FnMut()>(run: *mut c_void) -> *mut c_void {
    // `touched` waits for this thread, so what it lent is still there.
    unsafe { (*run.cast::<F>())() };
    std::ptr::null_mut()
}
