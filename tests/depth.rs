// How much of the stack a task takes: it runs on a stack of its own that was filled with a pattern, and what differs
// from the pattern afterwards was used.
use std::ffi::c_void;

const SIZE: usize = 4 << 20;
const PATTERN: u8 = 0xA5;

extern "C" {
    fn pthread_attr_init(attr: *mut [u64; 8]) -> i32;
    fn pthread_attr_setstack(attr: *mut [u64; 8], at: *mut c_void, size: usize) -> i32;
    fn pthread_create(
        thread: *mut u64,
        attr: *const [u64; 8],
        start: extern "C" fn(*mut c_void) -> *mut c_void,
        with: *mut c_void,
    ) -> i32;
    fn pthread_join(thread: u64, result: *mut *mut c_void) -> i32;
}

// Runs a task, which is handed over as a pointer to it.
extern "C" fn run(task: *mut c_void) -> *mut c_void {
    let task = unsafe { &mut *(task as *mut &mut dyn FnMut()) };
    task();
    std::ptr::null_mut()
}

// The bytes of the stack that a thread with a task used.
fn reached(task: &mut dyn FnMut()) -> usize {
    let mut memory = vec![PATTERN; SIZE + 4096];
    let start = memory.as_mut_ptr() as usize;
    let aligned = (start + 4095) & !4095;
    let mut attr = [0u64; 8];
    let mut thread = 0;
    let mut task = task;
    unsafe {
        assert_eq!(pthread_attr_init(&mut attr), 0);
        assert_eq!(pthread_attr_setstack(&mut attr, aligned as *mut c_void, SIZE), 0);
        assert_eq!(pthread_create(&mut thread, &attr, run, &mut task as *mut &mut dyn FnMut() as *mut c_void), 0);
        assert_eq!(pthread_join(thread, std::ptr::null_mut()), 0);
    }
    let first = aligned - start;
    SIZE - memory[first..first + SIZE].iter().take_while(|&&b| b == PATTERN).count()
}

// The bytes of the stack that a task takes, without those of a thread that does nothing.
pub fn used(task: &mut dyn FnMut()) -> usize {
    reached(task) - reached(&mut || {})
}
