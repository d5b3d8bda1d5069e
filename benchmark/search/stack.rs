//! The stack that a call takes: it is made on a thread whose stack was painted, and the lowest byte that changed is looked for.

use std::ffi::c_void;

/// Room for the C library's thread attributes.
#[repr(C, align(16))]
struct Attributes([u8; 128]);

extern "C" {
    fn pthread_attr_init(attributes: *mut Attributes) -> i32;
    fn pthread_attr_setstack(attributes: *mut Attributes, stack: *mut c_void, size: usize) -> i32;
    fn pthread_create(
        thread: *mut usize,
        attributes: *const Attributes,
        start: extern "C" fn(*mut c_void) -> *mut c_void,
        argument: *mut c_void,
    ) -> i32;
    fn pthread_join(thread: usize, result: *mut *mut c_void) -> i32;
}

const SIZE: usize = 4 << 20;
const PAINT: u8 = 0xa7;

struct Task<'a> {
    call: &'a mut dyn FnMut(),
    top: usize,
}

#[inline(never)]
extern "C" fn start(argument: *mut c_void) -> *mut c_void {
    let task = unsafe { &mut *(argument as *mut Task) };
    let mark = 0u8;
    task.top = &mark as *const u8 as usize;
    (task.call)();
    std::ptr::null_mut()
}

/// The bytes between the frame that calls and the lowest byte written.
pub fn taken(call: &mut dyn FnMut()) -> usize {
    let mut memory = vec![PAINT; SIZE + 4096];
    let base = (memory.as_mut_ptr() as usize + 4095) / 4096 * 4096;
    let mut task = Task { call, top: 0 };
    let mut attributes = Attributes([0; 128]);
    let mut thread = 0;
    unsafe {
        assert_eq!(pthread_attr_init(&mut attributes), 0);
        assert_eq!(pthread_attr_setstack(&mut attributes, base as *mut c_void, SIZE), 0);
        assert_eq!(pthread_create(&mut thread, &attributes, start, &mut task as *mut Task as *mut c_void), 0);
        assert_eq!(pthread_join(thread, std::ptr::null_mut()), 0);
    }
    let offset = base - memory.as_ptr() as usize;
    let lowest = memory[offset..offset + SIZE].iter().position(|&byte| byte != PAINT).unwrap();
    task.top - (base + lowest)
}
