//! The calls, structs and codes of `pauseless.h` that the wrapper uses. Names, types and order are those of the header;
//! `tests/header.py` compares them.

use std::ffi::c_void;

/// `pauseless_heap`. It may be moved, as it points to the heap; it must not be copied.
#[repr(C)]
pub struct Handle {
    mark: u64,
    held: *mut c_void,
}

impl Handle {
    /// `PAUSELESS_NONE`.
    pub const NONE: Handle = Handle {
        mark: 0,
        held: std::ptr::null_mut(),
    };
}

/// The sizes and limits of a heap.
#[repr(C)]
#[derive(Clone, Copy, Debug, Default)]
pub struct Sizes {
    pub words: u32,
    pub frames: u32,
    pub pages: u32,
    pub threads: u32,
    pub workers: u32,
    pub registers: u32,
    pub globals: u32,
    pub births: u64,
}

/// How many references and data words an object has.
#[repr(C)]
#[derive(Clone, Copy, Debug)]
pub struct Layout {
    pub refs: u16,
    pub nums: u16,
}

/// When a heap is collected for a fresh buffer.
#[repr(C)]
#[derive(Clone, Copy, Debug)]
pub struct Policy {
    pub words: u32,
    pub free: u32,
    pub percent: u32,
    pub budget: u32,
}

/// What a collection has done.
#[repr(C)]
#[derive(Clone, Copy, Debug, Default)]
pub struct Collected {
    pub live: u64,
    pub live_words: u64,
    pub emptied: u64,
    pub copied: u64,
}

#[link(name = "pauseless", kind = "static")]
unsafe extern "C" {
    pub fn pauseless_usual(words: u32, frames: u32, sizes: *mut Sizes);
    pub fn pauseless_new(
        heap: *mut Handle,
        sizes: *const Sizes,
        layouts: *const Layout,
        count: usize,
    ) -> u32;
    pub fn pauseless_free(heap: *mut Handle);
    pub fn pauseless_make_with(
        heap: *mut Handle,
        policy: *const Policy,
        thread: u32,
        target: u32,
        layout: u32,
        sources: *const u32,
        count: usize,
        nums: *const u64,
        size: usize,
    ) -> u32;
    pub fn pauseless_load(
        heap: *mut Handle,
        thread: u32,
        target: u32,
        object: u32,
        field: u32,
    ) -> u32;
    pub fn pauseless_store(
        heap: *mut Handle,
        thread: u32,
        object: u32,
        field: u32,
        source: u32,
    ) -> u32;
    pub fn pauseless_load_global(heap: *mut Handle, thread: u32, target: u32, global: u32) -> u32;
    pub fn pauseless_store_global(heap: *mut Handle, thread: u32, global: u32, source: u32) -> u32;
    pub fn pauseless_copy(heap: *mut Handle, thread: u32, target: u32, source: u32) -> u32;
    pub fn pauseless_clear(heap: *mut Handle, thread: u32, target: u32) -> u32;
    pub fn pauseless_is_null(heap: *mut Handle, thread: u32, reg: u32, is_so: *mut bool) -> u32;
    pub fn pauseless_get(
        heap: *mut Handle,
        thread: u32,
        object: u32,
        index: u32,
        value: *mut u64,
    ) -> u32;
    pub fn pauseless_set(
        heap: *mut Handle,
        thread: u32,
        object: u32,
        index: u32,
        value: u64,
    ) -> u32;
    pub fn pauseless_collect(heap: *mut Handle, percent: u32, done: *mut Collected) -> u32;
    pub fn pauseless_verify(heap: *mut Handle) -> u32;
    pub fn pauseless_view_global(heap: *mut Handle, global: u32, place: *mut u64) -> u32;
    pub fn pauseless_view_load(heap: *mut Handle, object: u64, field: u32, place: *mut u64) -> u32;
    pub fn pauseless_view_get(heap: *mut Handle, object: u64, index: u32, value: *mut u64) -> u32;
}

/// Defines the code of each name and `text`, which is `pauseless_text`: that one is inline in the header, and the
/// archive doesn't have it.
macro_rules! codes {
    ($($name:ident $number:literal $text:literal)*) => {
        #[allow(dead_code)]
        impl super::Code {
            $(pub const $name: super::Code = super::Code($number);)*
        }

        pub fn text(code: u32) -> &'static str {
            match code {
                $($number => $text,)*
                _ => "no code of pauseless",
            }
        }
    };
}

codes! {
    DONE 0 "done"
    NO_HEAP 1 "the handle has no heap"
    HAS_HEAP 2 "the handle has a heap already"
    NO_ACTOR 3 "there is no such thread"
    BAD_INDEX 4 "a number names nothing"
    PARKED 5 "the thread is parked"
    NOT_PARKED 6 "the thread isn't parked"
    BUSY 7 "a load isn't finished"
    NOT_BUSY 8 "no load has begun"
    NULL 9 "the register is null"
    STALL 10 "the register names a page whose objects can't be copied yet"
    STALE 11 "the register names a protected page"
    NO_ROOM 12 "there is no buffer, or it is too small"
    HAS_BUFFER 13 "the thread has a buffer"
    NO_FRAMES 14 "there are too few free frames"
    NO_PAGES 15 "there are too few unused page numbers"
    PHASE 16 "the collector's phase has no such step"
    ALREADY_CROSSED 17 "the thread has crossed already"
    NOT_CROSSED 18 "a thread hasn't crossed"
    NOT_TODO 19 "nothing there is to be scanned"
    TAKEN 20 "a worker has it"
    TODO_LEFT 21 "something is still to be scanned"
    PENDING 22 "a thread's load isn't finished"
    UNRIPE 23 "a page isn't closed"
    UNCOPIED 24 "a page has an object that isn't copied"
    COPIED 25 "the object is copied already"
    LENT 26 "a page has a buffer that is lent"
    BIRTHS 27 "no more objects may be born"
    HISTORY_FULL 28 "the history is full"
    MEMORY 29 "memory was refused"
    RANGE_OF_WORDS 30 "words of a page out of range"
    RANGE_OF_FRAMES 31 "frames out of range"
    RANGE_OF_PAGES 32 "page numbers out of range"
    RANGE_OF_THREADS 33 "threads out of range"
    RANGE_OF_WORKERS 34 "workers out of range"
    RANGE_OF_REGISTERS 35 "registers out of range"
    RANGE_OF_GLOBALS 36 "globals out of range"
    RANGE_OF_LAYOUTS 37 "layouts out of range"
    RANGE_OF_BIRTHS 38 "births out of range"
    RANGE_OF_HISTORY 39 "history out of range"
    UNSOUND 40 "the heap is not sound"
    BAD_POLICY 41 "a policy out of range"
    NO_REGISTER 260 "there is no such register"
    NO_GLOBAL 516 "there is no such global"
    NO_LAYOUT 772 "there is no such layout"
    NO_FIELD 1028 "the object has no such reference"
    NO_DATUM 1284 "the object has no such data word"
    BAD_WORDS 1540 "no page has a buffer of so many words"
    OBJECT_TOO_LARGE 268 "the object is larger than the policy's buffers"
    LAYOUT_TOO_LARGE 293 "an object of a layout is larger than a page"
    POLICY_WORDS 297 "words of a policy out of range"
    POLICY_FREE 553 "free frames of a policy out of range"
    POLICY_PERCENT 809 "percent out of range"
}
