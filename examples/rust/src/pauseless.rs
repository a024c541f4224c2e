//! A safe heap over the C library. A `Heap` owns its handle and frees the heap when it is dropped. Threads, registers,
//! globals, layouts and fields are numbers, as in C. A call that is made from a signal handler, or in a forked child of
//! a program with threads, is beyond what types can rule out.

mod calls;

use calls::*;
pub use calls::{Collected, Layout, Policy, Sizes};
use std::cell::UnsafeCell;
use std::fmt;
use std::marker::PhantomData;
use std::num::NonZeroU64;

/// Why a call didn't do what was asked: a code of `pauseless.h` other than `DONE`.
#[derive(Clone, Copy, Debug, PartialEq, Eq)]
pub struct Code(u32);

impl fmt::Display for Code {
    fn fmt(&self, f: &mut fmt::Formatter) -> fmt::Result {
        f.write_str(text(self.0))
    }
}

impl std::error::Error for Code {}

/// Returns an error for each code but `DONE`.
fn done(code: u32) -> Result<(), Code> {
    match Code(code) {
        Code::DONE => Ok(()),
        code => Err(code),
    }
}

/// Returns the place that a call has written, or `None` for the place of null.
fn place_of<'a>(place: u64) -> Option<Place<'a>> {
    Some(Place(NonZeroU64::new(place)?, PhantomData))
}

impl Sizes {
    /// Returns sizes that serve most heaps.
    pub fn usual(words: u32, frames: u32) -> Sizes {
        let mut sizes = Sizes::default();
        unsafe { pauseless_usual(words, frames, &mut sizes) };
        sizes
    }
}

/// A heap. The cell is for views, whose calls have a pointer to the handle and write nothing.
pub struct Heap {
    handle: UnsafeCell<Handle>,
}

/// Any thread of the system may call for any thread of the heap.
unsafe impl Send for Heap {}

/// Methods with `&self` are views, which threads may have at the same time: an `RwLock<Heap>` is enough for both.
unsafe impl Sync for Heap {}

impl Drop for Heap {
    fn drop(&mut self) {
        unsafe { pauseless_free(self.handle()) }
    }
}

/// The place of an object. The borrow ends before the heap changes, after which the place would mean nothing.
#[derive(Clone, Copy)]
pub struct Place<'a>(NonZeroU64, PhantomData<&'a Heap>);

impl Heap {
    /// Makes a heap with layouts numbered from 0. It gets all its memory here.
    pub fn new(sizes: &Sizes, layouts: &[Layout]) -> Result<Heap, Code> {
        let mut heap = Heap {
            handle: UnsafeCell::new(Handle::NONE),
        };
        let code = unsafe { pauseless_new(heap.handle(), sizes, layouts.as_ptr(), layouts.len()) };
        done(code).map(|()| heap)
    }

    fn handle(&mut self) -> *mut Handle {
        self.handle.get_mut()
    }

    /// Makes an object in a register, with its first references from `sources` and its first data words `nums`. Other
    /// references are null, and other data words 0. The heap is collected for it by the policy.
    #[allow(clippy::too_many_arguments)]
    pub fn make_with(
        &mut self,
        policy: &Policy,
        thread: u32,
        target: u32,
        layout: u32,
        sources: &[u32],
        nums: &[u64],
    ) -> Result<(), Code> {
        let (from, count, words, size) =
            (sources.as_ptr(), sources.len(), nums.as_ptr(), nums.len());
        let heap = self.handle();
        let code = unsafe {
            pauseless_make_with(
                heap, policy, thread, target, layout, from, count, words, size,
            )
        };
        done(code)
    }

    /// Loads an object's reference into a register.
    pub fn load(&mut self, thread: u32, target: u32, object: u32, field: u32) -> Result<(), Code> {
        done(unsafe { pauseless_load(self.handle(), thread, target, object, field) })
    }

    /// Stores what a register names in an object's reference.
    pub fn store(&mut self, thread: u32, object: u32, field: u32, source: u32) -> Result<(), Code> {
        done(unsafe { pauseless_store(self.handle(), thread, object, field, source) })
    }

    /// Loads a global into a register.
    pub fn load_global(&mut self, thread: u32, target: u32, global: u32) -> Result<(), Code> {
        done(unsafe { pauseless_load_global(self.handle(), thread, target, global) })
    }

    /// Stores what a register names in a global.
    pub fn store_global(&mut self, thread: u32, global: u32, source: u32) -> Result<(), Code> {
        done(unsafe { pauseless_store_global(self.handle(), thread, global, source) })
    }

    /// Copies a register to another one.
    pub fn copy(&mut self, thread: u32, target: u32, source: u32) -> Result<(), Code> {
        done(unsafe { pauseless_copy(self.handle(), thread, target, source) })
    }

    /// Sets a register to null.
    pub fn clear(&mut self, thread: u32, target: u32) -> Result<(), Code> {
        done(unsafe { pauseless_clear(self.handle(), thread, target) })
    }

    /// Returns whether a register is null.
    pub fn is_null(&mut self, thread: u32, register: u32) -> Result<bool, Code> {
        let mut is_so = false;
        done(unsafe { pauseless_is_null(self.handle(), thread, register, &mut is_so) })?;
        Ok(is_so)
    }

    /// Reads a data word of an object.
    pub fn get(&mut self, thread: u32, object: u32, index: u32) -> Result<u64, Code> {
        let mut value = 0;
        done(unsafe { pauseless_get(self.handle(), thread, object, index, &mut value) })?;
        Ok(value)
    }

    /// Writes a data word of an object.
    pub fn set(&mut self, thread: u32, object: u32, index: u32, value: u64) -> Result<(), Code> {
        done(unsafe { pauseless_set(self.handle(), thread, object, index, value) })
    }

    /// Collects, and empties pages of which at most `percent` of a hundred words are live.
    pub fn collect(&mut self, percent: u32) -> Result<Collected, Code> {
        let mut collected = Collected::default();
        done(unsafe { pauseless_collect(self.handle(), percent, &mut collected) })?;
        Ok(collected)
    }

    /// Tests that the heap is sound.
    pub fn verify(&mut self) -> Result<(), Code> {
        done(unsafe { pauseless_verify(self.handle()) })
    }

    /// Returns the place of what a global names, or `None` if it is null.
    pub fn view_global(&self, global: u32) -> Result<Option<Place<'_>>, Code> {
        let mut place = 0;
        done(unsafe { pauseless_view_global(self.handle.get(), global, &mut place) })?;
        Ok(place_of(place))
    }

    /// Returns the place of what an object's reference leads to, or `None` if it is null.
    pub fn view_load<'a>(
        &'a self,
        object: Place<'a>,
        field: u32,
    ) -> Result<Option<Place<'a>>, Code> {
        let mut place = 0;
        let (heap, from) = (self.handle.get(), object.0.get());
        done(unsafe { pauseless_view_load(heap, from, field, &mut place) })?;
        Ok(place_of(place))
    }

    /// Reads a data word of an object.
    pub fn view_get(&self, object: Place<'_>, index: u32) -> Result<u64, Code> {
        let mut value = 0;
        let (heap, from) = (self.handle.get(), object.0.get());
        done(unsafe { pauseless_view_get(heap, from, index, &mut value) })?;
        Ok(value)
    }
}
