//! Shared objects, opened as the program runs.

use std::ffi::{c_char, c_int, c_void, CStr, CString};

#[link(name = "dl")]
extern "C" {
    fn dlopen(name: *const c_char, flags: c_int) -> *mut c_void;
    fn dlsym(library: *mut c_void, name: *const c_char) -> *mut c_void;
}

const RTLD_NOW: c_int = 2;

/// One that stays open.
pub struct Shared(*mut c_void);

impl Shared {
    /// By its path, or by its name if it is installed.
    pub fn open(name: &str) -> Option<Shared> {
        let name = CString::new(name).ok()?;
        // SAFETY: the name ends in NUL.
        let library = unsafe { dlopen(name.as_ptr(), RTLD_NOW) };
        (!library.is_null()).then_some(Shared(library))
    }

    /// # Safety
    /// `F` is the type of that function.
    pub unsafe fn function<F: Copy>(&self, name: &CStr) -> Option<F> {
        let found = dlsym(self.0, name.as_ptr());
        // A function's address is a pointer's size here.
        (!found.is_null()).then(|| std::mem::transmute_copy(&found))
    }
}
