//! A side of the benchmark that tools/bench has built of C++, loaded where it is there.

use std::ffi::{CString, c_char, c_int, c_void};

// of the C library, which every Rust program on Linux is linked with
unsafe extern "C" {
    fn dlopen(file: *const c_char, flags: c_int) -> *mut c_void;
    fn dlsym(library: *mut c_void, name: *const c_char) -> *mut c_void;
}

const RTLD_NOW: c_int = 2;

pub struct Other {
    file: CString,
    library: *mut c_void,
}

impl Other {
    pub fn loaded(file: &str) -> Self {
        let file = CString::new(file).expect("a file's name");
        // SAFETY: the name is a C string.
        let library = unsafe { dlopen(file.as_ptr(), RTLD_NOW) };
        assert!(!library.is_null(), "{file:?} cannot be loaded");
        Self { file, library }
    }

    /// The function of a name.
    pub fn named(&self, name: &str) -> *mut c_void {
        let name = CString::new(name).expect("a name");
        // SAFETY: the library is loaded, and the name is a C string.
        let found = unsafe { dlsym(self.library, name.as_ptr()) };
        assert!(!found.is_null(), "{:?} has no {name:?}", self.file);
        found
    }
}
