//! A shared library, loaded into this very process.
use std::ffi::{c_char, c_int, c_void, CString};
use std::os::unix::ffi::OsStrExt;
use std::path::Path;

extern "C" {
    fn dlopen(file: *const c_char, how: c_int) -> *mut c_void;
    fn dlsym(library: *mut c_void, name: *const c_char) -> *mut c_void;
}

/// All names are looked up at once.
const RTLD_NOW: c_int = 2;

pub struct Library(*mut c_void);

impl Library {
    /// Only for a library that runs nothing when it is loaded. It is never unloaded.
    pub fn load(file: &Path) -> Result<Self, String> {
        let path = CString::new(file.as_os_str().as_bytes()).unwrap();
        // SAFETY: the library runs nothing when it is loaded, and it is never unloaded.
        let library = unsafe { dlopen(path.as_ptr(), RTLD_NOW) };
        if library.is_null() {
            return Err(format!("{} can't be loaded", file.display()));
        }
        Ok(Library(library))
    }

    /// Null where there is no such name.
    pub fn symbol(&self, name: &str) -> *mut c_void {
        let name = CString::new(name).unwrap();
        // SAFETY: the library is loaded and the name ends in a zero.
        unsafe { dlsym(self.0, name.as_ptr()) }
    }
}
