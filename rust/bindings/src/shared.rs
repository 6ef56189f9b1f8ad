//! Shared objects, by the C library's own calls.

use std::ffi::{CStr, CString};
use std::os::raw::{c_char, c_int, c_void};

extern "C" {
    fn dlopen(path: *const c_char, flags: c_int) -> *mut c_void;
    fn dlsym(object: *mut c_void, name: *const c_char) -> *mut c_void;
    fn dlerror() -> *const c_char;
}

/// All symbols are found at once, and serve no other object.
const NOW_AND_LOCAL: c_int = 2;

fn last_error() -> String {
    // The C library's text of the last error, or null.
    unsafe {
        let text = dlerror();
        if text.is_null() {
            "no reason given".into()
        } else {
            CStr::from_ptr(text).to_string_lossy().into_owned()
        }
    }
}

pub fn open(path: &str) -> Result<*mut c_void, String> {
    let name = CString::new(path).map_err(|error| error.to_string())?;
    let object = unsafe { dlopen(name.as_ptr(), NOW_AND_LOCAL) };
    if object.is_null() {
        Err(last_error())
    } else {
        Ok(object)
    }
}

pub fn find(object: *mut c_void, name: &str) -> Result<*mut c_void, String> {
    let name = CString::new(name).map_err(|error| error.to_string())?;
    let symbol = unsafe { dlsym(object, name.as_ptr()) };
    if symbol.is_null() {
        Err(last_error())
    } else {
        Ok(symbol)
    }
}
