//! The library of some build as a shared object, so that two builds can be timed in one run.

use std::ffi::{c_char, c_int, c_void, CStr, CString};
use std::mem;

extern "C" {
    fn dlopen(path: *const c_char, flags: c_int) -> *mut c_void;
    fn dlsym(library: *mut c_void, name: *const c_char) -> *mut c_void;
}

/// C's RTLD_NOW. Without RTLD_GLOBAL the symbols stay the library's own.
const RTLD_NOW: c_int = 2;

type Move = unsafe extern "C" fn(*mut u8, usize, u64, usize, u64, u32) -> u64;
type LogicalFields = unsafe extern "C" fn(u64, u32) -> u64;

/// The two entries that are timed, called by pointer.
#[derive(Clone, Copy)]
pub struct Library {
    mov: Move,
    logical_fields: LogicalFields,
}

impl Library {
    /// The entries of a shared object, or nothing where it cannot be loaded or lacks one of them.
    ///
    /// # Safety
    /// It is made of this project's static library, at a state at which the two entries have these types: `vaimalofo_move` takes bytes,
    /// length, base address, position, value and register, as from request g on. Before, it took no base address; nothing here can tell.
    pub unsafe fn load(path: &str) -> Option<Library> {
        let path = CString::new(path).ok()?;
        let library = dlopen(path.as_ptr(), RTLD_NOW);
        let mov = entry(library, c"vaimalofo_move")?;
        let logical_fields = entry(library, c"vaimalofo_logical_fields")?;
        Some(Library {
            mov: mem::transmute::<*mut c_void, Move>(mov),
            logical_fields: mem::transmute::<*mut c_void, LogicalFields>(logical_fields),
        })
    }

    /// How many words a move wrote at base address 0, above the refusal's number.
    #[inline]
    pub fn mov(self, bytes: &mut [u8], position: usize, value: u64, register: u32) -> u64 {
        // SAFETY: pointer and length are the slice's, lent for the call.
        unsafe { (self.mov)(bytes.as_mut_ptr(), bytes.len(), 0, position, value, register) }
    }

    /// The fields and their element's length above the refusal's number; before request d there was no length, and 0 in its place.
    #[inline]
    pub fn logical_fields(self, value: u64, width: u32) -> u64 {
        // SAFETY: numbers alone.
        unsafe { (self.logical_fields)(value, width) }
    }
}

/// A symbol of a library, or nothing where the library was not loaded or lacks it.
unsafe fn entry(library: *mut c_void, name: &CStr) -> Option<*mut c_void> {
    if library.is_null() {
        return None;
    }
    let symbol = dlsym(library, name.as_ptr());
    (!symbol.is_null()).then_some(symbol)
}
