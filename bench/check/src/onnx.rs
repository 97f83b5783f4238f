//! The C++ side (bench/onnx/side.cpp), loaded at run time so that all else works where it was not built.

use std::ffi::{c_char, c_int, c_void, CStr, CString};
use std::mem::transmute;

extern "C" {
    fn dlopen(file: *const c_char, flags: c_int) -> *mut c_void;
    fn dlsym(library: *mut c_void, name: *const c_char) -> *mut c_void;
    fn dlerror() -> *const c_char;
}

const RTLD_NOW: c_int = 2;

type Parse = unsafe extern "C" fn(*const u8, usize) -> *mut c_void;
type Free = unsafe extern "C" fn(*mut c_void);
type Check = unsafe extern "C" fn(*const c_void, *mut c_char, usize) -> c_int;

pub struct Onnx {
    parse: Parse,
    free: Free,
    check: Check,
}

/// A parsed model.
pub struct Parsed<'o> {
    onnx: &'o Onnx,
    model: *mut c_void,
}

impl Onnx {
    pub fn load(path: &str) -> Result<Onnx, String> {
        let file = CString::new(path).map_err(|_| "a path with a zero byte".to_string())?;
        // SAFETY: side.cpp defines these three functions with these types, and the library is never unloaded.
        unsafe {
            let library = dlopen(file.as_ptr(), RTLD_NOW);
            if library.is_null() {
                return Err(CStr::from_ptr(dlerror()).to_string_lossy().into_owned());
            }
            Ok(Onnx {
                parse: transmute::<*mut c_void, Parse>(symbol(library, c"onnx_side_parse")?),
                free: transmute::<*mut c_void, Free>(symbol(library, c"onnx_side_free")?),
                check: transmute::<*mut c_void, Check>(symbol(library, c"onnx_side_check")?),
            })
        }
    }

    /// None where the parse fails.
    pub fn parse(&self, bytes: &[u8]) -> Option<Parsed<'_>> {
        // SAFETY: the bytes live through the call, and the parsed model keeps none of them.
        let model = unsafe { (self.parse)(bytes.as_ptr(), bytes.len()) };
        (!model.is_null()).then_some(Parsed { onnx: self, model })
    }
}

unsafe fn symbol(library: *mut c_void, name: &CStr) -> Result<*mut c_void, String> {
    let found = dlsym(library, name.as_ptr());
    if found.is_null() {
        return Err(format!("no {name:?} in it"));
    }
    Ok(found)
}

impl Parsed<'_> {
    /// What onnx::checker has against the model.
    pub fn check(&self) -> Result<(), String> {
        let mut told = [0u8; 256];
        // SAFETY: the model is alive, and no more than the buffer's length is written.
        let passed = unsafe { (self.onnx.check)(self.model, told.as_mut_ptr().cast(), told.len()) };
        if passed != 0 {
            return Ok(());
        }
        let end = told.iter().position(|&byte| byte == 0).unwrap_or(told.len());
        Err(String::from_utf8_lossy(&told[..end]).into_owned())
    }
}

impl Drop for Parsed<'_> {
    fn drop(&mut self) {
        // SAFETY: it was made by the same library and is not used again.
        unsafe { (self.onnx.free)(self.model) }
    }
}
