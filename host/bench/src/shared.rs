//! Shared libraries, loaded at run time.

use std::ffi::{c_char, c_int, c_void, CStr, CString};
use std::mem::transmute_copy;
use std::path::{Path, PathBuf};
use std::{env, fs};

extern "C" {
    fn dlopen(path: *const c_char, flags: c_int) -> *mut c_void;
    fn dlsym(library: *mut c_void, name: *const c_char) -> *mut c_void;
    fn dlerror() -> *const c_char;
}

const RTLD_NOW: c_int = 2;

/// A loaded library.
pub struct Shared(*mut c_void);

/// What the dynamic linker says went wrong.
fn error() -> String {
    let text = unsafe { dlerror() };
    if text.is_null() {
        return "unknown error".to_string();
    }
    unsafe { CStr::from_ptr(text) }.to_string_lossy().into_owned()
}

/// The repository's folder for what is built.
pub fn target() -> PathBuf {
    Path::new(env!("CARGO_MANIFEST_DIR")).join("../../target")
}

impl Shared {
    /// Loads a copy of the library, with an environment variable set. A library that chooses its code when it is loaded
    /// chooses for this copy alone, so that several choices can be timed side by side.
    pub fn load(path: &Path, copy: &str, variable: &str, value: Option<&str>) -> Result<Shared, String> {
        let folder = target().join("bench");
        let file = folder.join(copy).with_extension("so");
        let copied = fs::create_dir_all(&folder).and_then(|()| fs::copy(path, &file));
        copied.map_err(|error| format!("{}: {error}", path.display()))?;
        match value {
            Some(value) => env::set_var(variable, value),
            None => env::remove_var(variable),
        }
        let file = CString::new(file.to_string_lossy().as_bytes()).map_err(|error| error.to_string())?;
        let library = unsafe { dlopen(file.as_ptr(), RTLD_NOW) };
        env::remove_var(variable);
        if library.is_null() {
            return Err(error());
        }
        Ok(Shared(library))
    }

    /// A function.
    ///
    /// # Safety
    /// `F` is the type of a pointer to a function with the signature of this one.
    pub unsafe fn function<F: Copy>(&self, name: &str) -> Result<F, String> {
        let name = CString::new(name).expect("a name without zeros");
        let address = dlsym(self.0, name.as_ptr());
        if address.is_null() {
            return Err(error());
        }
        assert_eq!(size_of::<F>(), size_of::<*mut c_void>());
        Ok(transmute_copy(&address))
    }

    /// What a function without arguments returns, as text.
    pub fn text(&self, name: &str) -> Result<String, String> {
        let text = unsafe { CStr::from_ptr(self.function::<extern "C" fn() -> *const c_char>(name)?()) };
        Ok(text.to_string_lossy().into_owned())
    }
}
