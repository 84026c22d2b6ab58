//! Catalogues that are read once.
use crate::Error;
use std::ptr;
use std::sync::{Arc, OnceLock};

/// A catalogue that is read once: the built-in one, or one of your own over it. Threads may ask it at once.
#[derive(Debug)]
pub struct Catalogue {
    handle: *mut scl_sys::Catalogue,
}

// SAFETY: the library only reads what is behind a handle, until it is freed, which any thread may do.
unsafe impl Send for Catalogue {}
unsafe impl Sync for Catalogue {}

impl Catalogue {
    /// The catalogue of this text over the built-in one: an entry adds, or by its name replaces, a built-in one.
    pub fn new(text: impl AsRef<[u8]>) -> Result<Catalogue, Error> {
        let (text, mut handle, mut wanted) = (text.as_ref(), ptr::null_mut(), 0);
        // SAFETY: the pointers are of a slice with this length, and of variables.
        let status = unsafe {
            scl_sys::scl_catalogue_new(text.as_ptr(), text.len(), &mut handle, &mut wanted)
        };
        match status {
            scl_sys::OK => Ok(Catalogue { handle }),
            scl_sys::BAD_CATALOGUE => Err(Error::BadCatalogue(wanted)),
            _ => Err(Error::NoMemory),
        }
    }

    pub(crate) fn handle(&self) -> *const scl_sys::Catalogue {
        self.handle
    }
}

impl Drop for Catalogue {
    fn drop(&mut self) {
        // SAFETY: the handle was made, and nothing else has it.
        unsafe { scl_sys::scl_catalogue_drop(self.handle) }
    }
}

/// The built-in catalogue, which is read once a process.
pub(crate) fn built_in() -> Result<Arc<Catalogue>, Error> {
    static BUILT_IN: OnceLock<Arc<Catalogue>> = OnceLock::new();
    match BUILT_IN.get() {
        Some(it) => Ok(it.clone()),
        None => {
            let it = Arc::new(Catalogue::new("")?);
            Ok(BUILT_IN.get_or_init(|| it).clone())
        }
    }
}
