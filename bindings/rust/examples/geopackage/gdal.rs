//! Reads a file with GDAL. It loads GDAL's C library at run time: to build this, or to run it
//! without a file, you don't need GDAL.

use std::ffi::{CString, c_char, c_int, c_uint, c_void};
use std::mem::transmute;
use std::path::Path;
use std::ptr;

use vortex_bits::arrow::{ArrowArrayStream, Stream};

unsafe extern "C" {
    fn dlopen(name: *const c_char, flags: c_int) -> *mut c_void;
    fn dlsym(library: *mut c_void, name: *const c_char) -> *mut c_void;
}

const NOW: c_int = 2;
const VECTOR: c_uint = 4;

type Texts = *const *const c_char;
type Register = unsafe extern "C" fn();
type Open = unsafe extern "C" fn(*const c_char, c_uint, Texts, Texts, Texts) -> *mut c_void;
type Layer = unsafe extern "C" fn(*mut c_void, *const c_char) -> *mut c_void;
type Streams = unsafe extern "C" fn(*mut c_void, *mut ArrowArrayStream, Texts) -> bool;
type Close = unsafe extern "C" fn(*mut c_void);

/// The functions of GDAL that are called.
pub struct Gdal {
    open: Open,
    layer: Layer,
    stream: Streams,
    close: Close,
}

impl Gdal {
    /// Loads the library.
    ///
    /// # Errors
    ///
    /// Returns what is missing.
    pub fn load() -> Result<Gdal, &'static str> {
        let numbers = (32..60).map(|number| format!("libgdal.so.{number}"));
        let names = ["libgdal.so".to_string()].into_iter().chain(numbers);
        let open = |name: String| {
            let name = c_string(&name);
            // SAFETY: it is a text that ends with 0.
            unsafe { dlopen(name.as_ptr(), NOW) }
        };
        let found = names.map(open).find(|it| !it.is_null());
        let library = found.ok_or("libgdal")?;
        let function = |name: &str| {
            let name = c_string(name);
            // SAFETY: the library is open, and stays so.
            let found = unsafe { dlsym(library, name.as_ptr()) };
            if found.is_null() {
                return Err("libgdal with OGR_L_GetArrowStream");
            }
            Ok(found)
        };
        // SAFETY: these are the types of GDAL's headers.
        unsafe {
            transmute::<*mut c_void, Register>(function("GDALAllRegister")?)();
            Ok(Gdal {
                open: transmute::<*mut c_void, Open>(function("GDALOpenEx")?),
                layer: transmute::<*mut c_void, Layer>(function("GDALDatasetGetLayerByName")?),
                stream: transmute::<*mut c_void, Streams>(function("OGR_L_GetArrowStream")?),
                close: transmute::<*mut c_void, Close>(function("GDALClose")?),
            })
        }
    }

    /// Opens a file.
    ///
    /// # Errors
    ///
    /// Returns an error if GDAL can't open it.
    pub fn open(&self, file: &Path) -> Result<File<'_>, String> {
        let (name, none) = (c_string(&file.to_string_lossy()), ptr::null());
        // SAFETY: the name ends with 0, and the other lists may be null.
        let set = unsafe { (self.open)(name.as_ptr(), VECTOR, none, none, none) };
        if set.is_null() {
            return Err(format!("GDAL can't open {}", file.display()));
        }
        Ok(File { gdal: self, set })
    }
}

/// An open file.
pub struct File<'a> {
    gdal: &'a Gdal,
    set: *mut c_void,
}

impl File<'_> {
    /// Returns the result of `read` for the stream of a layer with these options of GDAL's.
    ///
    /// # Errors
    ///
    /// Returns an error if the file has no such layer, or GDAL makes no stream of it.
    ///
    /// # Safety
    ///
    /// The stream is dropped before the file is closed. Its batches may stay.
    pub unsafe fn read<T>(
        &self,
        layer: &str,
        options: &[&str],
        read: impl FnOnce(Stream) -> T,
    ) -> Result<T, String> {
        let name = c_string(layer);
        let options: Vec<CString> = options.iter().map(|it| c_string(it)).collect();
        let mut pointers: Vec<_> = options.iter().map(|it| it.as_ptr()).collect();
        pointers.push(ptr::null());
        let mut raw = ArrowArrayStream::empty();
        // SAFETY: the file is open, its texts end with 0 and their list with null; the stream may
        // be written, and is as the interface requires.
        let stream = unsafe {
            let found = (self.gdal.layer)(self.set, name.as_ptr());
            if found.is_null() || !(self.gdal.stream)(found, &raw mut raw, pointers.as_ptr()) {
                return Err(format!("GDAL has no stream of layer {layer}"));
            }
            Stream::from_raw(&raw mut raw).map_err(|error| error.to_string())?
        };
        Ok(read(stream))
    }
}

impl Drop for File<'_> {
    fn drop(&mut self) {
        // SAFETY: it is open, and no stream of it is left.
        unsafe { (self.gdal.close)(self.set) }
    }
}

fn c_string(text: &str) -> CString {
    CString::new(text).expect("a text without a character 0")
}
