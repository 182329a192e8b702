//! The same as plain_seal.rs, whose tags are made by OpenSSL's HMAC. The library is loaded when the program starts.
#[path = "plain_seal/host.rs"]
mod host;

use std::ffi::{CStr, c_char, c_int, c_uint, c_void};

unsafe extern "C" {
    fn dlopen(name: *const c_char, flags: c_int) -> *mut c_void;
    fn dlsym(library: *mut c_void, name: *const c_char) -> *mut c_void;
}

type Init = unsafe extern "C" fn(*mut c_void, *const c_void, c_int, *const c_void, *mut c_void) -> c_int;
type Update = unsafe extern "C" fn(*mut c_void, *const u8, usize) -> c_int;
type Final = unsafe extern "C" fn(*mut c_void, *mut u8, *mut c_uint) -> c_int;

/// A context with the key, and the functions that are called for each tag.
struct OpenSsl {
    context: *mut c_void,
    init: Init,
    update: Update,
    end: Final,
}

fn found(library: *mut c_void, name: &CStr) -> *mut c_void {
    let function = unsafe { dlsym(library, name.as_ptr()) };
    assert!(!function.is_null(), "libcrypto.so.3 has no {name:?}");
    function
}

impl host::Tags for OpenSsl {
    fn new(key: &[u8; host::KEY]) -> Self {
        unsafe {
            let library = dlopen(c"libcrypto.so.3".as_ptr(), 2);
            assert!(!library.is_null(), "libcrypto.so.3 isn't there");
            let make: unsafe extern "C" fn() -> *mut c_void = std::mem::transmute(found(library, c"HMAC_CTX_new"));
            let sha256: unsafe extern "C" fn() -> *const c_void = std::mem::transmute(found(library, c"EVP_sha256"));
            let init: Init = std::mem::transmute(found(library, c"HMAC_Init_ex"));
            let update: Update = std::mem::transmute(found(library, c"HMAC_Update"));
            let end: Final = std::mem::transmute(found(library, c"HMAC_Final"));
            let context = make();
            assert_eq!(init(context, key.as_ptr().cast(), host::KEY as c_int, sha256(), std::ptr::null_mut()), 1);
            OpenSsl { context, init, update, end }
        }
    }

    fn tag(&mut self, text: &[u8]) -> [u8; 16] {
        let mut whole = [0; 32];
        unsafe {
            (self.init)(self.context, std::ptr::null(), 0, std::ptr::null(), std::ptr::null_mut());
            (self.update)(self.context, text.as_ptr(), text.len());
            (self.end)(self.context, whole.as_mut_ptr(), std::ptr::null_mut());
        }
        whole[..16].try_into().unwrap()
    }
}

fn main() {
    host::run::<OpenSsl>();
}
