//! ISA-L's exclusive-or, declared by hand and linked where the feature `isal` is set.
//!
//! On x86-64 its buffers must begin at multiples of 32 bytes (`raid.h`) and `xor_gen` takes two sources or more; on aarch64 it
//! takes any. All units here are 512 or 4,096 bytes in buffers at a boundary (`memory`), so nothing has to be done for alignment;
//! smaller units are not given to it.

use std::ffi::c_void;
use std::os::raw::c_int;

#[cfg(feature = "isal")]
#[link(name = "isal")]
extern "C" {
    /// The last vector becomes the exclusive-or of the others; 0 where it is done.
    fn xor_gen(vectors: c_int, length: c_int, array: *mut *mut c_void) -> c_int;
    /// 0 where the exclusive-or of the vectors is zeros.
    fn xor_check(vectors: c_int, length: c_int, array: *mut *mut c_void) -> c_int;
}

#[cfg(not(feature = "isal"))]
unsafe fn xor_gen(_: c_int, _: c_int, _: *mut *mut c_void) -> c_int {
    1
}

#[cfg(not(feature = "isal"))]
unsafe fn xor_check(_: c_int, _: c_int, _: *mut *mut c_void) -> c_int {
    1
}

/// The vectors of one call: at most 16 units and a buffer.
pub struct Vectors {
    array: [*mut c_void; 17],
    many: usize,
}

impl Vectors {
    pub fn new() -> Vectors {
        Vectors {
            array: [std::ptr::null_mut(); 17],
            many: 0,
        }
    }

    pub fn push(&mut self, start: *mut u8) {
        self.array[self.many] = start.cast();
        self.many += 1;
    }

    /// # Safety
    /// Each vector has this many bytes that may be read, and the last one may be written.
    pub unsafe fn generate(&mut self, length: usize) {
        let given = xor_gen(self.many as c_int, length as c_int, self.array.as_mut_ptr());
        assert_eq!(given, 0);
    }

    /// # Safety
    /// Each vector has this many bytes that may be read.
    pub unsafe fn are_zeros(&mut self, length: usize) -> bool {
        xor_check(self.many as c_int, length as c_int, self.array.as_mut_ptr()) == 0
    }
}

/// Whether it is linked and its `xor_gen` takes this many vectors.
pub fn generates(vectors: usize) -> bool {
    #[repr(align(64))]
    struct Unit([u8; 512]);
    let mut units: Vec<Unit> = (0..vectors).map(|_| Unit([0; 512])).collect();
    let mut array: Vec<*mut c_void> = units.iter_mut().map(|u| u.0.as_mut_ptr().cast()).collect();
    cfg!(feature = "isal") && unsafe { xor_gen(vectors as c_int, 512, array.as_mut_ptr()) == 0 }
}

/// Whether it is linked.
pub fn checks() -> bool {
    cfg!(feature = "isal")
}
