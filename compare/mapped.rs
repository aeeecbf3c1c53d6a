//! Memory by mapping, for slices of gigabytes: zeros that take no room, and an output whose middle is one segment over and over.
use std::ffi::{c_char, c_int, c_long, c_uint, c_void};

unsafe extern "C" {
    fn mmap(at: *mut c_void, bytes: usize, protection: c_int, flags: c_int, file: c_int, offset: c_long) -> *mut c_void;
    fn mprotect(at: *mut c_void, bytes: usize, protection: c_int) -> c_int;
    fn munmap(at: *mut c_void, bytes: usize) -> c_int;
    fn memfd_create(name: *const c_char, flags: c_uint) -> c_int;
    fn ftruncate(file: c_int, bytes: c_long) -> c_int;
    fn close(file: c_int) -> c_int;
}

const NONE: c_int = 0;
const READ: c_int = 1;
const WRITE: c_int = 2;
const SHARED: c_int = 0x01;
const PRIVATE: c_int = 0x02;
const FIXED: c_int = 0x10;
const ANONYMOUS: c_int = 0x20;
const NORESERVE: c_int = 0x4000;

/// So many bytes that stand somewhere, until this is dropped.
pub struct Mapped {
    at: *mut u8,
    bytes: usize,
}

impl Mapped {
    /// Addresses for so many bytes, with this protection.
    fn new(bytes: usize, protection: c_int) -> Mapped {
        // SAFETY: a new mapping at a place that the system chooses.
        let at = unsafe { mmap(std::ptr::null_mut(), bytes, protection, PRIVATE | ANONYMOUS | NORESERVE, -1, 0) };
        assert_ne!(at as isize, -1, "no addresses for {bytes} bytes");
        Mapped { at: at.cast(), bytes }
    }

    /// Zeros behind these first bytes. They can't be written: that would end the process.
    pub fn zeros_behind(first: &[u8], bytes: usize) -> Mapped {
        let mapped = Mapped::new(bytes, READ | WRITE);
        // SAFETY: so many bytes were mapped, and nobody else has them.
        unsafe {
            std::slice::from_raw_parts_mut(mapped.at, first.len()).copy_from_slice(first);
            assert_eq!(mprotect(mapped.at.cast(), bytes, READ), 0);
        }
        mapped
    }

    /// All of them.
    pub fn slice(&self) -> &[u8] {
        // SAFETY: so many bytes are mapped as long as this lives, and nothing writes them.
        unsafe { std::slice::from_raw_parts(self.at, self.bytes) }
    }
}

impl Drop for Mapped {
    fn drop(&mut self) {
        // SAFETY: this mapping is nobody else's.
        unsafe { munmap(self.at.cast(), self.bytes) };
    }
}

/// Bytes of a segment.
pub const SEGMENT: usize = 1 << 24;

/// Addresses for many bytes, over three segments of memory: the first and the last stand for themselves, and all between are the second.
/// What is written between can be read only where it is the same in each.
pub struct Folded {
    whole: Mapped,
    segments: Mapped,
}

impl Folded {
    /// At least so many bytes.
    pub fn new(bytes: usize) -> Folded {
        let count = bytes.div_ceil(SEGMENT).max(3);
        let whole = Mapped::new(count * SEGMENT, NONE);
        let segments = Mapped::new(3 * SEGMENT, NONE);
        // SAFETY: both mappings are replaced, in their own addresses, by parts of a file without a name.
        unsafe {
            let file = memfd_create(c"folded".as_ptr(), 0);
            assert!(file >= 0 && ftruncate(file, 3 * SEGMENT as c_long) == 0, "no file in memory");
            let put = |at: *mut u8, bytes: usize, offset: usize| {
                let got = mmap(at.cast(), bytes, READ | WRITE, SHARED | FIXED, file, offset as c_long);
                assert_eq!(got, at.cast(), "no mapping");
            };
            put(segments.at, 3 * SEGMENT, 0);
            for k in 0..count {
                let segment = if k == 0 { 0 } else { 1 + usize::from(k + 1 == count) };
                put(whole.at.add(k * SEGMENT), SEGMENT, segment * SEGMENT);
            }
            close(file);
        }
        Folded { whole, segments }
    }

    /// Where the bytes stand, and how many before the last segment.
    pub fn place(&mut self) -> (*mut u8, usize) {
        (self.whole.at, self.whole.bytes - SEGMENT)
    }

    /// The three segments one behind the other.
    pub fn segments(&mut self) -> &mut [u8] {
        // SAFETY: so many bytes are mapped as long as this lives; the other addresses are only handed out as a place.
        unsafe { std::slice::from_raw_parts_mut(self.segments.at, self.segments.bytes) }
    }
}
