// A library that is loaded before a program's own (LD_PRELOAD) and refuses one of its allocations: the REFUSE_FROM-th call of
// malloc, calloc, realloc, reallocarray, posix_memalign, aligned_alloc or memalign, and with REFUSE_UP_TO all from there up to that
// one. Calls count from the moment at which all libraries are loaded and `main` has not begun yet; those of the C library count as
// the program's own do. What is refused is told in a line of the file that REFUSE_TOLD names.
#![no_std]

use core::ffi::{c_char, c_int, c_long, c_void};
use core::ptr::null_mut;
use core::sync::atomic::{AtomicPtr, AtomicU64, Ordering::SeqCst};

unsafe extern "C" {
    fn dlsym(handle: *mut c_void, name: *const c_char) -> *mut c_void;
    fn getenv(name: *const c_char) -> *const c_char;
    fn open(path: *const c_char, flags: c_int, mode: c_int) -> c_int;
    fn write(fd: c_int, bytes: *const c_void, count: usize) -> isize;
    fn close(fd: c_int) -> c_int;
    fn abort() -> !;
    fn __errno_location() -> *mut c_int;
}

const RTLD_NEXT: *mut c_void = -1 as c_long as *mut c_void;
const ENOMEM: c_int = 12;
const APPENDED: c_int = 0o1 | 0o100 | 0o2000;

// The first call that is refused and the last one; none before the libraries are loaded.
static FIRST: AtomicU64 = AtomicU64::new(u64::MAX);
static LAST: AtomicU64 = AtomicU64::new(0);
static CALLS: AtomicU64 = AtomicU64::new(0);
static TOLD: AtomicPtr<c_char> = AtomicPtr::new(null_mut());

#[panic_handler]
fn panic(_: &core::panic::PanicInfo<'_>) -> ! {
    unsafe { abort() }
}

// What compiled parts of `core` name; nothing here unwinds.
#[unsafe(no_mangle)]
pub extern "C" fn rust_eh_personality() {}

// A variable's value as a number, none where it is absent or has other signs than digits.
unsafe fn number(name: &core::ffi::CStr) -> Option<u64> {
    let text = unsafe { getenv(name.as_ptr()) };
    if text.is_null() {
        return None;
    }
    let digits = unsafe { core::ffi::CStr::from_ptr(text) };
    digits.to_str().ok()?.parse().ok()
}

// Runs when all libraries are loaded: it looks each function up, so that none is looked up behind the count, and begins to count.
unsafe extern "C" fn begin() {
    unsafe {
        for next in [&MALLOC, &CALLOC, &REALLOC, &REALLOCARRAY, &POSIX_MEMALIGN, &ALIGNED_ALLOC, &MEMALIGN] {
            next.get();
        }
        TOLD.store(getenv(c"REFUSE_TOLD".as_ptr()).cast_mut(), SeqCst);
        let first = number(c"REFUSE_FROM").unwrap_or(u64::MAX);
        LAST.store(number(c"REFUSE_UP_TO").unwrap_or(first), SeqCst);
        CALLS.store(0, SeqCst);
        FIRST.store(first, SeqCst);
    }
}

#[used]
#[unsafe(link_section = ".init_array")]
static BEGIN: unsafe extern "C" fn() = begin;

// A function of the library behind this one, looked up once.
struct Next {
    name: &'static core::ffi::CStr,
    found: AtomicPtr<c_void>,
}

impl Next {
    const fn new(name: &'static core::ffi::CStr) -> Next {
        Next { name, found: AtomicPtr::new(null_mut()) }
    }

    fn get(&self) -> *mut c_void {
        let found = self.found.load(SeqCst);
        if !found.is_null() {
            return found;
        }
        let found = unsafe { dlsym(RTLD_NEXT, self.name.as_ptr()) };
        if found.is_null() {
            unsafe { abort() }
        }
        self.found.store(found, SeqCst);
        found
    }
}

static MALLOC: Next = Next::new(c"malloc");
static CALLOC: Next = Next::new(c"calloc");
static REALLOC: Next = Next::new(c"realloc");
static REALLOCARRAY: Next = Next::new(c"reallocarray");
static POSIX_MEMALIGN: Next = Next::new(c"posix_memalign");
static ALIGNED_ALLOC: Next = Next::new(c"aligned_alloc");
static MEMALIGN: Next = Next::new(c"memalign");

// Counts a call, and says whether it is refused; then it is told.
fn is_refused(what: &core::ffi::CStr, size: usize) -> bool {
    let call = CALLS.fetch_add(1, SeqCst) + 1;
    let refused = FIRST.load(SeqCst) <= call && call <= LAST.load(SeqCst);
    if refused {
        tell(call, what, size);
        unsafe { *__errno_location() = ENOMEM }
    }
    refused
}

// A line of what is told: `17 malloc 96`. Its signs are put one behind the other, as far as there is room.
struct Told {
    bytes: [u8; 80],
    length: usize,
}

impl Told {
    fn put(&mut self, byte: u8) {
        if let Some(place) = self.bytes.get_mut(self.length) {
            *place = byte;
            self.length += 1;
        }
    }

    fn put_number(&mut self, number: u64) {
        if number >= 10 {
            self.put_number(number / 10);
        }
        self.put(b'0' + (number % 10) as u8);
    }
}

fn tell(call: u64, what: &core::ffi::CStr, size: usize) {
    let path = TOLD.load(SeqCst);
    if path.is_null() {
        return;
    }
    let mut line = Told { bytes: [0; 80], length: 0 };
    line.put_number(call);
    line.put(b' ');
    what.to_bytes().iter().for_each(|byte| line.put(*byte));
    line.put(b' ');
    line.put_number(size as u64);
    line.put(b'\n');
    unsafe {
        let fd = open(path, APPENDED, 0o600);
        if write(fd, line.bytes.as_ptr().cast(), line.length) != line.length as isize {
            abort();
        }
        close(fd);
    }
}

type Sized = unsafe extern "C" fn(usize) -> *mut c_void;
type Twice = unsafe extern "C" fn(usize, usize) -> *mut c_void;
type Moved = unsafe extern "C" fn(*mut c_void, usize) -> *mut c_void;
type MovedTwice = unsafe extern "C" fn(*mut c_void, usize, usize) -> *mut c_void;
type Placed = unsafe extern "C" fn(*mut *mut c_void, usize, usize) -> c_int;

#[unsafe(no_mangle)]
pub unsafe extern "C" fn malloc(size: usize) -> *mut c_void {
    if is_refused(MALLOC.name, size) {
        return null_mut();
    }
    unsafe { core::mem::transmute::<_, Sized>(MALLOC.get())(size) }
}

#[unsafe(no_mangle)]
pub unsafe extern "C" fn calloc(count: usize, size: usize) -> *mut c_void {
    if is_refused(CALLOC.name, size.wrapping_mul(count)) {
        return null_mut();
    }
    unsafe { core::mem::transmute::<_, Twice>(CALLOC.get())(count, size) }
}

#[unsafe(no_mangle)]
pub unsafe extern "C" fn realloc(block: *mut c_void, size: usize) -> *mut c_void {
    if is_refused(REALLOC.name, size) {
        return null_mut();
    }
    unsafe { core::mem::transmute::<_, Moved>(REALLOC.get())(block, size) }
}

#[unsafe(no_mangle)]
pub unsafe extern "C" fn reallocarray(block: *mut c_void, count: usize, size: usize) -> *mut c_void {
    if is_refused(REALLOCARRAY.name, size.wrapping_mul(count)) {
        return null_mut();
    }
    unsafe { core::mem::transmute::<_, MovedTwice>(REALLOCARRAY.get())(block, count, size) }
}

#[unsafe(no_mangle)]
pub unsafe extern "C" fn posix_memalign(block: *mut *mut c_void, align: usize, size: usize) -> c_int {
    if is_refused(POSIX_MEMALIGN.name, size) {
        return ENOMEM;
    }
    unsafe { core::mem::transmute::<_, Placed>(POSIX_MEMALIGN.get())(block, align, size) }
}

#[unsafe(no_mangle)]
pub unsafe extern "C" fn aligned_alloc(align: usize, size: usize) -> *mut c_void {
    if is_refused(ALIGNED_ALLOC.name, size) {
        return null_mut();
    }
    unsafe { core::mem::transmute::<_, Twice>(ALIGNED_ALLOC.get())(align, size) }
}

#[unsafe(no_mangle)]
pub unsafe extern "C" fn memalign(align: usize, size: usize) -> *mut c_void {
    if is_refused(MEMALIGN.name, size) {
        return null_mut();
    }
    unsafe { core::mem::transmute::<_, Twice>(MEMALIGN.get())(align, size) }
}
