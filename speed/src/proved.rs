//! The proved library's calls (`include/selvedgeon.h`), out of a shared object that `speed/run` makes of the static library.
//!
//! All `unsafe` is here. For each call of the library: every pointer is passed with the length of its own slice, and a slice
//! that is written is borrowed alone.
use crate::engine::{Answer, Engine, Record};
use crate::form::Form;
use crate::plain::{Config, Range as Wires, GOES_ON};
use std::ffi::{c_char, c_int, c_void, CStr, CString};
use std::mem::transmute_copy;
use std::ops::Range;

// Each pointer is followed by its length. The first eleven numbers of three of the calls are the configuration.
#[rustfmt::skip]
type Check = unsafe extern "C" fn(
    u8, u32, u8, u8, u8, u8, u8, u8, u32, u32, u8, *const u32, usize, *mut u32, usize, *mut u64, usize,
) -> u32;
#[rustfmt::skip]
type Recheck = unsafe extern "C" fn(
    u8, u32, u8, u8, u8, u8, u8, u8, u32, u32, u8, *const u32, usize, *mut u32, usize, *mut u64, usize,
    u64, u64, *mut i32, usize,
) -> u64;
#[rustfmt::skip]
type TakeBack = unsafe extern "C" fn(
    u8, u32, u8, u8, u8, u8, u8, u8, u32, u32, u8, *mut u32, usize, *mut u32, usize, *mut u64, usize,
    u64, u64, *mut u32, usize,
) -> TakenBack;
type Failures =
    unsafe extern "C" fn(u8, u32, u8, u8, u8, u8, u8, u8, u32, u32, u8, *const u32, usize, *mut u32, usize) -> u64;
type Bench = unsafe extern "C" fn(*const Config, usize, *const u32, usize, *mut u64, usize, *mut u32, usize) -> u32;

/// The header's `struct selvedgeon_rechecked` and `struct selvedgeon_taken_back`.
#[repr(C)]
pub struct Rechecked {
    pub refusal: u32,
    pub cycle: u64,
    pub end: u64,
    pub changes: [i32; 6],
}

#[repr(C)]
pub struct TakenBack {
    pub edit: Rechecked,
    pub back: Rechecked,
}

/// `Config` goes to the bench as it is, so it has to have the size of the header's `struct selvedgeon_config`.
const _: () = assert!(size_of::<Config>() == 28);

// The system's loader, in the C library that std links.
extern "C" {
    fn dlopen(path: *const c_char, flags: c_int) -> *mut c_void;
    fn dlsym(handle: *mut c_void, name: *const c_char) -> *mut c_void;
}

/// All is resolved when it is loaded, so that nothing is while it is timed; the names stay out of other libraries' way.
const RTLD_NOW: c_int = 2;
const RTLD_LOCAL: c_int = 0;

/// A library that was loaded. It stays loaded as long as the program runs.
pub struct Library {
    pub path: String,
    form: Form,
    check: Check,
    recheck: Recheck,
    /// A library from before request §12 has none.
    take_back: Option<TakeBack>,
    failures: Failures,
    bench: Bench,
}

impl Library {
    pub fn open(path: &str) -> Result<Self, String> {
        let name = CString::new(path).map_err(|error| format!("{path}: {error}"))?;
        // A library of the header has no code that runs when it is loaded, and its functions have the types given above.
        unsafe {
            let handle = dlopen(name.as_ptr(), RTLD_NOW | RTLD_LOCAL);
            if handle.is_null() {
                return Err(format!("{path} cannot be loaded"));
            }
            let mut library = Library {
                path: path.into(),
                form: Form::TODAY,
                check: function(handle, c"selvedgeon_check")?,
                recheck: function(handle, c"selvedgeon_recheck")?,
                take_back: function(handle, c"selvedgeon_edit_and_take_back").ok(),
                failures: function(handle, c"selvedgeon_failures")?,
                bench: function(handle, c"selvedgeon_bench")?,
            };
            library.form = Form::of_probe(library.probe()).map_err(|error| format!("{path}: {error}"))?;
            Ok(library)
        }
    }

    /// The answer by which `Form` tells the libraries apart.
    fn probe(&self) -> Answer {
        let one = Wires { left: 0, right: 0 };
        let config = Config { kind: 3, n: 1, p: one, q: one, r: one, min: 0, value: 0, severity: GOES_ON };
        self.full_check(&config, &[0; 4], &mut Record::new(1))
    }

    /// The recheck of an edit of those cycles: the cycle where it stopped, then the six changes. One of the form before has
    /// five, and the sixth, of a mark that it does not have, stays 0.
    pub fn recheck(&self, config: &Config, trace: &[u32], record: &mut Record, edit: Range<usize>) -> Result<[i32; 7], u32> {
        let &Config { kind, n, p, q, r, min, value, severity } = config;
        let Record { rows, words } = record;
        let mut answer = [0; 7];
        let due = &mut answer[..self.form.answer];
        #[rustfmt::skip]
        let answered = unsafe {
            (self.recheck)(
                kind, n, p.left, p.right, q.left, q.right, r.left, r.right, min, value, severity,
                trace.as_ptr(), trace.len(), rows.as_mut_ptr(), rows.len(), words.as_mut_ptr(), words.len(),
                edit.start as u64, edit.end as u64, due.as_mut_ptr(), due.len(),
            )
        };
        done((answered >> 32) as u32).map(|()| answer)
    }

    pub fn takes_back(&self) -> bool {
        self.take_back.is_some()
    }

    /// An edit of those cycles made and taken back, which a library has to have: what the two rechecks answer.
    pub fn edit_and_take_back(
        &self,
        config: &Config,
        trace: &mut [u32],
        record: &mut Record,
        edit: Range<usize>,
        samples: &mut [u32],
    ) -> TakenBack {
        let &Config { kind, n, p, q, r, min, value, severity } = config;
        let Record { rows, words } = record;
        let take_back = self.take_back.expect("a library that takes edits back");
        #[rustfmt::skip]
        let answer = unsafe {
            take_back(
                kind, n, p.left, p.right, q.left, q.right, r.left, r.right, min, value, severity,
                trace.as_mut_ptr(), trace.len(), rows.as_mut_ptr(), rows.len(), words.as_mut_ptr(), words.len(),
                edit.start as u64, edit.end as u64, samples.as_mut_ptr(), samples.len(),
            )
        };
        answer
    }

    /// The failure list: the number of its entries, of three words each.
    pub fn failures(&self, config: &Config, trace: &[u32], list: &mut [u32]) -> Result<usize, u32> {
        let &Config { kind, n, p, q, r, min, value, severity } = config;
        #[rustfmt::skip]
        let answer = unsafe {
            (self.failures)(
                kind, n, p.left, p.right, q.left, q.right, r.left, r.right, min, value, severity,
                trace.as_ptr(), trace.len(), list.as_mut_ptr(), list.len(),
            )
        };
        done((answer >> 32) as u32).map(|()| answer as u32 as usize)
    }
}

impl Engine for Library {
    fn form(&self) -> Form {
        self.form
    }

    fn full_check(&self, config: &Config, trace: &[u32], record: &mut Record) -> Answer {
        let &Config { kind, n, p, q, r, min, value, severity } = config;
        let Record { rows, words } = record;
        #[rustfmt::skip]
        let refusal = unsafe {
            (self.check)(
                kind, n, p.left, p.right, q.left, q.right, r.left, r.right, min, value, severity,
                trace.as_ptr(), trace.len(), rows.as_mut_ptr(), rows.len(), words.as_mut_ptr(), words.len(),
            )
        };
        done(refusal)
    }

    fn bench_step(&self, table: &[Config], frames: &[u32], record: &mut Record) -> Answer {
        let Record { rows, words } = record;
        // `Config` has the layout of `struct selvedgeon_config`.
        #[rustfmt::skip]
        let answer = unsafe {
            (self.bench)(
                table.as_ptr(), table.len(), frames.as_ptr(), frames.len(),
                words.as_mut_ptr(), words.len(), rows.as_mut_ptr(), rows.len(),
            )
        };
        done(answer)
    }
}

/// The loaded function of that name. `Function` must be the pointer type that the header gives it.
unsafe fn function<Function>(handle: *mut c_void, name: &CStr) -> Result<Function, String> {
    let address = dlsym(handle, name.as_ptr());
    if address.is_null() {
        return Err(format!("the library has no {name:?}"));
    }
    Ok(transmute_copy(&address))
}

fn done(answer: u32) -> Answer {
    if answer == 0 {
        Ok(())
    } else {
        Err(answer)
    }
}
