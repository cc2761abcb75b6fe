//! The calls of include/selvedgeon.h. Every lent buffer lies between guard words; after each call the guards are checked, and
//! that a buffer which the call may only read is as it was.

use crate::rules::{Config, Edit, Frame, Lending, Refusal, MARKS};
use std::fmt::Debug;
use std::sync::atomic::{AtomicUsize, Ordering};

/// `struct selvedgeon_config`: six range bytes follow n, each range a left and a right byte; then min and the value of §4,
/// and the severity of §7.
#[repr(C)]
#[derive(Clone, Copy, Debug, PartialEq)]
struct HostConfig {
    kind: u8,
    n: u32,
    ranges: [u8; 6],
    min: u32,
    value: u32,
    severity: u8,
}

// The table of a bench is made of these, one behind the other.
const _: () = assert!(size_of::<HostConfig>() == 28);

impl HostConfig {
    fn new(c: &Config) -> HostConfig {
        let ranges = [c.p.left, c.p.right, c.q.left, c.q.right, c.r.left, c.r.right];
        HostConfig { kind: c.kind, n: c.n, ranges, min: c.min, value: c.value, severity: c.severity }
    }
}

/// `struct selvedgeon_rechecked`
#[repr(C)]
#[derive(Clone, Copy, Debug, PartialEq)]
pub struct Rechecked {
    pub refusal: u32,
    pub cycle: u64,
    pub end: u64,
    pub changes: [i32; MARKS.len()],
}

/// `struct selvedgeon_taken_back`
#[repr(C)]
pub struct TakenBack {
    pub edit: Rechecked,
    pub back: Rechecked,
}

// Each number of 64 bits lies on a multiple of 8.
const _: () = assert!(size_of::<Rechecked>() == 48 && size_of::<TakenBack>() == 96);

#[rustfmt::skip]
extern "C" {
    fn selvedgeon_step(kind: u8, n: u32, p_left: u8, p_right: u8, q_left: u8, q_right: u8, r_left: u8, r_right: u8,
        min: u32, value: u32, severity: u8, reset: u32, p: u32, q: u32, r: u32, reset_x: u32, p_x: u32, q_x: u32, r_x: u32,
        word: *mut u8, word_len: usize) -> u32;
    fn selvedgeon_check(kind: u8, n: u32, p_left: u8, p_right: u8, q_left: u8, q_right: u8, r_left: u8, r_right: u8,
        min: u32, value: u32, severity: u8, trace: *const u32, trace_len: usize, rows: *mut u32, rows_len: usize,
        words: *mut u64, words_len: usize) -> u32;
    fn selvedgeon_recheck(kind: u8, n: u32, p_left: u8, p_right: u8, q_left: u8, q_right: u8, r_left: u8, r_right: u8,
        min: u32, value: u32, severity: u8, trace: *const u32, trace_len: usize, rows: *mut u32, rows_len: usize,
        words: *mut u64, words_len: usize, a: u64, b: u64, answer: *mut i32, answer_len: usize) -> u64;
    fn selvedgeon_edit_and_take_back(kind: u8, n: u32, p_left: u8, p_right: u8, q_left: u8, q_right: u8, r_left: u8,
        r_right: u8, min: u32, value: u32, severity: u8, trace: *mut u32, trace_len: usize, rows: *mut u32, rows_len: usize,
        words: *mut u64, words_len: usize, a: u64, b: u64, samples: *mut u32, samples_len: usize) -> TakenBack;
    fn selvedgeon_totals(rows: *const u32, rows_len: usize, counts: *mut u32, counts_len: usize) -> u32;
    fn selvedgeon_failures(kind: u8, n: u32, p_left: u8, p_right: u8, q_left: u8, q_right: u8, r_left: u8, r_right: u8,
        min: u32, value: u32, severity: u8, trace: *const u32, trace_len: usize, list: *mut u32, list_len: usize) -> u64;
    fn selvedgeon_open_count(kind: u8, n: u32, p_left: u8, p_right: u8, q_left: u8, q_right: u8, r_left: u8, r_right: u8,
        min: u32, value: u32, severity: u8, word: u64) -> u32;
    fn selvedgeon_first_failure(checkers: u64, cycles: u64, rows: *const u32, rows_len: usize) -> u64;
    fn selvedgeon_bench(table: *const HostConfig, table_len: usize, frames: *const u32, frames_len: usize,
        words: *mut u64, words_len: usize, rows: *mut u32, rows_len: usize) -> u32;
}

const GUARDS: usize = 4;

pub trait Entry: Copy + PartialEq + Debug {
    const GUARD: Self;
}

impl Entry for u8 {
    const GUARD: u8 = 0xa5;
}
impl Entry for u32 {
    const GUARD: u32 = 0x5ea1_ed01;
}
impl Entry for i32 {
    const GUARD: i32 = 0x5ea1_ed01;
}
impl Entry for u64 {
    const GUARD: u64 = 0x5ea1_ed01_0bad_f00d;
}
impl Entry for HostConfig {
    const GUARD: HostConfig =
        HostConfig { kind: 0xa5, n: 0x5ea1_ed01, ranges: [0xa5; 6], min: 0x5ea1_ed01, value: 0x5ea1_ed01, severity: 0xa5 };
}

/// Counts the empty buffers: every second one is lent as a null pointer, which the header allows.
static EMPTY_BUFFERS: AtomicUsize = AtomicUsize::new(0);

/// A copy of a buffer that is lent to a call, between guard words.
pub struct Lent<T> {
    name: &'static str,
    store: Vec<T>,
}

impl<T: Entry> Lent<T> {
    pub fn new(name: &'static str, content: &[T]) -> Lent<T> {
        let mut store = Vec::with_capacity(content.len() + 2 * GUARDS);
        store.extend([T::GUARD; GUARDS]);
        store.extend(content);
        store.extend([T::GUARD; GUARDS]);
        Lent { name, store }
    }

    pub fn len(&self) -> usize {
        self.store.len() - 2 * GUARDS
    }

    pub fn pointer(&mut self) -> *mut T {
        if self.len() == 0 && EMPTY_BUFFERS.fetch_add(1, Ordering::Relaxed) % 2 == 0 {
            return std::ptr::null_mut();
        }
        self.store[GUARDS..].as_mut_ptr()
    }

    /// The content after the call, if the guards are as they were.
    pub fn content(&self) -> Result<&[T], String> {
        let end = self.store.len() - GUARDS;
        let guards = self.store[..GUARDS].iter().chain(&self.store[end..]);
        if guards.clone().any(|guard| *guard != T::GUARD) {
            return Err(format!("the call wrote outside of {}: guards {:x?}", self.name, guards.collect::<Vec<_>>()));
        }
        Ok(&self.store[GUARDS..end])
    }

    pub fn give_back(&self, to: &mut [T]) -> Result<(), String> {
        to.copy_from_slice(self.content()?);
        Ok(())
    }

    pub fn is_unchanged(&self, lent: &[T]) -> Result<(), String> {
        match self.content()?.iter().zip(lent).position(|(now, before)| now != before) {
            Some(i) => Err(format!("the call altered entry {i} of {}, which it may only read", self.name)),
            None => Ok(()),
        }
    }
}

pub fn step(c: Config, frame: Frame, word: &mut [u8]) -> Result<u32, String> {
    let mut bytes = Lent::new("word", word);
    let [reset, p, q, r, reset_x, p_x, q_x, r_x] = frame;
    let (pointer, len) = (bytes.pointer(), bytes.len());
    // SAFETY: pointer and length are those of a live buffer that no other reference uses; so in every call below.
    #[rustfmt::skip]
    let answer = unsafe {
        selvedgeon_step(c.kind, c.n, c.p.left, c.p.right, c.q.left, c.q.right, c.r.left, c.r.right, c.min, c.value,
            c.severity, reset, p, q, r, reset_x, p_x, q_x, r_x, pointer, len)
    };
    bytes.give_back(word)?;
    Ok(answer)
}

pub fn check(c: Config, trace: &[u32], rows: &mut [u32], words: &mut [u64]) -> Result<u32, String> {
    let (mut t, mut r, mut w) = (Lent::new("trace", trace), Lent::new("rows", rows), Lent::new("words", words));
    #[rustfmt::skip]
    let answer = unsafe {
        selvedgeon_check(c.kind, c.n, c.p.left, c.p.right, c.q.left, c.q.right, c.r.left, c.r.right, c.min, c.value,
            c.severity, t.pointer(), t.len(), r.pointer(), r.len(), w.pointer(), w.len())
    };
    t.is_unchanged(trace)?;
    r.give_back(rows)?;
    w.give_back(words)?;
    Ok(answer)
}

/// The number that C is answered is 2^32 times the refusal plus the cycle that refusal 7 names: both halves are handed on.
pub fn recheck(edit: &Edit, rows: &mut [u32], words: &mut [u64], answer: &mut [i32]) -> Result<Refusal, String> {
    let c = edit.config;
    let mut t = Lent::new("trace", edit.trace);
    let (mut r, mut w, mut x) = (Lent::new("rows", rows), Lent::new("words", words), Lent::new("answer", answer));
    #[rustfmt::skip]
    let packed = unsafe {
        selvedgeon_recheck(c.kind, c.n, c.p.left, c.p.right, c.q.left, c.q.right, c.r.left, c.r.right, c.min, c.value,
            c.severity, t.pointer(), t.len(), r.pointer(), r.len(), w.pointer(), w.len(), edit.a, edit.b, x.pointer(),
            x.len())
    };
    t.is_unchanged(edit.trace)?;
    r.give_back(rows)?;
    w.give_back(words)?;
    x.give_back(answer)?;
    Ok(Refusal { number: (packed >> 32) as u32, cycle: packed as u32 })
}

/// All four buffers are given back as the call left them: it may write each of them.
pub fn edit_and_take_back(c: Config, a: u64, b: u64, lending: &mut Lending) -> Result<TakenBack, String> {
    let (mut t, mut r) = (Lent::new("trace", &lending.trace), Lent::new("rows", &lending.rows));
    let (mut w, mut s) = (Lent::new("words", &lending.words), Lent::new("samples", &lending.samples));
    #[rustfmt::skip]
    let answer = unsafe {
        selvedgeon_edit_and_take_back(c.kind, c.n, c.p.left, c.p.right, c.q.left, c.q.right, c.r.left, c.r.right, c.min,
            c.value, c.severity, t.pointer(), t.len(), r.pointer(), r.len(), w.pointer(), w.len(), a, b, s.pointer(), s.len())
    };
    t.give_back(&mut lending.trace)?;
    r.give_back(&mut lending.rows)?;
    w.give_back(&mut lending.words)?;
    s.give_back(&mut lending.samples)?;
    Ok(answer)
}

pub fn totals(rows: &[u32], counts: &mut [u32]) -> Result<u32, String> {
    let (mut r, mut c) = (Lent::new("rows", rows), Lent::new("counts", counts));
    let answer = unsafe { selvedgeon_totals(r.pointer(), r.len(), c.pointer(), c.len()) };
    r.is_unchanged(rows)?;
    c.give_back(counts)?;
    Ok(answer)
}

pub fn failures(c: Config, trace: &[u32], list: &mut [u32]) -> Result<u64, String> {
    let (mut t, mut l) = (Lent::new("trace", trace), Lent::new("list", list));
    #[rustfmt::skip]
    let answer = unsafe {
        selvedgeon_failures(c.kind, c.n, c.p.left, c.p.right, c.q.left, c.q.right, c.r.left, c.r.right, c.min, c.value,
            c.severity, t.pointer(), t.len(), l.pointer(), l.len())
    };
    t.is_unchanged(trace)?;
    l.give_back(list)?;
    Ok(answer)
}

pub fn open_count(c: Config, word: u64) -> u32 {
    // SAFETY: numbers only.
    #[rustfmt::skip]
    let answer = unsafe {
        selvedgeon_open_count(c.kind, c.n, c.p.left, c.p.right, c.q.left, c.q.right, c.r.left, c.r.right, c.min, c.value,
            c.severity, word)
    };
    answer
}

pub fn first_failure(checkers: u64, cycles: u64, rows: &[u32]) -> Result<u64, String> {
    let mut r = Lent::new("rows", rows);
    let answer = unsafe { selvedgeon_first_failure(checkers, cycles, r.pointer(), r.len()) };
    r.is_unchanged(rows)?;
    Ok(answer)
}

pub fn bench(table: &[Config], frames: &[u32], words: &mut [u64], rows: &mut [u32]) -> Result<u32, String> {
    let table: Vec<_> = table.iter().map(HostConfig::new).collect();
    let (mut t, mut f) = (Lent::new("table", &table), Lent::new("frames", frames));
    let (mut w, mut r) = (Lent::new("words", words), Lent::new("rows", rows));
    #[rustfmt::skip]
    let answer = unsafe {
        selvedgeon_bench(t.pointer(), t.len(), f.pointer(), f.len(), w.pointer(), w.len(), r.pointer(), r.len())
    };
    t.is_unchanged(&table)?;
    f.is_unchanged(frames)?;
    w.give_back(words)?;
    r.give_back(rows)?;
    Ok(answer)
}
