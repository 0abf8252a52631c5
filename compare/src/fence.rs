// Memory between guard pages, for what is lent to a call.
#![allow(dead_code)]
use crate::draws::Draws;
use std::ffi::c_void;

unsafe extern "C" {
    fn mmap(addr: *mut c_void, len: usize, prot: i32, flags: i32, fd: i32, offset: i64) -> *mut c_void;
    fn mprotect(addr: *mut c_void, len: usize, prot: i32) -> i32;
}

const PAGE: usize = 4096;

/// Memory between two pages that cannot be touched. What is lent lies at its end or at its beginning; the bytes beside it are watched.
pub struct Fence<T: Copy> {
    pub data: *mut T,
    pub room: usize,
    pub from: usize,
    pub len: usize,
    pub before: Vec<T>,
}

const WATCHED: usize = 512;

impl<T: Copy + 'static> Fence<T> {
    pub fn new(room: usize) -> Self {
        let bytes = (room * size_of::<T>()).next_multiple_of(PAGE);
        unsafe {
            let all = mmap(std::ptr::null_mut(), bytes + 2 * PAGE, 3, 0x22, -1, 0);
            assert!(all as isize != -1);
            let data = all.byte_add(PAGE);
            assert!(mprotect(all, PAGE, 0) == 0 && mprotect(data.byte_add(bytes), PAGE, 0) == 0);
            Self { data: data.cast(), room: bytes / size_of::<T>(), from: 0, len: 0, before: Vec::new() }
        }
    }

    /// Lends `len` places, filled by `f`.
    pub fn lend(&mut self, draws: &mut Draws, len: usize, mut f: impl FnMut(&mut Draws) -> T) {
        let len = len.min(self.room);
        self.from = if draws.below(2) == 0 { self.room - len } else { 0 };
        self.len = len;
        for i in self.watched() {
            let x = f(draws);
            unsafe { self.data.add(i).write(x) };
        }
        self.before = self.watched().map(|i| unsafe { self.data.add(i).read() }).collect();
    }

    /// Lends these values.
    pub fn lend_values(&mut self, draws: &mut Draws, values: &[T], beside: T) {
        self.lend(draws, values.len(), |_| beside);
        self.slice().copy_from_slice(values);
        self.before = self.watched().map(|i| unsafe { self.data.add(i).read() }).collect();
    }

    pub fn watched(&self) -> std::ops::Range<usize> {
        self.from.saturating_sub(WATCHED)..(self.from + self.len + WATCHED).min(self.room)
    }

    pub fn slice(&mut self) -> &'static mut [T] {
        unsafe { std::slice::from_raw_parts_mut(self.data.add(self.from), self.len) }
    }

    /// Whether all is as it was but, where `written`, the lent places.
    pub fn kept(&self, written: bool) -> bool {
        let w = self.watched();
        w.clone().all(|i| {
            let inside = i >= self.from && i < self.from + self.len;
            let same = unsafe {
                let (a, b) = (self.data.add(i).cast::<u8>(), (&raw const self.before[i - w.start]).cast::<u8>());
                (0..size_of::<T>()).all(|k| *a.add(k) == *b.add(k))
            };
            same || written && inside
        })
    }
}
