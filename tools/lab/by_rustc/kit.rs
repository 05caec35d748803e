//! What the kit's crates and std of Rattle have beyond Rust's, as far as the serial console uses it.
use std::ops::{Deref, DerefMut};

#[derive(Clone, Copy)]
pub struct Global;

#[derive(Clone, Copy, Debug, PartialEq, Eq)]
pub struct AllocError;

pub trait Model {}

pub struct Vec<T>(std::vec::Vec<T>);

impl<T> Vec<T> {
    pub fn new(_alloc: Global) -> Self {
        Vec(std::vec::Vec::new())
    }
    pub fn of(v: std::vec::Vec<T>) -> Self {
        Vec(v)
    }
    pub fn with_capacity(_alloc: Global, n: usize) -> Result<Self, AllocError> {
        Ok(Vec(std::vec::Vec::with_capacity(n)))
    }
    pub fn push(&mut self, value: T) -> Result<(), AllocError> {
        self.0.push(value);
        Ok(())
    }
    pub fn pop(&mut self) -> Option<T> {
        self.0.pop()
    }
    pub fn reserve(&mut self, n: usize) -> Result<(), AllocError> {
        self.0.reserve(n);
        Ok(())
    }
    pub fn truncate(&mut self, n: usize) {
        self.0.truncate(n);
    }
    pub fn clear(&mut self) {
        self.0.clear();
    }
    #[inline(always)]
    pub fn len(&self) -> usize {
        self.0.len()
    }
    #[inline(always)]
    pub fn as_slice(&self) -> &[T] {
        &self.0
    }
    #[inline(always)]
    pub fn as_mut_slice(&mut self) -> &mut [T] {
        &mut self.0
    }
}

impl<T: Clone> Vec<T> {
    pub fn filled(value: T, n: usize) -> Self {
        Vec(vec![value; n])
    }
    pub fn from_slice(_alloc: Global, of: &[T]) -> Result<Self, AllocError> {
        Ok(Vec(of.to_vec()))
    }
    pub fn extend_from_slice(&mut self, other: &[T]) -> Result<(), AllocError> {
        self.0.extend_from_slice(other);
        Ok(())
    }
    pub fn resize(&mut self, n: usize, value: T) -> Result<(), AllocError> {
        self.0.resize(n, value);
        Ok(())
    }
}

impl<T> Deref for Vec<T> {
    type Target = [T];
    #[inline(always)]
    fn deref(&self) -> &[T] {
        &self.0
    }
}

impl<T> DerefMut for Vec<T> {
    #[inline(always)]
    fn deref_mut(&mut self) -> &mut [T] {
        &mut self.0
    }
}

#[macro_export]
macro_rules! kit_vec {
    (in $alloc:expr; $value:expr; $n:expr) => {
        Ok::<_, crate::kit::AllocError>(crate::kit::Vec::filled($value, $n))
    };
}

pub mod file_shelf {
    pub struct Failed;
}

pub mod byteorder {
    pub trait ByteOrder {
        fn read_u16(bytes: &[u8]) -> u16;
        fn read_u32(bytes: &[u8]) -> u32;
        fn write_u16_into(numbers: &[u16], bytes: &mut [u8]);
    }
    pub struct LittleEndian;
    impl ByteOrder for LittleEndian {
        #[inline(always)]
        fn read_u16(bytes: &[u8]) -> u16 {
            u16::from_le_bytes([bytes[0], bytes[1]])
        }
        #[inline(always)]
        fn read_u32(bytes: &[u8]) -> u32 {
            u32::from_le_bytes([bytes[0], bytes[1], bytes[2], bytes[3]])
        }
        #[inline(always)]
        fn write_u16_into(numbers: &[u16], bytes: &mut [u8]) {
            for (number, two) in numbers.iter().zip(bytes.chunks_exact_mut(2)) {
                two.copy_from_slice(&number.to_le_bytes());
            }
        }
    }
}

pub mod bstr {
    pub trait ByteSlice {
        fn lines(&self) -> std::vec::IntoIter<&[u8]>;
    }
    impl ByteSlice for [u8] {
        /// The lines, each without its LF or CR LF.
        fn lines(&self) -> std::vec::IntoIter<&[u8]> {
            let mut lines: std::vec::Vec<&[u8]> = self.split(|byte| *byte == b'\n').collect();
            if lines.last().is_some_and(|line| line.is_empty()) {
                lines.pop();
            }
            for line in &mut lines {
                *line = line.strip_suffix(b"\r").unwrap_or(line);
            }
            lines.into_iter()
        }
    }
}

pub mod arrayvec {
    use std::ops::Deref;
    pub struct ArrayVec<T, const N: usize> {
        items: [std::mem::MaybeUninit<T>; N],
        len: usize,
    }
    impl<T: Copy, const N: usize> ArrayVec<T, N> {
        #[inline(always)]
        pub fn new() -> Self {
            ArrayVec { items: [const { std::mem::MaybeUninit::uninit() }; N], len: 0 }
        }
        #[inline(always)]
        pub fn len(&self) -> usize {
            self.len
        }
        #[inline(always)]
        pub fn is_empty(&self) -> bool {
            self.len == 0
        }
        #[inline(always)]
        pub fn push(&mut self, item: T) {
            self.items[self.len] = std::mem::MaybeUninit::new(item);
            self.len += 1;
        }
        #[inline(always)]
        pub fn clear(&mut self) {
            self.len = 0;
        }
        #[inline(always)]
        pub fn as_slice(&self) -> &[T] {
            unsafe { std::slice::from_raw_parts(self.items.as_ptr().cast(), self.len) }
        }
    }
    impl<T: Copy, const N: usize> Deref for ArrayVec<T, N> {
        type Target = [T];
        #[inline(always)]
        fn deref(&self) -> &[T] {
            self.as_slice()
        }
    }
}

pub mod circular_buffer {
    use super::{AllocError, Global};
    pub struct HeapCircularBuffer<T> {
        items: Box<[T]>,
        first: usize,
        len: usize,
    }
    impl<T: Copy + Default> HeapCircularBuffer<T> {
        pub fn with_capacity(_alloc: Global, capacity: usize) -> Result<Self, AllocError> {
            Ok(HeapCircularBuffer { items: vec![T::default(); capacity].into_boxed_slice(), first: 0, len: 0 })
        }
        #[inline(always)]
        pub fn len(&self) -> usize {
            self.len
        }
        #[inline(always)]
        pub fn capacity(&self) -> usize {
            self.items.len()
        }
        #[inline(always)]
        pub fn is_empty(&self) -> bool {
            self.len == 0
        }
        pub fn clear(&mut self) {
            self.first = 0;
            self.len = 0;
        }
        pub fn as_slices(&self) -> (&[T], &[T]) {
            let front = self.len.min(self.items.len() - self.first);
            (&self.items[self.first..self.first + front], &self.items[..self.len - front])
        }
        pub fn push_back(&mut self, item: T) -> Option<T> {
            if self.len == self.items.len() {
                return Some(item);
            }
            let at = (self.first + self.len) % self.items.len();
            self.items[at] = item;
            self.len += 1;
            None
        }
        /// Puts as many of the items behind the last as there is room for.
        pub fn fill_from_slice(&mut self, other: &[T]) -> usize {
            let count = other.len().min(self.items.len() - self.len);
            let mut at = self.first + self.len;
            if at >= self.items.len() {
                at -= self.items.len();
            }
            let front = count.min(self.items.len() - at);
            self.items[at..at + front].copy_from_slice(&other[..front]);
            self.items[..count - front].copy_from_slice(&other[front..count]);
            self.len += count;
            count
        }
        /// Moves the first items, as many as there are and have room.
        pub fn read_into(&mut self, into: &mut [T]) -> usize {
            let count = into.len().min(self.len);
            let front = count.min(self.items.len() - self.first);
            into[..front].copy_from_slice(&self.items[self.first..self.first + front]);
            into[front..count].copy_from_slice(&self.items[..count - front]);
            self.first += count;
            if self.first >= self.items.len() {
                self.first -= self.items.len();
            }
            self.len -= count;
            count
        }
    }
}
