//! The Rattle side: the exported functions of `crates/capi`, and memory to lend to them. All of it is filled with a pattern, and there are cells before and
//! behind each slice that no call may touch.

// The declarations that ship with the library are the ones that are compared.
#[path = "../../bindings/rust/filmoed.rs"]
#[allow(dead_code)]
mod filmoed;

use filmoed::c;

/// What lent memory is filled with.
pub const BYTE: u8 = 165;
pub const CELL: u32 = 0xa5a5_a5a5;
pub const NUMBER: u64 = 0xa5a5_a5a5_a5a5_a5a5;

const PAD: usize = 16;

/// A slice to lend, with cells before and behind it.
#[derive(Clone)]
pub struct Lent<T> {
    cells: Vec<T>,
    fill: T,
}

impl<T: Copy + PartialEq> Lent<T> {
    pub fn new(len: usize, fill: T) -> Lent<T> {
        Lent { cells: vec![fill; len + 2 * PAD], fill }
    }

    pub fn get(&self) -> &[T] {
        &self.cells[PAD..self.cells.len() - PAD]
    }

    pub fn get_mut(&mut self) -> &mut [T] {
        let end = self.cells.len() - PAD;
        &mut self.cells[PAD..end]
    }

    /// Whether the cells before and behind hold what they were filled with.
    pub fn guarded(&self) -> bool {
        let end = self.cells.len() - PAD;
        self.cells[..PAD].iter().chain(&self.cells[end..]).all(|c| *c == self.fill)
    }
}

/// A head as a row of numbers, and the memory that is lent with it.
#[derive(Clone)]
pub struct Side {
    pub head: Lent<u64>,
    pub registers: Lent<u8>,
    pub sparse: Lent<u32>,
    pub pending: Lent<u32>,
    pub scratch: Lent<u32>,
}

impl Side {
    /// A fresh head in a row of so many cells, by `filmoed_fresh`.
    pub fn new(cells: usize, registers: usize, sparse: usize, pending: usize, scratch: usize) -> Side {
        let mut side = Side {
            head: Lent::new(cells, NUMBER),
            registers: Lent::new(registers, BYTE),
            sparse: Lent::new(sparse, CELL),
            pending: Lent::new(pending, CELL),
            scratch: Lent::new(scratch, CELL),
        };
        assert_eq!(side.fresh(), u8::from(cells < 10));
        side
    }

    pub fn fresh(&mut self) -> u8 {
        let head = self.head.get_mut();
        unsafe { c::filmoed_fresh(head.as_mut_ptr(), head.len()) }
    }

    // In each call the slices are fields of their own, and what is given beside them is none of these.

    pub fn add(&mut self, state: &[u8]) -> u8 {
        let (head, registers, sparse, pending, scratch) =
            (self.head.get_mut(), self.registers.get_mut(), self.sparse.get_mut(), self.pending.get_mut(), self.scratch.get_mut());
        unsafe {
            c::filmoed_add(
                head.as_mut_ptr(), head.len(), registers.as_mut_ptr(), registers.len(), sparse.as_mut_ptr(), sparse.len(), pending.as_mut_ptr(),
                pending.len(), scratch.as_mut_ptr(), scratch.len(), state.as_ptr(), state.len(),
            )
        }
    }

    pub fn fold(&mut self, states: &[u8], ends: &[u64], answers: &mut [u8]) -> u8 {
        let (head, registers, sparse, pending, scratch) =
            (self.head.get_mut(), self.registers.get_mut(), self.sparse.get_mut(), self.pending.get_mut(), self.scratch.get_mut());
        unsafe {
            c::filmoed_fold(
                head.as_mut_ptr(), head.len(), registers.as_mut_ptr(), registers.len(), sparse.as_mut_ptr(), sparse.len(), pending.as_mut_ptr(),
                pending.len(), scratch.as_mut_ptr(), scratch.len(), states.as_ptr(), states.len(), ends.as_ptr(), ends.len(), answers.as_mut_ptr(),
                answers.len(),
            )
        }
    }

    pub fn write(&mut self, out: &mut [u8], len: &mut [u64]) -> u8 {
        let (head, registers, sparse, pending, scratch) =
            (self.head.get(), self.registers.get(), self.sparse.get(), self.pending.get_mut(), self.scratch.get_mut());
        unsafe {
            c::filmoed_write(
                head.as_ptr(), head.len(), registers.as_ptr(), registers.len(), sparse.as_ptr(), sparse.len(), pending.as_mut_ptr(), pending.len(),
                scratch.as_mut_ptr(), scratch.len(), out.as_mut_ptr(), out.len(), len.as_mut_ptr(), len.len(),
            )
        }
    }

    pub fn guarded(&self) -> bool {
        self.head.guarded() && self.registers.guarded() && self.sparse.guarded() && self.pending.guarded() && self.scratch.guarded()
    }
}
