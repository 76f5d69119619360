//! The roll-up of `crates/capi` for Rust: a safe wrapper around `target/staticlib/libcapi.a`, which `bindings/archive` writes.
//!
//! A [`RollUp`] owns its head and the memory that is lent with it. Answers are the numbers of README.md's table.

/// The functions as they are exported: `bindings/c/filmoed.h` says what each asks of its caller.
pub mod c {
    extern "C" {
        pub fn filmoed_fresh(head: *mut u64, head_len: usize) -> u8;
        pub fn filmoed_add(
            head: *mut u64, head_len: usize, registers: *mut u8, registers_len: usize, sparse: *mut u32, sparse_len: usize, pending: *mut u32,
            pending_len: usize, scratch: *mut u32, scratch_len: usize, state: *const u8, state_len: usize,
        ) -> u8;
        pub fn filmoed_fold(
            head: *mut u64, head_len: usize, registers: *mut u8, registers_len: usize, sparse: *mut u32, sparse_len: usize, pending: *mut u32,
            pending_len: usize, scratch: *mut u32, scratch_len: usize, states: *const u8, states_len: usize, ends: *const u64, ends_len: usize,
            answers: *mut u8, answers_len: usize,
        ) -> u8;
        pub fn filmoed_write(
            head: *const u64, head_len: usize, registers: *const u8, registers_len: usize, sparse: *const u32, sparse_len: usize, pending: *mut u32,
            pending_len: usize, scratch: *mut u32, scratch_len: usize, out: *mut u8, out_len: usize, len: *mut u64, len_len: usize,
        ) -> u8;
    }
}

/// The number of the first question that was answered with no, or [`BAD_ENDS`].
#[derive(Debug, Clone, Copy, PartialEq, Eq)]
pub struct Refused(pub u8);

/// A fold of which an end is before the last one or past the states. Numbers from 100 on are the library's own.
pub const BAD_ENDS: Refused = Refused(100);

fn answered(answer: u8) -> Result<(), Refused> {
    if answer == 0 { Ok(()) } else { Err(Refused(answer)) }
}

/// A roll-up with memory of its own.
pub struct RollUp {
    head: [u64; 10],
    registers: Vec<u8>,
    sparse: Vec<u32>,
    pending: Vec<u32>,
    scratch: Vec<u32>,
}

impl RollUp {
    /// A roll-up to which nothing was added, with so many register bytes and so many cells in each of its three lists.
    pub fn new(registers: usize, cells: usize) -> RollUp {
        let mut head = [0; 10];
        // The slice is this array alone.
        let answer = unsafe { c::filmoed_fresh(head.as_mut_ptr(), head.len()) };
        assert_eq!(answer, 0, "ten cells suffice");
        RollUp { head, registers: vec![0; registers], sparse: vec![0; cells], pending: vec![0; cells], scratch: vec![0; cells] }
    }

    /// Adds a state.
    pub fn add(&mut self, state: &[u8]) -> Result<(), Refused> {
        // Each slice is a field of its own, and `state` is none of them: it is borrowed beside `self`.
        answered(unsafe {
            c::filmoed_add(
                self.head.as_mut_ptr(), self.head.len(), self.registers.as_mut_ptr(), self.registers.len(), self.sparse.as_mut_ptr(), self.sparse.len(),
                self.pending.as_mut_ptr(), self.pending.len(), self.scratch.as_mut_ptr(), self.scratch.len(), state.as_ptr(), state.len(),
            )
        })
    }

    /// Adds many states that stand one behind the other; `ends` says where each one ends. Bytes behind the last end belong to no state. Each state has a `Result` of
    /// its own, and a refused one does not keep the others out. Where the ends do not fit ([`BAD_ENDS`]) none is added, and each says so.
    #[must_use = "a state that was refused is told here alone"]
    pub fn fold(&mut self, states: &[u8], ends: &[u64]) -> Vec<Result<(), Refused>> {
        let mut answers = vec![0; ends.len()];
        let whole = answered(unsafe {
            c::filmoed_fold(
                self.head.as_mut_ptr(), self.head.len(), self.registers.as_mut_ptr(), self.registers.len(), self.sparse.as_mut_ptr(), self.sparse.len(),
                self.pending.as_mut_ptr(), self.pending.len(), self.scratch.as_mut_ptr(), self.scratch.len(), states.as_ptr(), states.len(), ends.as_ptr(),
                ends.len(), answers.as_mut_ptr(), answers.len(),
            )
        });
        answers.into_iter().map(|answer| whole.and_then(|()| answered(answer))).collect()
    }

    /// Writes the roll-up as a state into `out`, and gives back the part that was written.
    pub fn write<'a>(&mut self, out: &'a mut [u8]) -> Result<&'a [u8], Refused> {
        let mut len = [0u64];
        answered(unsafe {
            c::filmoed_write(
                self.head.as_ptr(), self.head.len(), self.registers.as_ptr(), self.registers.len(), self.sparse.as_ptr(), self.sparse.len(),
                self.pending.as_mut_ptr(), self.pending.len(), self.scratch.as_mut_ptr(), self.scratch.len(), out.as_mut_ptr(), out.len(), len.as_mut_ptr(),
                len.len(),
            )
        })?;
        Ok(&out[..len[0] as usize])
    }

    /// The normal and the sparse precision, where something was added.
    pub fn precisions(&self) -> Option<(i32, i32)> {
        (self.head[0] != 0).then(|| (self.head[4] as i32, self.head[5] as i32))
    }

    /// The number of values in all that was added.
    pub fn num_values(&self) -> i64 {
        self.head[3] as i64
    }
}
