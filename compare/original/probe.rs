// ---- What follows is no part of the original: `prepare` puts it behind a copy, so that it can read and set private fields.

/// What an accumulator holds. `form` is 0 (unstarted), 1 (sparse), 2 (dense) or 3 (handed to the sketch).
#[derive(Debug, Clone, Default, PartialEq)]
pub struct Probe {
    pub form: u8,
    pub allowed: u8,
    pub value_type: i32,
    pub num_values: i64,
    pub precision: i32,
    pub sparse_precision: i32,
    pub sparse_size: i32,
    pub sparse_bytes: usize,
    pub sparse: Vec<u32>,
    pub pending: Vec<u32>,
    pub registers: Vec<u8>,
}

impl Accumulator {
    pub fn probe(&self) -> Probe {
        let form = match (&self.fallback, self.started, self.dense) {
            (Some(_), _, _) => 3,
            (None, false, _) => 0,
            (None, true, false) => 1,
            (None, true, true) => 2,
        };
        Probe {
            form,
            allowed: self.allowed,
            value_type: self.value_type,
            num_values: self.num_values,
            precision: self.precision,
            sparse_precision: self.sparse_precision,
            sparse_size: self.sparse_size,
            sparse_bytes: self.sparse_bytes,
            sparse: self.sparse.clone(),
            pending: self.pending.clone(),
            registers: self.registers.clone(),
        }
    }

    /// An accumulator that holds this: form 0, 1 or 2.
    pub fn probe_from(p: Probe) -> Accumulator {
        assert!(p.form < 3);
        Accumulator {
            started: p.form != 0,
            dense: p.form == 2,
            allowed: p.allowed,
            value_type: p.value_type,
            num_values: p.num_values,
            precision: p.precision,
            sparse_precision: p.sparse_precision,
            sparse_size: p.sparse_size,
            sparse_bytes: p.sparse_bytes,
            sparse: p.sparse,
            pending: p.pending,
            registers: p.registers,
            ..Accumulator::default()
        }
    }

    /// Whether `add_view` would hand this state to the sketch: its own conditions, in its own order. An accumulator whose types do not
    /// meet the state's is refused before.
    fn probe_sketch(&self, view: &StateView<'_>, allowed: u8) -> bool {
        let fast = view.sparse_precision != hll::SPARSE_PRECISION_DISABLED
            && !(view.has_data() && view.sparse_data.is_some());
        if !self.started {
            return !fast;
        }
        if self.allowed & allowed == 0 {
            return false;
        }
        let same_precision =
            view.precision == self.precision && view.sparse_precision == self.sparse_precision;
        !fast || (!self.dense && !same_precision)
    }

    /// Document 01's reference: `StateView::parse`, `validate_header`, then `add_view` with trusted false. `Ok(false)` is a state
    /// that is handed to the sketch, which is not run: the accumulator is then as it was.
    pub fn probe_add(&mut self, bytes: &[u8]) -> Result<bool> {
        let view = StateView::parse(bytes)?;
        let allowed = hll::validate_header(&view)?;
        if self.probe_sketch(&view, allowed) {
            return Ok(false);
        }
        self.with_scratch(|acc| acc.add_view(&view, allowed, false))?;
        assert!(self.fallback.is_none());
        Ok(true)
    }

    /// What document 01's "Difference" asks for in the place of `insert_dedupe`: the merge branch of `merge_sparse`, word for word,
    /// after what `add_view` does before it. For a state with a list that `probe_add` accepts at a sparse accumulator.
    pub fn probe_merge(&mut self, bytes: &[u8]) -> Result<()> {
        let view = StateView::parse(bytes)?;
        let allowed = hll::validate_header(&view)?;
        self.decode_incoming(&view, false)?;
        self.allowed &= allowed;
        self.num_values = self.num_values.wrapping_add(view.num_values);
        let enc = self.encoding();
        self.sparse_bytes =
            encoding::merge_dedupe_into(enc, &self.sparse, &self.incoming, &mut self.merged);
        std::mem::swap(&mut self.sparse, &mut self.merged);
        self.sparse_size = self.sparse.len() as i32;
        if self.sparse_bytes >= self.max_sparse_bytes() {
            self.densify();
        }
        Ok(())
    }
}

impl Accumulator {
    /// The registers; of a list those that its values set in fresh ones, by the original's own `set_register`.
    pub fn probe_registers(&self) -> Vec<u8> {
        if self.dense || !self.started {
            return self.registers.clone();
        }
        let mut registers = vec![0; 1 << self.precision];
        for v in self.sparse.iter().chain(&self.pending) {
            set_register(&mut registers, self.encoding(), *v);
        }
        registers
    }
}
