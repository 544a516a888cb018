//! Declarations for a Rust program that links `crates/tankpost/out/libtankpost.a` (made by `rt lib` in crates/tankpost), and the
//! calls over memory that the program holds. The structs are those of crates/flow, head, sender, codes and tankpost, field by field.
//! For editions 2021 and 2024; Rust 1.82 or later.
#![allow(dead_code)]

pub const DIMS: usize = 2;
pub const CAUSES: usize = 3;
pub const BUCKETS: usize = 768;
pub const OFFSETS: usize = 65;

// The codes of a `Decision`.
pub const VERDICT_NONE: u64 = 0;
pub const VERDICT_ADMITTED: u64 = 1;
pub const VERDICT_OVER_SHARE: u64 = 2;
pub const VERDICT_RELAY_RATE: u64 = 3;
pub const RULE_NONE: u64 = 0;
pub const RULE_ADMITTED: u64 = 1;
pub const RULE_CREDIT_WITHIN: u64 = 2;
pub const RULE_CREDIT_OVER: u64 = 3;
pub const RULE_TOKENS_WITHIN: u64 = 4;
pub const RULE_TOKENS_OVER: u64 = 5;
pub const RULE_RESERVE: u64 = 6;
pub const DIM_RECEPTIONS: u64 = 0;
pub const DIM_BYTES: u64 = 1;
pub const DIM_NONE: u64 = u64::MAX;

#[repr(C)]
#[derive(Clone, Copy, Default)]
pub struct Bucket {
    pub tokens: f64,
    pub burst: f64,
    pub rate_per_ms: f64,
}

#[repr(C)]
#[derive(Clone, Copy, Default)]
pub struct Use {
    pub attempted: [f64; DIMS],
    pub credit: [f64; DIMS],
    pub at_ms: u64,
    /// any but 0: nothing was judged yet
    pub fresh: u64,
}

#[repr(C)]
#[derive(Clone, Copy, Default)]
pub struct Flow {
    pub rate: [u64; DIMS],
    pub ceiling: [u64; DIMS],
    pub buckets: [Bucket; DIMS],
    pub at_ms: u64,
    pub admitted: [f64; DIMS],
}

#[repr(C)]
#[derive(Clone, Copy, Default)]
pub struct Scan {
    pub remaining: usize,
    pub next: usize,
    pub at_ms: u64,
    pub began_ms: u64,
    pub trim: [f64; DIMS],
    pub open: [f64; DIMS],
    pub read_ms: u64,
    pub read_admitted: [f64; DIMS],
}

/// The head. Before a start it may be all zeros.
#[repr(C)]
#[derive(Clone, Copy, Default)]
pub struct Head {
    pub flow: Flow,
    pub overflow: Use,
    pub scan: Scan,
    pub visits: u64,
    pub level: [f64; DIMS],
    pub batches: [u64; CAUSES],
    pub receptions: [u64; CAUSES],
    pub tracked: usize,
    pub counted: usize,
    pub unit_room: usize,
    pub counted_room: usize,
}

/// A unit: kind 0 a key (big-endian words), 1 a V4 group and 2 a V6 group (prefix in `a`), 3 no address, 4 overflow.
#[repr(C)]
#[derive(Clone, Copy, Debug, Default, PartialEq, Eq)]
pub struct Words {
    pub kind: u64,
    pub a: u64,
    pub b: u64,
    pub c: u64,
    pub d: u64,
}

/// What a judgement answers, as numbers; `told` has them by name. A double that the rule does not have is 0.
#[repr(C)]
#[derive(Clone, Copy, Debug)]
pub struct Decision {
    pub refusal: u64,
    pub verdict: u64,
    pub rule: u64,
    pub dim: u64,
    pub want_or_mark: f64,
    pub part: f64,
}

#[derive(Clone, Copy, Debug, PartialEq, Eq)]
pub enum Verdict {
    Admitted,
    OverShare,
    RelayRate,
}

#[derive(Clone, Copy, Debug, PartialEq, Eq)]
pub enum Dim {
    Receptions,
    Bytes,
}

/// Where the want lies: within the level or over it.
#[derive(Clone, Copy, Debug, PartialEq, Eq)]
pub enum Side {
    Within,
    Over,
}

/// The rule that decided: the first that lacked, and in which dimension. README.md says what helps.
#[derive(Clone, Copy, Debug, PartialEq)]
pub enum Rule {
    /// none lacked; the want, 0 on a relay that is not bounded
    Admitted(f64),
    Credit(Side, Dim),
    Tokens(Side, Dim),
    /// the mark required, and the part of the burst that would have been left
    Reserve { dim: Dim, mark: f64, part: f64 },
}

impl Decision {
    /// The verdict and its rule, or the number of the refusal.
    pub fn told(&self) -> Result<(Verdict, Rule), u64> {
        let dim = if self.dim == DIM_RECEPTIONS { Dim::Receptions } else { Dim::Bytes };
        let rule = match self.rule {
            RULE_NONE => return Err(self.refusal),
            RULE_ADMITTED => Rule::Admitted(self.want_or_mark),
            RULE_CREDIT_WITHIN => Rule::Credit(Side::Within, dim),
            RULE_CREDIT_OVER => Rule::Credit(Side::Over, dim),
            RULE_TOKENS_WITHIN => Rule::Tokens(Side::Within, dim),
            RULE_TOKENS_OVER => Rule::Tokens(Side::Over, dim),
            RULE_RESERVE => Rule::Reserve { dim, mark: self.want_or_mark, part: self.part },
            other => unreachable!("the archive has no rule {other}"),
        };
        let verdict = match self.verdict {
            VERDICT_ADMITTED => Verdict::Admitted,
            VERDICT_OVER_SHARE => Verdict::OverShare,
            VERDICT_RELAY_RATE => Verdict::RelayRate,
            other => unreachable!("the archive has no verdict {other}"),
        };
        Ok((verdict, rule))
    }
}

#[repr(C)]
#[derive(Clone, Copy)]
pub struct Judged {
    pub decision: Decision,
    pub head: Head,
}

/// What a start, a cut or a call of new rates answers: 0, or the number of the refusal.
#[repr(C)]
#[derive(Clone, Copy)]
pub struct Answered {
    pub answer: u64,
    pub head: Head,
}

#[repr(C)]
#[derive(Clone, Copy, Debug, PartialEq, Eq)]
pub struct Count {
    pub refusal: u64,
    pub value: u64,
}

#[repr(C)]
#[derive(Clone, Copy, Debug)]
pub struct Level {
    pub refusal: u64,
    pub value: f64,
}

pub type Offsets = [u32; OFFSETS];
pub type UnitRow = [u64; 7];
pub type UseRow = [f64; 2 * DIMS];
pub type CountedRow = [u64; 8];
pub type Counts = [[u32; BUCKETS]; DIMS];
pub type Sums = [[f64; BUCKETS]; DIMS];

unsafe extern "C" {
    fn tankpost_start_const(
        head: Head,
        tags: *const u16, tags_len: usize,
        slots: *const u32, slots_len: usize,
        offsets: *mut Offsets,
        free: *mut u32, free_len: usize,
        units: *const UnitRow, units_len: usize,
        uses: *const UseRow, uses_len: usize,
        counts: *mut Counts,
        sums: *mut Sums,
        counted: *const CountedRow, counted_len: usize,
        rate: *const [u64; DIMS],
        ceiling: *const [u64; DIMS],
    ) -> Answered;
    fn tankpost_judge(
        head: Head,
        tags: *mut u16, tags_len: usize,
        slots: *mut u32, slots_len: usize,
        offsets: *mut Offsets,
        free: *mut u32, free_len: usize,
        units: *mut UnitRow, units_len: usize,
        uses: *mut UseRow, uses_len: usize,
        counts: *mut Counts,
        sums: *mut Sums,
        counted: *mut CountedRow, counted_len: usize,
        unit: Words,
        cost: *const [u64; DIMS],
        stamp: u64,
    ) -> Judged;
    fn tankpost_cut(
        head: Head,
        tags: *mut u16, tags_len: usize,
        slots: *mut u32, slots_len: usize,
        offsets: *mut Offsets,
        free: *mut u32, free_len: usize,
        units: *mut UnitRow, units_len: usize,
        uses: *mut UseRow, uses_len: usize,
        counted: *mut CountedRow, counted_len: usize,
        unit: Words,
        cause: u64,
        cost: *const [u64; DIMS],
    ) -> Answered;
    fn tankpost_set_rates(
        head: Head,
        tags: *const u16, tags_len: usize,
        slots: *const u32, slots_len: usize,
        offsets: *const Offsets,
        free: *const u32, free_len: usize,
        units: *const UnitRow, units_len: usize,
        uses: *const UseRow, uses_len: usize,
        counted: *const CountedRow, counted_len: usize,
        rate: *const [u64; DIMS],
        ceiling: *const [u64; DIMS],
        stamp: u64,
    ) -> Answered;
    fn tankpost_report(
        head: Head,
        tags: *const u16, tags_len: usize,
        slots: *const u32, slots_len: usize,
        offsets: *const Offsets,
        free: *const u32, free_len: usize,
        units: *const UnitRow, units_len: usize,
        uses: *const UseRow, uses_len: usize,
        counted: *const CountedRow, counted_len: usize,
        out: *mut u8, out_len: usize,
    ) -> Count;
    fn tankpost_report_refusal(
        head: Head,
        tags: *const u16, tags_len: usize,
        slots: *const u32, slots_len: usize,
        offsets: *const Offsets,
        free: *const u32, free_len: usize,
        units: *const UnitRow, units_len: usize,
        uses: *const UseRow, uses_len: usize,
        counted: *const CountedRow, counted_len: usize,
        out: *const u8, out_len: usize,
    ) -> u64;
    fn tankpost_visited(head: Head, offsets: *const Offsets) -> Count;
    fn tankpost_cut_batches(head: Head, offsets: *const Offsets, cause: u64) -> Count;
    fn tankpost_level(head: Head, offsets: *const Offsets, dim: u64) -> Level;
    fn tankpost_rate(head: Head, offsets: *const Offsets, dim: u64) -> Count;
    fn tankpost_is_bounded(head: Head, offsets: *const Offsets) -> Count;
}

/// A shedder and the memory that it is lent.
#[derive(Clone)]
pub struct Shedder {
    pub head: Head,
    /// Those of the unit records, then those of the counted records.
    pub tags: Vec<u16>,
    /// Of each entry of the index the slot where its record's rows stand.
    pub slots: Vec<u32>,
    /// Where the part of each table begins in tags and slots, and where the last one ends.
    pub offsets: Offsets,
    /// The slots that no entry names, the next one last of them.
    pub free: Vec<u32>,
    pub units: Vec<UnitRow>,
    pub uses: Vec<UseRow>,
    pub counts: Box<Counts>,
    pub sums: Box<Sums>,
    pub counted: Vec<CountedRow>,
}

impl Shedder {
    /// Memory of zeros for so many records, and a head of zeros, which no call but `start` takes.
    pub fn new(units: usize, counted: usize) -> Self {
        Self {
            head: Head::default(),
            tags: vec![0; units + counted],
            slots: vec![0; units],
            offsets: [0; OFFSETS],
            free: vec![0; units],
            units: vec![[0; 7]; units],
            uses: vec![[0.0; 2 * DIMS]; units],
            counts: Box::new([[0; BUCKETS]; DIMS]),
            sums: Box::new([[0.0; BUCKETS]; DIMS]),
            counted: vec![[0; 8]; counted],
        }
    }

    fn take(&mut self, a: Answered) -> u64 {
        self.head = a.head;
        a.answer
    }

    pub fn start(&mut self, rate: [u64; DIMS], ceiling: [u64; DIMS]) -> u64 {
        let a = unsafe {
            tankpost_start_const(
                self.head,
                self.tags.as_ptr(), self.tags.len(),
                self.slots.as_ptr(), self.slots.len(),
                &mut self.offsets,
                self.free.as_mut_ptr(), self.free.len(),
                self.units.as_ptr(), self.units.len(),
                self.uses.as_ptr(), self.uses.len(),
                &mut *self.counts,
                &mut *self.sums,
                self.counted.as_ptr(), self.counted.len(),
                &rate,
                &ceiling,
            )
        };
        self.take(a)
    }

    /// The verdict and its rule, or the number of the refusal.
    pub fn judge(&mut self, unit: Words, cost: [u64; DIMS], stamp: u64) -> Result<(Verdict, Rule), u64> {
        self.decision(unit, cost, stamp).told()
    }

    /// The same as numbers.
    pub fn decision(&mut self, unit: Words, cost: [u64; DIMS], stamp: u64) -> Decision {
        let j = unsafe {
            tankpost_judge(
                self.head,
                self.tags.as_mut_ptr(), self.tags.len(),
                self.slots.as_mut_ptr(), self.slots.len(),
                &mut self.offsets,
                self.free.as_mut_ptr(), self.free.len(),
                self.units.as_mut_ptr(), self.units.len(),
                self.uses.as_mut_ptr(), self.uses.len(),
                &mut *self.counts,
                &mut *self.sums,
                self.counted.as_mut_ptr(), self.counted.len(),
                unit,
                &cost,
                stamp,
            )
        };
        self.head = j.head;
        j.decision
    }

    pub fn cut(&mut self, unit: Words, cause: u64, cost: [u64; DIMS]) -> u64 {
        let a = unsafe {
            tankpost_cut(
                self.head,
                self.tags.as_mut_ptr(), self.tags.len(),
                self.slots.as_mut_ptr(), self.slots.len(),
                &mut self.offsets,
                self.free.as_mut_ptr(), self.free.len(),
                self.units.as_mut_ptr(), self.units.len(),
                self.uses.as_mut_ptr(), self.uses.len(),
                self.counted.as_mut_ptr(), self.counted.len(),
                unit,
                cause,
                &cost,
            )
        };
        self.take(a)
    }

    /// New rates and a new ceiling at a stamp.
    pub fn set_rates(&mut self, rate: [u64; DIMS], ceiling: [u64; DIMS], stamp: u64) -> u64 {
        let a = unsafe {
            tankpost_set_rates(
                self.head,
                self.tags.as_ptr(), self.tags.len(),
                self.slots.as_ptr(), self.slots.len(),
                &self.offsets,
                self.free.as_ptr(), self.free.len(),
                self.units.as_ptr(), self.units.len(),
                self.uses.as_ptr(), self.uses.len(),
                self.counted.as_ptr(), self.counted.len(),
                &rate,
                &ceiling,
                stamp,
            )
        };
        self.take(a)
    }

    pub fn report(&self, out: &mut [u8]) -> Count {
        unsafe {
            tankpost_report(
                self.head,
                self.tags.as_ptr(), self.tags.len(),
                self.slots.as_ptr(), self.slots.len(),
                &self.offsets,
                self.free.as_ptr(), self.free.len(),
                self.units.as_ptr(), self.units.len(),
                self.uses.as_ptr(), self.uses.len(),
                self.counted.as_ptr(), self.counted.len(),
                out.as_mut_ptr(), out.len(),
            )
        }
    }

    pub fn report_refusal(&self, out: &[u8]) -> u64 {
        unsafe {
            tankpost_report_refusal(
                self.head,
                self.tags.as_ptr(), self.tags.len(),
                self.slots.as_ptr(), self.slots.len(),
                &self.offsets,
                self.free.as_ptr(), self.free.len(),
                self.units.as_ptr(), self.units.len(),
                self.uses.as_ptr(), self.uses.len(),
                self.counted.as_ptr(), self.counted.len(),
                out.as_ptr(), out.len(),
            )
        }
    }

    pub fn visited(&self) -> Count {
        unsafe { tankpost_visited(self.head, &self.offsets) }
    }

    pub fn cut_batches(&self, cause: u64) -> Count {
        unsafe { tankpost_cut_batches(self.head, &self.offsets, cause) }
    }

    pub fn level(&self, dim: u64) -> Level {
        unsafe { tankpost_level(self.head, &self.offsets, dim) }
    }

    pub fn rate(&self, dim: u64) -> Count {
        unsafe { tankpost_rate(self.head, &self.offsets, dim) }
    }

    pub fn is_bounded(&self) -> Count {
        unsafe { tankpost_is_bounded(self.head, &self.offsets) }
    }
}
