//! `include/sfr.h`, for Rust: the one place that declares the archive's functions.

use crate::{records::*, types::*};

unsafe extern "C" {
    pub safe fn sfr_add_unit(a: BabyBearUnit, b: BabyBearUnit) -> BabyBearUnit;
    pub safe fn sfr_mul_unit(a: BabyBearUnit, b: BabyBearUnit) -> BabyBearUnit;
    pub fn sfr_is_utf8(bytes: *const u8, bytes_len: usize) -> bool;
    pub fn sfr_scan_utf8(bytes: *const u8, bytes_len: usize) -> Utf8Scan;
    pub fn sfr_read_u32(bytes: *const u8, bytes_len: usize, at: usize) -> Word;
    pub fn sfr_put_u32(out: *mut u8, out_len: usize, at: usize, value: u32) -> Place;
    pub fn sfr_read_units(
        bytes: *const u8,
        bytes_len: usize,
        at: usize,
        out: *mut BabyBearUnit,
        out_len: usize,
        place: usize,
        n: u32,
    ) -> Place;
    pub fn sfr_read_vars(
        bytes: *const u8,
        bytes_len: usize,
        at: usize,
        out: *mut FieldVar,
        out_len: usize,
        place: usize,
        n: u32,
    ) -> Place;
}

// Relations.
unsafe extern "C" {
    pub fn sfr_new_relation(
        width: u32,
        slots: *mut u32,
        slots_len: usize,
        uses: *mut u32,
        uses_len: usize,
    ) -> Recorded;
    pub fn sfr_allocate_vars(rel: Relation, slots: *mut u32, slots_len: usize, n: u32)
        -> Allocated;
    pub fn sfr_set_var(
        rel: Relation,
        slots: *mut u32,
        slots_len: usize,
        var: FieldVar,
        value: BabyBearUnit,
    ) -> SetAnswer;
    pub fn sfr_set_vars(
        rel: Relation,
        slots: *mut u32,
        slots_len: usize,
        vars: *const FieldVar,
        vars_len: usize,
        values: *const BabyBearUnit,
        values_len: usize,
    ) -> Tally;
    pub fn sfr_set_tickets(
        rel: Relation,
        slots: *mut u32,
        slots_len: usize,
        text: *const u8,
        text_len: usize,
    ) -> TicketTally;
    pub fn sfr_add_permutation(
        rel: Relation,
        slots: *const u32,
        slots_len: usize,
        queries: *mut FieldVar,
        queries_len: usize,
        uses: *mut u32,
        uses_len: usize,
        input: *const FieldVar,
        input_len: usize,
        output: *const FieldVar,
        output_len: usize,
    ) -> Recorded;
    pub fn sfr_allocate_permutation(
        rel: Relation,
        slots: *mut u32,
        slots_len: usize,
        queries: *mut FieldVar,
        queries_len: usize,
        uses: *mut u32,
        uses_len: usize,
        input: *const FieldVar,
        input_len: usize,
    ) -> Allocated;
    pub fn sfr_withdraw_query(
        rel: Relation,
        slots: *const u32,
        slots_len: usize,
        queries: *mut FieldVar,
        queries_len: usize,
        uses: *mut u32,
        uses_len: usize,
        i: u32,
    ) -> Recorded;
    pub fn sfr_add_equation(
        rel: Relation,
        equations: *mut u32,
        equations_len: usize,
        terms: *const Weighted,
        terms_len: usize,
        image: BabyBearUnit,
    ) -> Recorded;
    pub fn sfr_withdraw_equation(
        rel: Relation,
        equations: *mut u32,
        equations_len: usize,
        i: u32,
    ) -> Recorded;
    pub fn sfr_scale(terms: *mut Weighted, terms_len: usize, factor: BabyBearUnit) -> Outcome;
    pub fn sfr_value_of(rel: Relation, slots: *const u32, slots_len: usize, var: FieldVar)
        -> Value;
    pub safe fn sfr_is_allocated(rel: Relation, var: FieldVar) -> Flag;
}

// Relations on one allocator.
unsafe extern "C" {
    pub fn sfr_with_allocator(
        allocator: VarAllocator,
        width: u32,
        quota: u32,
        slots: *mut u32,
        slots_len: usize,
        uses: *mut u32,
        uses_len: usize,
    ) -> Opened;
    pub fn sfr_allocate_vars_on(
        allocator: VarAllocator,
        index: u32,
        rel: SharedRelation,
        slots: *mut u32,
        slots_len: usize,
        n: u32,
    ) -> AllocatedOn;
    pub fn sfr_set_var_on(
        allocator: VarAllocator,
        index: u32,
        rel: SharedRelation,
        slots: *mut u32,
        slots_len: usize,
        var: FieldVar,
        value: BabyBearUnit,
    ) -> SetAnswer;
    pub fn sfr_set_vars_on(
        allocator: VarAllocator,
        index: u32,
        rel: SharedRelation,
        slots: *mut u32,
        slots_len: usize,
        vars: *const FieldVar,
        vars_len: usize,
        values: *const BabyBearUnit,
        values_len: usize,
    ) -> Tally;
    pub fn sfr_set_tickets_on(
        allocator: VarAllocator,
        index: u32,
        rel: SharedRelation,
        slots: *mut u32,
        slots_len: usize,
        text: *const u8,
        text_len: usize,
    ) -> TicketTally;
    pub fn sfr_add_permutation_on(
        allocator: VarAllocator,
        index: u32,
        rel: SharedRelation,
        slots: *const u32,
        slots_len: usize,
        queries: *mut FieldVar,
        queries_len: usize,
        uses: *mut u32,
        uses_len: usize,
        input: *const FieldVar,
        input_len: usize,
        output: *const FieldVar,
        output_len: usize,
    ) -> RecordedOn;
    pub fn sfr_allocate_permutation_on(
        allocator: VarAllocator,
        index: u32,
        rel: SharedRelation,
        slots: *mut u32,
        slots_len: usize,
        queries: *mut FieldVar,
        queries_len: usize,
        uses: *mut u32,
        uses_len: usize,
        input: *const FieldVar,
        input_len: usize,
    ) -> AllocatedOn;
    pub fn sfr_withdraw_query_on(
        allocator: VarAllocator,
        index: u32,
        rel: SharedRelation,
        slots: *const u32,
        slots_len: usize,
        queries: *mut FieldVar,
        queries_len: usize,
        uses: *mut u32,
        uses_len: usize,
        i: u32,
    ) -> RecordedOn;
    pub fn sfr_add_equation_on(
        allocator: VarAllocator,
        index: u32,
        rel: SharedRelation,
        equations: *mut u32,
        equations_len: usize,
        terms: *const Weighted,
        terms_len: usize,
        image: BabyBearUnit,
    ) -> RecordedOn;
    pub fn sfr_withdraw_equation_on(
        allocator: VarAllocator,
        index: u32,
        rel: SharedRelation,
        equations: *mut u32,
        equations_len: usize,
        i: u32,
    ) -> RecordedOn;
    pub fn sfr_value_of_on(
        allocator: VarAllocator,
        index: u32,
        rel: SharedRelation,
        slots: *const u32,
        slots_len: usize,
        var: FieldVar,
    ) -> Value;
    pub safe fn sfr_is_allocated_on(
        allocator: VarAllocator,
        index: u32,
        rel: SharedRelation,
        var: FieldVar,
    ) -> Flag;
    pub fn sfr_compile_on(
        allocator: VarAllocator,
        index: u32,
        rel: SharedRelation,
        label: *const u8,
        label_len: usize,
        slots: *const u32,
        slots_len: usize,
        queries: *const FieldVar,
        queries_len: usize,
        equations: *const u32,
        equations_len: usize,
        uses: *const u32,
        uses_len: usize,
        publics: *mut u32,
        publics_len: usize,
        scratch: *mut u32,
        scratch_len: usize,
    ) -> InstanceAnswer;
}

// Permutations by their parameters, and traces.
unsafe extern "C" {
    pub fn sfr_permute(
        width: u32,
        rounds: u32,
        params: *const u32,
        params_len: usize,
        state: *mut BabyBearUnit,
        state_len: usize,
    ) -> Outcome;
    pub fn sfr_permute_inverse(
        width: u32,
        rounds: u32,
        params: *const u32,
        params_len: usize,
        output: *const BabyBearUnit,
        output_len: usize,
        input: *mut BabyBearUnit,
        input_len: usize,
    ) -> Outcome;
    pub fn sfr_evaluate_step(
        rec: Trace,
        trace: *mut BabyBearUnit,
        trace_len: usize,
        input: *const BabyBearUnit,
        input_len: usize,
        rounds: u32,
        params: *const u32,
        params_len: usize,
    ) -> TraceAnswer;
    pub fn sfr_append_step(
        rec: Trace,
        trace: *mut BabyBearUnit,
        trace_len: usize,
        input: *const BabyBearUnit,
        input_len: usize,
        output: *const BabyBearUnit,
        output_len: usize,
    ) -> TraceAnswer;
    pub fn sfr_witness_to_bytes(
        rec: Trace,
        trace: *const BabyBearUnit,
        trace_len: usize,
        out: *mut u8,
        out_len: usize,
    ) -> Written;
    pub fn sfr_witness_from_bytes(
        width: u32,
        bytes: *const u8,
        bytes_len: usize,
        trace: *mut BabyBearUnit,
        trace_len: usize,
    ) -> TraceAnswer;
}

// Instances, and the check.
unsafe extern "C" {
    pub fn sfr_compile(
        rel: Relation,
        label: *const u8,
        label_len: usize,
        slots: *const u32,
        slots_len: usize,
        queries: *const FieldVar,
        queries_len: usize,
        equations: *const u32,
        equations_len: usize,
        uses: *const u32,
        uses_len: usize,
        publics: *mut u32,
        publics_len: usize,
        scratch: *mut u32,
        scratch_len: usize,
    ) -> InstanceAnswer;
    pub fn sfr_instance_to_bytes(
        ins: Instance,
        label: *const u8,
        label_len: usize,
        publics: *const u32,
        publics_len: usize,
        queries: *const FieldVar,
        queries_len: usize,
        equations: *const u32,
        equations_len: usize,
        out: *mut u8,
        out_len: usize,
    ) -> Written;
    pub fn sfr_instance_from_bytes(
        width: u32,
        bytes: *const u8,
        bytes_len: usize,
        publics: *mut u32,
        publics_len: usize,
        queries: *mut FieldVar,
        queries_len: usize,
        equations: *mut u32,
        equations_len: usize,
        scratch: *mut u32,
        scratch_len: usize,
    ) -> ReadAnswer;
    pub fn sfr_strict_instance_from_bytes(
        width: u32,
        bytes: *const u8,
        bytes_len: usize,
        publics: *mut u32,
        publics_len: usize,
        queries: *mut FieldVar,
        queries_len: usize,
        equations: *mut u32,
        equations_len: usize,
        scratch: *mut u32,
        scratch_len: usize,
    ) -> ReadAnswer;
    pub fn sfr_public_value(
        ins: Instance,
        publics: *const u32,
        publics_len: usize,
        var: FieldVar,
    ) -> Value;
    pub fn sfr_heading(
        label: *const u8,
        label_len: usize,
        name: *const u8,
        name_len: usize,
    ) -> Heading;
    pub fn sfr_is_witness_valid(
        ins: Instance,
        label: *const u8,
        label_len: usize,
        publics: *const u32,
        publics_len: usize,
        queries: *const FieldVar,
        queries_len: usize,
        equations: *const u32,
        equations_len: usize,
        steps: u32,
        trace: *const BabyBearUnit,
        trace_len: usize,
        rounds: u32,
        params: *const u32,
        params_len: usize,
        scratch: *mut u32,
        scratch_len: usize,
    ) -> Outcome;
}
