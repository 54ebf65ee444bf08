//! The C interface of torusmem, as include/torusmem.h declares it and says what each call does. These are the library's
//! own calls, which take no null pointer, also where a length is 0. The crate `torusmem` is the one to use.
#![no_std]
#![allow(non_camel_case_types)]

use core::ffi::{c_char, c_void};

/// A machine: `TORUSMEM_MACHINE_INIT` before the first call, then changed by calls alone. It may be moved.
#[repr(C)]
pub struct torusmem_machine {
    pub full: bool,
    pub at: *mut c_void,
}

pub const TORUSMEM_MACHINE_INIT: torusmem_machine = torusmem_machine { full: false, at: core::ptr::null_mut() };

/// A watch: `TORUSMEM_WATCH_INIT` before the first call, then changed by calls alone. It may be moved.
#[repr(C)]
pub struct torusmem_watch {
    pub full: bool,
    pub at: *mut c_void,
}

pub const TORUSMEM_WATCH_INIT: torusmem_watch = torusmem_watch { full: false, at: core::ptr::null_mut() };

/// What a call answers: a code, and a number whose meaning each call states.
#[repr(C)]
#[derive(Clone, Copy, Debug, PartialEq, Eq)]
pub struct torusmem_outcome {
    pub code: u32,
    pub value: u64,
}

pub const TORUSMEM_OK: u32 = 0;
pub const TORUSMEM_FAULT_RADIX: u32 = 1;
pub const TORUSMEM_FAULT_DIMENSIONS: u32 = 2;
pub const TORUSMEM_FAULT_TILES: u32 = 3;
pub const TORUSMEM_FAULT_LINE: u32 = 4;
pub const TORUSMEM_FAULT_SETTING: u32 = 5;
pub const TORUSMEM_FAULT_RANGE: u32 = 6;
pub const TORUSMEM_FAULT_ADDRESS: u32 = 7;
pub const TORUSMEM_FAULT_PROCESSOR: u32 = 8;
pub const TORUSMEM_FAULT_LENGTH: u32 = 9;
pub const TORUSMEM_FAULT_LAST: u32 = 10;
pub const TORUSMEM_FAULT_STEP: u32 = 11;
pub const TORUSMEM_FAULT_MEMORY: u32 = 12;
pub const TORUSMEM_FAULT_COUNT: u32 = 13;
pub const TORUSMEM_FAULT_DATELINE: u32 = 14;
pub const TORUSMEM_BAD_REPORT: u32 = 15;
pub const TORUSMEM_EMPTY: u32 = 16;
pub const TORUSMEM_FULL: u32 = 17;
pub const TORUSMEM_NONE: u32 = 18;
pub const TORUSMEM_SHORT: u32 = 19;
pub const TORUSMEM_NO_ROUTE: u32 = 20;
pub const TORUSMEM_CYCLE: u32 = 21;
pub const TORUSMEM_NOT_LINEARIZABLE: u32 = 22;
pub const TORUSMEM_TOO_MANY: u32 = 23;
pub const TORUSMEM_TOO_OPEN: u32 = 24;
pub const TORUSMEM_BEHIND_SPIN: u32 = 25;
pub const TORUSMEM_NOT_YET: u32 = 26;
pub const TORUSMEM_NO_RECORD: u32 = 27;
pub const TORUSMEM_BAD_RECORD: u32 = 28;
pub const TORUSMEM_BAD_ACTION: u32 = 29;
pub const TORUSMEM_WRONG_REPLY: u32 = 30;
pub const TORUSMEM_NO_PAIR: u32 = 31;
pub const TORUSMEM_NOT_RISING: u32 = 32;
pub const TORUSMEM_UNWRITTEN: u32 = 33;
pub const TORUSMEM_LOST_UPDATE: u32 = 34;
pub const TORUSMEM_UNDECIDED: u32 = 35;
pub const TORUSMEM_NEVER: u32 = 36;
pub const TORUSMEM_TOO_LONG: u32 = 37;
pub const TORUSMEM_NO_REPLY: u32 = 38;
pub const TORUSMEM_OTHER_COUNT: u32 = 39;

pub const TORUSMEM_SEND: u32 = 0;
pub const TORUSMEM_TAKE: u32 = 1;
pub const TORUSMEM_TAKE_FROM: u32 = 2;
pub const TORUSMEM_PUT: u32 = 3;
pub const TORUSMEM_CREDIT: u32 = 4;
pub const TORUSMEM_CREDIT_OF: u32 = 5;
pub const TORUSMEM_SERVE: u32 = 6;
pub const TORUSMEM_DONE: u32 = 7;
pub const TORUSMEM_LOOK: u32 = 8;

pub const TORUSMEM_LOAD: u32 = 0;
pub const TORUSMEM_STORE: u32 = 1;
pub const TORUSMEM_SWAP: u32 = 2;
pub const TORUSMEM_CAS: u32 = 3;
pub const TORUSMEM_ADD: u32 = 4;
pub const TORUSMEM_AND: u32 = 5;
pub const TORUSMEM_OR: u32 = 6;
pub const TORUSMEM_XOR: u32 = 7;
pub const TORUSMEM_MAX: u32 = 8;
pub const TORUSMEM_MIN: u32 = 9;

pub const TORUSMEM_FENCE: u32 = 10;
pub const TORUSMEM_SPIN: u32 = 11;

pub const TORUSMEM_FIRST_IS_LAST: u32 = 1;
pub const TORUSMEM_SECOND_IS_LAST: u32 = 2;

pub const TORUSMEM_INJECTION: u32 = 0;
pub const TORUSMEM_HOP: u32 = 1;
pub const TORUSMEM_EJECTION: u32 = 2;

pub const TORUSMEM_REQUEST: u32 = 0;
pub const TORUSMEM_REPLY: u32 = 1;

pub const TORUSMEM_ISSUE: u32 = 0;
pub const TORUSMEM_ANSWER: u32 = 1;

pub const TORUSMEM_LOG_INIT: u32 = 0;
pub const TORUSMEM_LOG_MADE: u32 = 1;
pub const TORUSMEM_LOG_WROTE: u32 = 2;
pub const TORUSMEM_LOG_READ: u32 = 3;
pub const TORUSMEM_LOG_READ_OPENING: u32 = 4;
pub const TORUSMEM_LOG_SERVED: u32 = 5;
pub const TORUSMEM_LOG_REPLIED: u32 = 6;

pub const TORUSMEM_COHERENT: u32 = 1;
pub const TORUSMEM_FENCED: u32 = 2;
pub const TORUSMEM_PSO: u32 = 4;
pub const TORUSMEM_TSO: u32 = 8;
pub const TORUSMEM_SC: u32 = 16;

pub const TORUSMEM_NO_TEXT: u32 = 0;
pub const TORUSMEM_MACHINE_TEXT: u32 = 1;
pub const TORUSMEM_SCRIPTS_TEXT: u32 = 2;

/// An attempt: what `torusmem_step` takes.
#[repr(C)]
#[derive(Clone, Copy, Debug, Default)]
pub struct torusmem_attempt {
    pub agent: u32,
    pub choice: u32,
    pub number: u32,
}

/// What a machine is built to.
#[repr(C)]
#[derive(Clone, Copy, Debug, Default)]
pub struct torusmem_shape {
    pub dims: u32,
    pub radices: [u32; 3],
    pub datelines: [u32; 3],
    pub depth: u32,
    pub tags: u32,
    pub words: u32,
    pub tiles: u32,
    pub ports: u32,
}

/// An answer of a processor.
#[repr(C)]
#[derive(Clone, Copy, Debug)]
pub struct torusmem_answer {
    pub code: u32,
    pub index: u32,
    pub operation: u32,
    pub bank: u32,
    pub place: u32,
    pub has_old: u32,
    pub first: u64,
    pub second: u64,
    pub old: u64,
}

/// An entry of a bank.
#[repr(C)]
#[derive(Clone, Copy, Debug)]
pub struct torusmem_entry {
    pub code: u32,
    pub source: u32,
    pub tag: u32,
    pub address: u32,
    pub operation: u32,
    pub has_old: u32,
    pub first: u64,
    pub second: u64,
    pub old: u64,
}

/// A row of the order.
#[repr(C)]
#[derive(Clone, Copy, Debug, Default)]
pub struct torusmem_ordered {
    pub bank: u32,
    pub place: u32,
    pub source: u32,
    pub index: u32,
    pub issued: u32,
    pub served: u32,
    pub answered: u32,
}

pub const TORUSMEM_ISSUED: u32 = 0;
pub const TORUSMEM_SERVED: u32 = 1;
pub const TORUSMEM_ANSWERED: u32 = 2;

/// An event of an operation that is served.
#[repr(C)]
#[derive(Clone, Copy, Debug, Default)]
pub struct torusmem_happened {
    pub number: u32,
    pub what: u32,
    pub operation: torusmem_ordered,
}

/// A channel of a route.
#[repr(C)]
#[derive(Clone, Copy, Debug, Default)]
pub struct torusmem_channel {
    pub kind: u32,
    pub tile: u32,
    pub dim: u32,
    pub minus: u32,
    pub bit: u32,
    pub number: u32,
}

/// A spin that ran out of loads.
#[repr(C)]
#[derive(Clone, Copy, Debug, Default)]
pub struct torusmem_spin {
    pub processor: u32,
    pub address: u32,
    pub loads: u32,
    pub line: u64,
    pub sought: u64,
}

/// An event of a trace.
#[repr(C)]
#[derive(Clone, Copy, Debug, Default)]
pub struct torusmem_event {
    pub kind: u32,
    pub processor: u32,
    pub operation: u32,
    pub address: u32,
    pub index: u32,
    pub has_old: u32,
    pub first: u64,
    pub second: u64,
    pub old: u64,
}

/// Why a load is refused.
#[repr(C)]
#[derive(Clone, Copy, Debug)]
pub struct torusmem_explanation {
    pub code: u32,
    pub fault: u32,
    pub text: u32,
    pub line: u64,
    pub length: u64,
}

/// An entry of a log.
#[repr(C)]
#[derive(Clone, Copy, Debug, Default)]
pub struct torusmem_log_entry {
    pub kind: u32,
    pub processor: u32,
    pub index: u32,
    pub operation: u32,
    pub address: u32,
    pub from_processor: u32,
    pub from_index: u32,
    pub has_old: u32,
    pub first: u64,
    pub second: u64,
    pub old: u64,
}

/// What is said of a trace.
#[repr(C)]
#[derive(Clone, Copy, Debug, PartialEq, Eq)]
pub struct torusmem_said {
    pub code: u32,
    pub line: u64,
    pub length: u64,
}

/// Which memory models a log obeys by its replies alone.
#[repr(C)]
#[derive(Clone, Copy, Debug, PartialEq, Eq)]
pub struct torusmem_decided {
    pub code: u32,
    pub obeyed: u32,
    pub broken: u32,
    pub value: u64,
    pub other: u64,
}

/// What a search for outcomes has found.
#[repr(C)]
#[derive(Clone, Copy, Debug, PartialEq, Eq)]
pub struct torusmem_searched {
    pub code: u32,
    pub outcomes: u64,
    pub states: u64,
    pub value: u64,
}

/// Which memory models a log obeys.
#[repr(C)]
#[derive(Clone, Copy, Debug, PartialEq, Eq)]
pub struct torusmem_models {
    pub code: u32,
    pub models: u32,
    pub value: u64,
    pub word: u64,
    pub writer: u64,
}

extern "C" {
    pub fn torusmem_version() -> *const c_char;
    pub fn torusmem_code_text(code: u32) -> *const c_char;
    pub fn torusmem_load(
        m: *mut torusmem_machine,
        machine: *const u8,
        machine_length: usize,
        scripts: *const u8,
        scripts_length: usize,
    ) -> torusmem_outcome;
    pub fn torusmem_open(
        m: *mut torusmem_machine,
        shape: *const torusmem_shape,
        words: *const u64,
        words_length: usize,
    ) -> torusmem_outcome;
    pub fn torusmem_open_recorded(
        m: *mut torusmem_machine,
        shape: *const torusmem_shape,
        words: *const u64,
        words_length: usize,
    ) -> torusmem_outcome;
    pub fn torusmem_reopen(m: *mut torusmem_machine, fresh: *mut torusmem_machine) -> torusmem_outcome;
    pub fn torusmem_load_recorded(
        m: *mut torusmem_machine,
        machine: *const u8,
        machine_length: usize,
        scripts: *const u8,
        scripts_length: usize,
    ) -> torusmem_outcome;
    pub fn torusmem_save(m: *mut torusmem_machine, out: *mut u8, out_length: usize) -> torusmem_outcome;
    pub fn torusmem_restore(m: *mut torusmem_machine, bytes: *const u8, bytes_length: usize) -> torusmem_outcome;
    pub fn torusmem_clone(m: *mut torusmem_machine, fresh: *mut torusmem_machine) -> torusmem_outcome;
    pub fn torusmem_explain(
        machine: *const u8,
        machine_length: usize,
        scripts: *const u8,
        scripts_length: usize,
        out: *mut u8,
        out_length: usize,
    ) -> torusmem_explanation;
    pub fn torusmem_free(m: *mut torusmem_machine);
    pub fn torusmem_step(m: *mut torusmem_machine, agent: u32, choice: u32, number: u32) -> torusmem_outcome;
    pub fn torusmem_run(
        m: *mut torusmem_machine,
        attempts: *const torusmem_attempt,
        attempts_length: usize,
    ) -> torusmem_outcome;
    pub fn torusmem_enabled(m: *mut torusmem_machine, agent: u32, choice: u32, number: u32) -> torusmem_outcome;
    pub fn torusmem_round(m: *mut torusmem_machine) -> torusmem_outcome;
    pub fn torusmem_finish(m: *mut torusmem_machine) -> torusmem_outcome;
    pub fn torusmem_fair_round(m: *mut torusmem_machine) -> torusmem_outcome;
    pub fn torusmem_fair_rounds(m: *mut torusmem_machine, most: u64) -> torusmem_outcome;
    pub fn torusmem_clocked_round(m: *mut torusmem_machine, turn: u64) -> torusmem_outcome;
    pub fn torusmem_finish_clocked(m: *mut torusmem_machine) -> torusmem_outcome;
    pub fn torusmem_append(
        m: *mut torusmem_machine,
        processor: u32,
        operation: u32,
        address: u32,
        first: u64,
        second: u64,
        lasts: u32,
    ) -> torusmem_outcome;
    pub fn torusmem_ask(
        m: *mut torusmem_machine,
        processor: u32,
        operation: u32,
        address: u32,
        first: u64,
        second: u64,
        lasts: u32,
    ) -> torusmem_outcome;
    pub fn torusmem_explain_line(
        m: *mut torusmem_machine,
        code: u32,
        processor: u32,
        operation: u32,
        address: u32,
        first: u64,
        second: u64,
        lasts: u32,
        out: *mut c_char,
        out_length: usize,
    ) -> usize;
    pub fn torusmem_finished(m: *mut torusmem_machine) -> torusmem_outcome;
    pub fn torusmem_moves_left(m: *mut torusmem_machine) -> torusmem_outcome;
    pub fn torusmem_shape(m: *mut torusmem_machine, out: *mut torusmem_shape) -> torusmem_outcome;
    pub fn torusmem_tiles(m: *mut torusmem_machine) -> torusmem_outcome;
    pub fn torusmem_words(m: *mut torusmem_machine) -> torusmem_outcome;
    pub fn torusmem_word(m: *mut torusmem_machine, address: u32) -> torusmem_outcome;
    pub fn torusmem_row(m: *mut torusmem_machine, at: u32) -> torusmem_outcome;
    pub fn torusmem_rows(m: *mut torusmem_machine, out: *mut u64, out_length: usize) -> torusmem_outcome;
    pub fn torusmem_answers(m: *mut torusmem_machine, processor: u32) -> torusmem_outcome;
    pub fn torusmem_answer_at(m: *mut torusmem_machine, processor: u32, i: u32) -> torusmem_answer;
    pub fn torusmem_answer_of(m: *mut torusmem_machine, processor: u32, index: u32) -> torusmem_answer;
    pub fn torusmem_entries(m: *mut torusmem_machine, bank: u32) -> torusmem_outcome;
    pub fn torusmem_entry_at(m: *mut torusmem_machine, bank: u32, i: u32) -> torusmem_entry;
    pub fn torusmem_order(
        m: *mut torusmem_machine,
        from: u32,
        out: *mut torusmem_ordered,
        out_length: usize,
    ) -> torusmem_outcome;
    pub fn torusmem_answered_to(m: *mut torusmem_machine, from: u32) -> torusmem_outcome;
    pub fn torusmem_events_from(
        m: *mut torusmem_machine,
        row: u32,
        from: u32,
        out: *mut torusmem_happened,
        out_length: usize,
    ) -> torusmem_outcome;
    pub fn torusmem_events(
        m: *mut torusmem_machine,
        from: u32,
        out: *mut torusmem_happened,
        out_length: usize,
    ) -> torusmem_outcome;
    pub fn torusmem_spins_out(
        m: *mut torusmem_machine,
        machine: *const u8,
        machine_length: usize,
        scripts: *const u8,
        scripts_length: usize,
        out: *mut torusmem_spin,
        out_length: usize,
    ) -> torusmem_outcome;
    pub fn torusmem_report(m: *mut torusmem_machine, out: *mut u8, out_length: usize) -> torusmem_outcome;
    pub fn torusmem_check(report: *const u8, report_length: usize) -> torusmem_outcome;
    pub fn torusmem_route(
        m: *mut torusmem_machine,
        src: u32,
        dst: u32,
        reply: u32,
        out: *mut torusmem_channel,
        out_length: usize,
    ) -> torusmem_outcome;
    pub fn torusmem_next(m: *mut torusmem_machine, at: u32, input: u32, dst: u32) -> torusmem_outcome;
    pub fn torusmem_network(
        network: *const u8,
        network_length: usize,
        out: *mut u8,
        out_length: usize,
    ) -> torusmem_outcome;
    pub fn torusmem_network_answer(
        network: *const u8,
        network_length: usize,
        out: *mut u8,
        out_length: usize,
    ) -> torusmem_outcome;
    pub fn torusmem_linearize(
        opening: *const u64,
        opening_length: usize,
        events: *const torusmem_event,
        events_length: usize,
        configurations: u64,
        out: *mut u64,
        out_length: usize,
    ) -> torusmem_outcome;
    pub fn torusmem_linearize_answer(
        trace: *const u8,
        trace_length: usize,
        configurations: u64,
        out: *mut u8,
        out_length: usize,
    ) -> torusmem_said;
    pub fn torusmem_model_values(
        log: *const u8,
        log_length: usize,
        nodes: u64,
        order: u32,
        out: *mut u8,
        out_length: usize,
    ) -> torusmem_decided;
    pub fn torusmem_outcomes(
        machine: *const u8,
        machine_length: usize,
        scripts: *const u8,
        scripts_length: usize,
        states: u64,
        out: *mut u8,
        out_length: usize,
    ) -> torusmem_searched;
    pub fn torusmem_outcomes_run(
        machine: *const u8,
        machine_length: usize,
        scripts: *const u8,
        scripts_length: usize,
        states: u64,
        number: u64,
        out: *mut u8,
        out_length: usize,
    ) -> torusmem_outcome;
    pub fn torusmem_reach(
        machine: *const u8,
        machine_length: usize,
        scripts: *const u8,
        scripts_length: usize,
        answer: *const u8,
        answer_length: usize,
        states: u64,
        out: *mut u8,
        out_length: usize,
    ) -> torusmem_outcome;
    pub fn torusmem_model(
        words: u64,
        entries: *const torusmem_log_entry,
        entries_length: usize,
        order: u32,
        out: *mut u8,
        out_length: usize,
    ) -> torusmem_models;
    pub fn torusmem_watch_begin(w: *mut torusmem_watch, opening: *const u64, opening_length: usize)
        -> torusmem_outcome;
    pub fn torusmem_watch_issue(
        w: *mut torusmem_watch,
        number: u64,
        operation: u32,
        address: u32,
        first: u64,
        second: u64,
    ) -> torusmem_outcome;
    pub fn torusmem_watch_answer(
        w: *mut torusmem_watch,
        number: u64,
        has_old: u32,
        old: u64,
        configurations: u64,
    ) -> torusmem_outcome;
    pub fn torusmem_watch_clone(w: *mut torusmem_watch, fresh: *mut torusmem_watch) -> torusmem_outcome;
    pub fn torusmem_watch_save(w: *mut torusmem_watch, out: *mut u8, out_length: usize) -> torusmem_outcome;
    pub fn torusmem_watch_restore(w: *mut torusmem_watch, bytes: *const u8, bytes_length: usize) -> torusmem_outcome;
    pub fn torusmem_watch_end(w: *mut torusmem_watch);
}
