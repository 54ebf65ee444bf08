//! The calls of the C library, one method each. All that is unsafe stands here.
//!
//! What a caller owes is what include/torusmem.h says: a machine that began as zeros, was changed by calls alone, isn't
//! doubled, and goes to one call at a time, each after the one before it; and for each pointer as much behind it as the
//! length says, where what is written is nobody else's and what is read may overlap. So it is with a watch. Each is a
//! private field behind a `&mut`, so that it is nobody else's during a call; pointers with their lengths come from slices.
//! The library's own calls, which these are, take no null pointer. That of an empty slice becomes one to a byte, or a
//! channel, that is there, as in the header.
use std::ffi::{c_char, CStr};
use torusmem_sys::*;

pub struct Raw(torusmem_machine);

// SAFETY: calls may come from any thread, one after the other, as include/torusmem.h says: what a machine holds is its
// own, and the proof has the library's handle as `Send`.
unsafe impl Send for Raw {}

/// The pointer of a slice; of an empty one that of a byte.
fn text_at(text: &[u8]) -> *const u8 {
    if text.is_empty() {
        &0
    } else {
        text.as_ptr()
    }
}

/// The pointer of a list; of an empty one that of an item in its place.
fn list_at<T>(list: &[T], none: &T) -> *const T {
    if list.is_empty() {
        none
    } else {
        list.as_ptr()
    }
}

/// The pointer of a buffer; of an empty one that of an item in its place.
fn buffer_at<T>(out: &mut [T], none: &mut T) -> *mut T {
    if out.is_empty() {
        none
    } else {
        out.as_mut_ptr()
    }
}

impl Drop for Raw {
    fn drop(&mut self) {
        // SAFETY: the machine is this one's alone, and nobody has it afterwards.
        unsafe { torusmem_free(&mut self.0) }
    }
}

/// A method for a call that takes the machine and numbers.
macro_rules! calls {
    ($($name:ident = $call:ident($($number:ident),*) -> $answer:ty;)*) => {
        $(pub fn $name(&mut self, $($number: u32),*) -> $answer {
            // SAFETY: the machine is this one's alone, for as long as the call takes. Numbers may be any.
            unsafe { $call(&mut self.0, $($number),*) }
        })*
    };
}

impl Raw {
    pub fn empty() -> Raw {
        Raw(TORUSMEM_MACHINE_INIT)
    }

    pub fn load(&mut self, machine: &[u8], scripts: &[u8]) -> torusmem_outcome {
        // SAFETY: the machine is this one's alone; each slice has as many bytes as it says, and is only read.
        unsafe { torusmem_load(&mut self.0, text_at(machine), machine.len(), text_at(scripts), scripts.len()) }
    }

    pub fn open(&mut self, shape: &torusmem_shape, words: &[u64]) -> torusmem_outcome {
        // SAFETY: the machine is this one's alone; the slice has as many words as it says, and is only read.
        unsafe { torusmem_open(&mut self.0, shape, list_at(words, &0), words.len()) }
    }

    pub fn open_recorded(&mut self, shape: &torusmem_shape, words: &[u64]) -> torusmem_outcome {
        // SAFETY: the machine is this one's alone; the slice has as many words as it says, and is only read.
        unsafe { torusmem_open_recorded(&mut self.0, shape, list_at(words, &0), words.len()) }
    }

    pub fn load_recorded(&mut self, machine: &[u8], scripts: &[u8]) -> torusmem_outcome {
        // SAFETY: the machine is this one's alone; each slice has as many bytes as it says, and is only read.
        unsafe { torusmem_load_recorded(&mut self.0, text_at(machine), machine.len(), text_at(scripts), scripts.len()) }
    }

    pub fn save(&mut self, out: &mut [u8]) -> torusmem_outcome {
        // SAFETY: the machine is this one's alone; the slice has as many bytes as it says, and nobody else has it.
        unsafe { torusmem_save(&mut self.0, buffer_at(out, &mut 0), out.len()) }
    }

    pub fn restore(&mut self, bytes: &[u8]) -> torusmem_outcome {
        // SAFETY: the machine is this one's alone; the slice has as many bytes as it says, and is only read.
        unsafe { torusmem_restore(&mut self.0, text_at(bytes), bytes.len()) }
    }

    pub fn clone_to(&mut self, fresh: &mut Raw) -> torusmem_outcome {
        // SAFETY: both machines are nobody else's, and two.
        unsafe { torusmem_clone(&mut self.0, &mut fresh.0) }
    }

    pub fn reopen(&mut self, fresh: &mut Raw) -> torusmem_outcome {
        // SAFETY: both machines are nobody else's, and two.
        unsafe { torusmem_reopen(&mut self.0, &mut fresh.0) }
    }

    calls! {
        step = torusmem_step(agent, choice, number) -> torusmem_outcome;
        enabled = torusmem_enabled(agent, choice, number) -> torusmem_outcome;
        round = torusmem_round() -> torusmem_outcome;
        finish = torusmem_finish() -> torusmem_outcome;
        fair_round = torusmem_fair_round() -> torusmem_outcome;
        finish_clocked = torusmem_finish_clocked() -> torusmem_outcome;
        finished = torusmem_finished() -> torusmem_outcome;
        moves_left = torusmem_moves_left() -> torusmem_outcome;
        tiles = torusmem_tiles() -> torusmem_outcome;
        words = torusmem_words() -> torusmem_outcome;
        word = torusmem_word(address) -> torusmem_outcome;
        row = torusmem_row(at) -> torusmem_outcome;
        answers = torusmem_answers(processor) -> torusmem_outcome;
        answer_at = torusmem_answer_at(processor, i) -> torusmem_answer;
        answer_of = torusmem_answer_of(processor, index) -> torusmem_answer;
        entries = torusmem_entries(bank) -> torusmem_outcome;
        entry_at = torusmem_entry_at(bank, i) -> torusmem_entry;
        next = torusmem_next(at, input, dst) -> torusmem_outcome;
    }

    pub fn fair_rounds(&mut self, most: u64) -> torusmem_outcome {
        // SAFETY: the machine is this one's alone, for as long as the call takes. The number may be any.
        unsafe { torusmem_fair_rounds(&mut self.0, most) }
    }

    pub fn clocked_round(&mut self, turn: u64) -> torusmem_outcome {
        // SAFETY: the machine is this one's alone, for as long as the call takes. The number may be any.
        unsafe { torusmem_clocked_round(&mut self.0, turn) }
    }

    pub fn append(
        &mut self,
        processor: u32,
        operation: u32,
        address: u32,
        values: (u64, u64),
        lasts: u32,
    ) -> torusmem_outcome {
        // SAFETY: the machine is this one's alone, for as long as the call takes. Numbers may be any.
        unsafe { torusmem_append(&mut self.0, processor, operation, address, values.0, values.1, lasts) }
    }

    pub fn ask(
        &mut self,
        processor: u32,
        operation: u32,
        address: u32,
        values: (u64, u64),
        lasts: u32,
    ) -> torusmem_outcome {
        // SAFETY: the machine is this one's alone, for as long as the call takes. Numbers may be any.
        unsafe { torusmem_ask(&mut self.0, processor, operation, address, values.0, values.1, lasts) }
    }

    /// The sentence on a line that a call refused by this code.
    pub fn explain_line(
        &mut self,
        code: u32,
        processor: u32,
        operation: u32,
        address: u32,
        values: (u64, u64),
        lasts: u32,
    ) -> String {
        let mut out: [c_char; 256] = [0; 256];
        let (machine, at, room) = (&mut self.0, out.as_mut_ptr(), out.len());
        // SAFETY: the machine is this one's alone, and so is the room, which has as many bytes as it says. Numbers may be
        // any. What is written ends with a zero.
        unsafe {
            torusmem_explain_line(machine, code, processor, operation, address, values.0, values.1, lasts, at, room);
            CStr::from_ptr(at).to_string_lossy().into_owned()
        }
    }

    pub fn run(&mut self, attempts: &[torusmem_attempt]) -> torusmem_outcome {
        let none = torusmem_attempt::default();
        // SAFETY: the machine is this one's alone; the slice has as many attempts as it says, and is only read.
        unsafe { torusmem_run(&mut self.0, list_at(attempts, &none), attempts.len()) }
    }

    pub fn shape(&mut self, out: &mut torusmem_shape) -> torusmem_outcome {
        // SAFETY: the machine is this one's alone, and so is what is written.
        unsafe { torusmem_shape(&mut self.0, out) }
    }

    pub fn rows(&mut self, out: &mut [u64]) -> torusmem_outcome {
        // SAFETY: the machine is this one's alone, and so is the slice, which has as many words as it says.
        unsafe { torusmem_rows(&mut self.0, buffer_at(out, &mut 0), out.len()) }
    }

    pub fn order(&mut self, from: u32, out: &mut [torusmem_ordered]) -> torusmem_outcome {
        let mut none = torusmem_ordered::default();
        // SAFETY: the machine is this one's alone, and so is the slice, which has as many rows as it says.
        unsafe { torusmem_order(&mut self.0, from, buffer_at(out, &mut none), out.len()) }
    }

    pub fn events(&mut self, from: u32, out: &mut [torusmem_happened]) -> torusmem_outcome {
        let mut none = torusmem_happened::default();
        // SAFETY: the machine is this one's alone, and so is the slice, which has as many events as it says.
        unsafe { torusmem_events(&mut self.0, from, buffer_at(out, &mut none), out.len()) }
    }

    pub fn answered_to(&mut self, from: u32) -> torusmem_outcome {
        // SAFETY: the machine is this one's alone, for as long as the call takes. Numbers may be any.
        unsafe { torusmem_answered_to(&mut self.0, from) }
    }

    pub fn events_from(&mut self, row: u32, from: u32, out: &mut [torusmem_happened]) -> torusmem_outcome {
        let mut none = torusmem_happened::default();
        // SAFETY: the machine is this one's alone, and so is the slice, which has as many events as it says.
        unsafe { torusmem_events_from(&mut self.0, row, from, buffer_at(out, &mut none), out.len()) }
    }

    pub fn spins_out(&mut self, machine: &[u8], scripts: &[u8], out: &mut [torusmem_spin]) -> torusmem_outcome {
        let mut none = torusmem_spin::default();
        let (machine_at, scripts_at) = (text_at(machine), text_at(scripts));
        let (at, room) = (buffer_at(out, &mut none), out.len());
        // SAFETY: the machine is this one's alone; the texts have as many bytes as they say, and are only read; what is
        // written is nobody else's, and has as many spins as it says.
        unsafe { torusmem_spins_out(&mut self.0, machine_at, machine.len(), scripts_at, scripts.len(), at, room) }
    }

    pub fn report(&mut self, out: &mut [u8]) -> torusmem_outcome {
        // SAFETY: the machine is this one's alone, and so is the slice, which has as many bytes as it says.
        unsafe { torusmem_report(&mut self.0, buffer_at(out, &mut 0), out.len()) }
    }

    pub fn route(&mut self, src: u32, dst: u32, reply: u32, out: &mut [torusmem_channel]) -> torusmem_outcome {
        let mut none = torusmem_channel::default();
        let at = buffer_at(out, &mut none);
        // SAFETY: the machine is this one's alone, and so is the slice, which has as many channels as it says.
        unsafe { torusmem_route(&mut self.0, src, dst, reply, at, out.len()) }
    }
}

/// A text that the library keeps for good.
fn kept_text(text: *const c_char) -> &'static str {
    // SAFETY: the library's texts are constants in ASCII that end with a zero.
    unsafe { CStr::from_ptr(text) }.to_str().unwrap_or("")
}

pub fn version() -> &'static str {
    // SAFETY: the call takes nothing.
    kept_text(unsafe { torusmem_version() })
}

pub fn code_text(code: u32) -> &'static str {
    // SAFETY: the code may be any number.
    kept_text(unsafe { torusmem_code_text(code) })
}

pub fn check(report: &[u8]) -> torusmem_outcome {
    // SAFETY: the slice has as many bytes as it says. There is no machine.
    unsafe { torusmem_check(text_at(report), report.len()) }
}

pub fn explain(machine: &[u8], scripts: &[u8], out: &mut [u8]) -> torusmem_explanation {
    let (machine_at, scripts_at) = (text_at(machine), text_at(scripts));
    // SAFETY: the slices have as many bytes as they say; what is written is nobody else's. There is no machine.
    unsafe { torusmem_explain(machine_at, machine.len(), scripts_at, scripts.len(), buffer_at(out, &mut 0), out.len()) }
}

pub fn network(network: &[u8], out: &mut [u8]) -> torusmem_outcome {
    // SAFETY: the slices have as many bytes as they say; what is written is nobody else's. There is no machine.
    unsafe { torusmem_network(text_at(network), network.len(), buffer_at(out, &mut 0), out.len()) }
}

pub fn network_answer(network: &[u8], out: &mut [u8]) -> torusmem_outcome {
    // SAFETY: the slices have as many bytes as they say; what is written is nobody else's. There is no machine.
    unsafe { torusmem_network_answer(text_at(network), network.len(), buffer_at(out, &mut 0), out.len()) }
}

pub fn linearize(opening: &[u64], events: &[torusmem_event], configurations: u64, out: &mut [u64]) -> torusmem_outcome {
    let none = torusmem_event::default();
    let (opening_at, events_at) = (list_at(opening, &0), list_at(events, &none));
    let (mut no_place, room) = (0, out.len());
    let at = buffer_at(out, &mut no_place);
    // SAFETY: the slices have as many items as they say; what is written is nobody else's. There is no machine.
    unsafe { torusmem_linearize(opening_at, opening.len(), events_at, events.len(), configurations, at, room) }
}

pub fn model(words: u64, entries: &[torusmem_log_entry], order: u32, out: &mut [u8]) -> torusmem_models {
    let none = torusmem_log_entry::default();
    let (mut no_byte, room) = (0, out.len());
    let (entries_at, at) = (list_at(entries, &none), buffer_at(out, &mut no_byte));
    // SAFETY: the slices have as many items as they say; what is written is nobody else's. There is no machine.
    unsafe { torusmem_model(words, entries_at, entries.len(), order, at, room) }
}

pub fn linearize_answer(trace: &[u8], configurations: u64, out: &mut [u8]) -> torusmem_said {
    let (mut no_byte, room) = (0, out.len());
    let at = buffer_at(out, &mut no_byte);
    // SAFETY: the slices have as many bytes as they say; what is written is nobody else's. There is no machine.
    unsafe { torusmem_linearize_answer(text_at(trace), trace.len(), configurations, at, room) }
}

pub fn model_values(log: &[u8], nodes: u64, order: u32, out: &mut [u8]) -> torusmem_decided {
    let (mut no_byte, room) = (0, out.len());
    let at = buffer_at(out, &mut no_byte);
    // SAFETY: the slices have as many bytes as they say; what is written is nobody else's. There is no machine.
    unsafe { torusmem_model_values(text_at(log), log.len(), nodes, order, at, room) }
}

pub fn outcomes(machine: &[u8], scripts: &[u8], states: u64, out: &mut [u8]) -> torusmem_searched {
    let (machine_at, scripts_at) = (text_at(machine), text_at(scripts));
    let (mut no_byte, room) = (0, out.len());
    let at = buffer_at(out, &mut no_byte);
    // SAFETY: the slices have as many bytes as they say; what is written is nobody else's. There is no machine.
    unsafe { torusmem_outcomes(machine_at, machine.len(), scripts_at, scripts.len(), states, at, room) }
}

pub fn outcomes_run(machine: &[u8], scripts: &[u8], states: u64, number: u64, out: &mut [u8]) -> torusmem_outcome {
    let (machine_at, scripts_at) = (text_at(machine), text_at(scripts));
    let (mut no_byte, room) = (0, out.len());
    let at = buffer_at(out, &mut no_byte);
    // SAFETY: the slices have as many bytes as they say; what is written is nobody else's. There is no machine.
    unsafe { torusmem_outcomes_run(machine_at, machine.len(), scripts_at, scripts.len(), states, number, at, room) }
}

pub fn reach(machine: &[u8], scripts: &[u8], answer: &[u8], states: u64, out: &mut [u8]) -> torusmem_outcome {
    let (machine_at, scripts_at, answer_at) = (text_at(machine), text_at(scripts), text_at(answer));
    let (mut no_byte, room) = (0, out.len());
    let at = buffer_at(out, &mut no_byte);
    let (machines, answers) = (machine.len(), answer.len());
    // SAFETY: the slices have as many bytes as they say; what is written is nobody else's. There is no machine.
    unsafe { torusmem_reach(machine_at, machines, scripts_at, scripts.len(), answer_at, answers, states, at, room) }
}

pub struct RawWatch(torusmem_watch);

// SAFETY: as of a machine.
unsafe impl Send for RawWatch {}

impl Drop for RawWatch {
    fn drop(&mut self) {
        // SAFETY: the watch is this one's alone, and nobody has it afterwards.
        unsafe { torusmem_watch_end(&mut self.0) }
    }
}

impl RawWatch {
    pub fn empty() -> RawWatch {
        RawWatch(TORUSMEM_WATCH_INIT)
    }

    pub fn begin(&mut self, opening: &[u64]) -> torusmem_outcome {
        // SAFETY: the watch is this one's alone; the slice has as many words as it says, and is only read.
        unsafe { torusmem_watch_begin(&mut self.0, list_at(opening, &0), opening.len()) }
    }

    pub fn clone_to(&mut self, fresh: &mut RawWatch) -> torusmem_outcome {
        // SAFETY: the watches are two, each this one's alone.
        unsafe { torusmem_watch_clone(&mut self.0, &mut fresh.0) }
    }

    pub fn save(&mut self, out: &mut [u8]) -> torusmem_outcome {
        // SAFETY: the watch is this one's alone; the slice has as many bytes as it says, and nobody else has it.
        unsafe { torusmem_watch_save(&mut self.0, buffer_at(out, &mut 0), out.len()) }
    }

    pub fn restore(&mut self, bytes: &[u8]) -> torusmem_outcome {
        // SAFETY: the watch is this one's alone; the slice has as many bytes as it says, and is only read.
        unsafe { torusmem_watch_restore(&mut self.0, text_at(bytes), bytes.len()) }
    }

    pub fn issue(&mut self, number: u64, operation: u32, address: u32, values: (u64, u64)) -> torusmem_outcome {
        // SAFETY: the watch is this one's alone, for as long as the call takes. Numbers may be any.
        unsafe { torusmem_watch_issue(&mut self.0, number, operation, address, values.0, values.1) }
    }

    pub fn answer(&mut self, number: u64, has_old: u32, old: u64, configurations: u64) -> torusmem_outcome {
        // SAFETY: the watch is this one's alone, for as long as the call takes. Numbers may be any.
        unsafe { torusmem_watch_answer(&mut self.0, number, has_old, old, configurations) }
    }
}
