//! The functions of the archive, as `include/okrozumba.h` declares them. A reference to an array is passed as C passes a pointer.
use crate::brightness::{Curve, Light};
use crate::figures::{Record, CODES, STATES};
use crate::recorder::{HELD, NUMBERS};
use crate::{Answer, Cell, MESSAGES, STATE_WORDS, TASKS};

type Words = [u32; STATE_WORDS];
type Messages = [u32; MESSAGES];

#[repr(C)]
pub struct Outcome {
    pub number: u32,
    pub place: usize,
}

#[repr(C)]
pub struct Shown {
    pub code: i32,
    pub tasks: u32,
}

#[repr(C)]
pub struct Parted {
    pub number: u32,
    pub place: usize,
    pub taken: usize,
    pub written: usize,
}

#[repr(C)]
pub struct Comparison {
    pub number: u32,
    pub length: usize,
}

#[repr(C)]
pub struct Counted {
    pub number: u32,
    pub place: usize,
}

#[repr(C)]
pub struct Judgement {
    pub number: u32,
    pub point: u32,
}

#[repr(C)]
pub struct Level {
    pub number: u32,
    pub value: u32,
}

#[repr(C)]
pub struct Display {
    pub light: Light,
    pub news: u32,
    pub point: u32,
}

extern "C" {
    pub fn okrozumba_start(
        setup: *const u8,
        setup_bytes: usize,
        words: &mut Words,
        messages: &mut Messages,
    ) -> Outcome;

    pub fn okrozumba_call(
        words: &mut Words,
        messages: &mut Messages,
        context: i32,
        number: i32,
        a: i32,
        b: i32,
        c: i32,
    ) -> Answer;

    pub fn okrozumba_tick(words: &mut Words, messages: &Messages) -> Answer;

    pub fn okrozumba_enter(words: &mut Words, messages: &Messages) -> Answer;

    pub fn okrozumba_leave(words: &mut Words, messages: &Messages) -> Answer;

    pub fn okrozumba_cell(words: &Words, messages: &Messages, task: i32) -> Cell;

    pub fn okrozumba_running(words: &Words, messages: &Messages) -> u32;

    pub fn okrozumba_states(words: &Words, messages: &Messages, states: &mut [u32; TASKS])
        -> Shown;

    pub fn okrozumba_events(
        words: &mut Words,
        messages: &mut Messages,
        events: *const i32,
        event_words: usize,
        codes: *mut i32,
        code_places: usize,
        answers: *mut u32,
        answer_words: usize,
    ) -> u32;

    pub fn okrozumba_run(
        setup: *const u8,
        setup_bytes: usize,
        words: &mut Words,
        messages: &mut Messages,
        events: *const i32,
        event_words: usize,
        codes: *mut i32,
        code_places: usize,
        answers: *mut u32,
        answer_words: usize,
    ) -> Outcome;

    pub fn okrozumba_begin(numbers: &mut [u32; NUMBERS]);

    pub fn okrozumba_part(
        numbers: &mut [u32; NUMBERS],
        held: &mut [u8; HELD],
        words: &mut Words,
        messages: &mut Messages,
        bytes: *const u8,
        byte_count: usize,
        text: *mut u8,
        text_bytes: usize,
    ) -> Parted;

    pub fn okrozumba_end(
        numbers: &mut [u32; NUMBERS],
        held: &[u8; HELD],
        text: *mut u8,
        text_bytes: usize,
    ) -> Parted;

    pub fn okrozumba_count(
        numbers: &mut [u32; NUMBERS],
        held: &mut [u8; HELD],
        words: &mut Words,
        messages: &mut Messages,
        table: &mut [[u32; STATES]; TASKS],
        codes: &mut [u32; CODES.len()],
        bytes: *const u8,
        byte_count: usize,
    ) -> Counted;

    pub fn okrozumba_record_of(
        table: &[[u32; STATES]; TASKS],
        codes: &[u32; CODES.len()],
    ) -> Record;

    pub fn okrozumba_month(
        records: *const Record,
        record_count: usize,
        out: *mut u32,
        out_words: usize,
    ) -> u32;

    pub fn okrozumba_curve_judge(curve: Curve) -> Judgement;

    pub fn okrozumba_curve_level(curve: Curve, lux: u32) -> Level;

    pub fn okrozumba_light_first(curve: Curve) -> Display;

    pub fn okrozumba_light_take(
        curve: Curve,
        slots: *const u32,
        slot_count: usize,
        light: Light,
        code: i32,
        word: u32,
    ) -> Display;

    pub fn okrozumba_light_receive(
        words: &mut Words,
        messages: &mut Messages,
        curve: Curve,
        slots: *const u32,
        slot_count: usize,
        light: Light,
        mailbox: i32,
    ) -> Display;

    pub fn okrozumba_light_resumed(
        words: &Words,
        messages: &Messages,
        curve: Curve,
        slots: *const u32,
        slot_count: usize,
        light: Light,
    ) -> Display;

    pub fn okrozumba_compare(
        input: *const u8,
        input_bytes: usize,
        text: *mut u8,
        text_bytes: usize,
    ) -> Comparison;
}
