//! The static library's eleven functions over `plain`, `plain_text`, `plain_mark`, `plain_reasons` and `plain_tables`, under
//! the same names: with the feature `plain` the declarations of the crate `acornsled` are tried where no archive is built
//! (`tests/linked.rs`).

use crate::library::{Header, Papers, Told};
use crate::plain;
use crate::plain_mark;
use crate::plain_reasons;
use crate::plain_tables;
use crate::plain_text;
use std::slice::{from_raw_parts, from_raw_parts_mut};

#[no_mangle]
unsafe extern "C" fn acornsled_key(
    n: usize,
    hidden: u32,
    table: *mut i64,
    table_len: usize,
    workspace: *mut i64,
    workspace_len: usize,
    value: *mut usize,
) -> u32 {
    // SAFETY: `acornsled::calls` passes each slice's pointer with its length, and its own variable for the value.
    let (table, workspace, value) =
        unsafe { (from_raw_parts_mut(table, table_len), from_raw_parts_mut(workspace, workspace_len), &mut *value) };
    let reply = plain::key(n, hidden, table, workspace);
    *value = reply.value;
    reply.number
}

#[no_mangle]
unsafe extern "C" fn acornsled_tight_key(
    n: usize,
    hidden: u32,
    table: *mut i64,
    table_len: usize,
    workspace: *mut i64,
    workspace_len: usize,
    value: *mut usize,
) -> u32 {
    // SAFETY: as above.
    let (table, workspace, value) =
        unsafe { (from_raw_parts_mut(table, table_len), from_raw_parts_mut(workspace, workspace_len), &mut *value) };
    let reply = plain::tight_key(n, hidden, table, workspace);
    *value = reply.value;
    reply.number
}

#[no_mangle]
unsafe extern "C" fn acornsled_step(
    n: usize,
    before: u32,
    quantity: usize,
    blocks: usize,
    table: *mut i64,
    table_len: usize,
    workspace: *mut i64,
    workspace_len: usize,
    value: *mut usize,
) -> u32 {
    // SAFETY: as above.
    let (table, workspace, value) =
        unsafe { (from_raw_parts_mut(table, table_len), from_raw_parts_mut(workspace, workspace_len), &mut *value) };
    let reply = plain::step(n, before, quantity, blocks, table, workspace);
    *value = reply.value;
    reply.number
}

#[no_mangle]
unsafe extern "C" fn acornsled_assignment(
    n: usize,
    table: *const i64,
    table_len: usize,
    workspace: *mut i64,
    workspace_len: usize,
    values: *mut i64,
    values_len: usize,
    value: *mut usize,
) -> u32 {
    // SAFETY: as above.
    let (table, workspace, values, value) = unsafe {
        (
            from_raw_parts(table, table_len),
            from_raw_parts_mut(workspace, workspace_len),
            from_raw_parts_mut(values, values_len),
            &mut *value,
        )
    };
    let reply = plain::assignment(n, table, workspace, values);
    *value = reply.value;
    reply.number
}

#[no_mangle]
unsafe extern "C" fn acornsled_ask(
    n: usize,
    table: *const i64,
    table_len: usize,
    questions: *const i64,
    questions_len: usize,
    workspace: *mut i64,
    workspace_len: usize,
    answers: *mut u64,
    value: *mut usize,
) -> u32 {
    // SAFETY: as above.
    let (table, questions) = unsafe { (from_raw_parts(table, table_len), from_raw_parts(questions, questions_len)) };
    // SAFETY: as above.
    let (workspace, answers, value) =
        unsafe { (from_raw_parts_mut(workspace, workspace_len), &mut *answers, &mut *value) };
    let reply = plain::ask(n, table, questions, workspace, answers);
    *value = reply.value;
    reply.number
}

#[no_mangle]
unsafe extern "C" fn acornsled_read(
    text: *const u8,
    text_len: usize,
    table: *mut i64,
    table_len: usize,
    quantities: *mut usize,
    hidden: *mut u32,
    value: *mut usize,
) -> u32 {
    // SAFETY: as above.
    let (text, table, value) =
        unsafe { (from_raw_parts(text, text_len), from_raw_parts_mut(table, table_len), &mut *value) };
    // SAFETY: as above.
    let (quantities, hidden) = unsafe { (&mut *quantities, &mut *hidden) };
    let mut header = Header { quantities: *quantities, hidden: *hidden };
    let reply = plain_text::read(text, table, &mut header);
    (*quantities, *hidden, *value) = (header.quantities, header.hidden, reply.value);
    reply.number
}

#[no_mangle]
unsafe extern "C" fn acornsled_bank_read(
    text: *const u8,
    text_len: usize,
    table: *mut i64,
    table_len: usize,
    quantities: *mut usize,
    hidden: *mut u32,
    value: *mut usize,
) -> u32 {
    // SAFETY: as above.
    let (text, table, value) =
        unsafe { (from_raw_parts(text, text_len), from_raw_parts_mut(table, table_len), &mut *value) };
    // SAFETY: as above.
    let (quantities, hidden) = unsafe { (&mut *quantities, &mut *hidden) };
    let mut header = Header { quantities: *quantities, hidden: *hidden };
    let reply = plain_text::bank_read(text, table, &mut header);
    (*quantities, *hidden, *value) = (header.quantities, header.hidden, reply.value);
    reply.number
}

#[no_mangle]
unsafe extern "C" fn acornsled_write(
    n: usize,
    hidden: u32,
    table: *const i64,
    table_len: usize,
    out: *mut u8,
    out_len: usize,
    value: *mut usize,
) -> u32 {
    // SAFETY: as above.
    let (table, out, value) =
        unsafe { (from_raw_parts(table, table_len), from_raw_parts_mut(out, out_len), &mut *value) };
    let reply = plain_text::write(n, hidden, table, out);
    *value = reply.value;
    reply.number
}

#[no_mangle]
unsafe extern "C" fn acornsled_mark(sheet: *const u8, sheet_len: usize, script: *const u8, script_len: usize) -> u32 {
    // SAFETY: as above.
    let (sheet, script) = unsafe { (from_raw_parts(sheet, sheet_len), from_raw_parts(script, script_len)) };
    plain_mark::mark(sheet, script)
}

#[no_mangle]
unsafe extern "C" fn acornsled_mark_texts(
    sheet: *const u8,
    sheet_len: usize,
    script: *const u8,
    script_len: usize,
    values: *mut i64,
    values_len: usize,
    quantities: *mut usize,
    rule: *mut [i64; 3],
    paper: *mut u32,
    value: *mut usize,
) -> u32 {
    // SAFETY: as above.
    let (sheet, script, values) = unsafe {
        (from_raw_parts(sheet, sheet_len), from_raw_parts(script, script_len), from_raw_parts_mut(values, values_len))
    };
    // SAFETY: as above.
    let (quantities, rule, paper, value) = unsafe { (&mut *quantities, &mut *rule, &mut *paper, &mut *value) };
    let mut told = Told { paper: *paper, value: *value, quantities: *quantities, rule: *rule };
    let number = plain_reasons::mark_texts(sheet, script, values, &mut told);
    (*quantities, *rule, *paper, *value) = (told.quantities, told.rule, told.paper, told.value);
    number
}

#[no_mangle]
unsafe extern "C" fn acornsled_mark_tables(
    n: usize,
    hidden: u32,
    sheet: *const i64,
    sheet_len: usize,
    script: *const i64,
    script_len: usize,
    workspace: *mut i64,
    workspace_len: usize,
    values: *mut i64,
    values_len: usize,
    rule: *mut [i64; 3],
    value: *mut usize,
) -> u32 {
    // SAFETY: as above.
    let (sheet, script) = unsafe { (from_raw_parts(sheet, sheet_len), from_raw_parts(script, script_len)) };
    // SAFETY: as above.
    let (workspace, values, rule, value) = unsafe {
        (from_raw_parts(workspace, workspace_len), from_raw_parts_mut(values, values_len), &mut *rule, &mut *value)
    };
    let reply = plain_tables::mark_tables(Papers { n, hidden, sheet, script }, workspace, values, rule);
    *value = reply.value;
    reply.number
}
