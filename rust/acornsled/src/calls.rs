//! The library's calls over lent slices, one function for each: safe, and with the numbers that C gets.

use crate::sys;

/// A call's number, 0 where it is not refused and gives no verdict, and what is returned beside it: a line, the length
/// needed or the length of a text written, 0 where there is nothing.
#[derive(Clone, Copy, PartialEq, Eq, Debug)]
pub struct Reply {
    pub number: u32,
    pub value: usize,
}

/// What reading gives beside the table: n, and the hidden set with bit q - 1 for quantity q.
#[derive(Clone, Copy, PartialEq, Eq, Default, Debug)]
pub struct Header {
    pub quantities: usize,
    pub hidden: u32,
}

/// What marking two texts gives beside its number and the values.
#[derive(Clone, Copy, PartialEq, Eq, Default, Debug)]
pub struct Told {
    /// the paper that a refusal is about, 1 for the sheet, 2 for the script, 3 for both; 0 with a verdict
    pub paper: u32,
    /// the line or the length needed of a refusal, 0 where there is nothing
    pub value: usize,
    /// with a verdict the sheet's n, else as it was
    pub quantities: usize,
    /// with loose and tight the rule, two signed quantity numbers, 0 for none, and the bound; else as it was
    pub rule: [i64; 3],
}

/// What a value is before a call. No reply has it, so that a call which leaves the value unwritten is seen.
pub const UNWRITTEN: usize = usize::MAX;

/// Replaces the header and the table's first 2n² words by what the text says.
pub fn read(text: &[u8], table: &mut [i64], header: &mut Header) -> Reply {
    let mut value = UNWRITTEN;
    // SAFETY: each pointer goes with its slice's own length, and what may be changed overlaps nothing else, as Rust's own
    // rules for references have it; the function asks nothing further.
    let number = unsafe {
        sys::acornsled_read(
            text.as_ptr(),
            text.len(),
            table.as_mut_ptr(),
            table.len(),
            &mut header.quantities,
            &mut header.hidden,
            &mut value,
        )
    };
    Reply { number, value }
}

/// As [`read`], of a bank sheet: after 2, 3 and 4 on one line comes 9, for a rule that has a doubled term or its higher quantity
/// first, or whose place is not after that of the rule before it.
pub fn bank_read(text: &[u8], table: &mut [i64], header: &mut Header) -> Reply {
    let mut value = UNWRITTEN;
    // SAFETY: as above.
    let number = unsafe {
        sys::acornsled_bank_read(
            text.as_ptr(),
            text.len(),
            table.as_mut_ptr(),
            table.len(),
            &mut header.quantities,
            &mut header.hidden,
            &mut value,
        )
    };
    Reply { number, value }
}

/// Writes the table's text to the first bytes of `out`; the value is its length.
pub fn write(n: usize, hidden: u32, table: &[i64], out: &mut [u8]) -> Reply {
    let mut value = UNWRITTEN;
    // SAFETY: as above.
    let number = unsafe {
        sys::acornsled_write(n, hidden, table.as_ptr(), table.len(), out.as_mut_ptr(), out.len(), &mut value)
    };
    Reply { number, value }
}

/// Replaces the table's first 2n² words by the key's. The workspace needs as many.
pub fn key(n: usize, hidden: u32, table: &mut [i64], workspace: &mut [i64]) -> Reply {
    let mut value = UNWRITTEN;
    // SAFETY: as above.
    let number = unsafe {
        sys::acornsled_key(
            n,
            hidden,
            table.as_mut_ptr(),
            table.len(),
            workspace.as_mut_ptr(),
            workspace.len(),
            &mut value,
        )
    };
    Reply { number, value }
}

/// Replaces the table's first 2n² words by those of its tightest key. The workspace needs as many.
pub fn tight_key(n: usize, hidden: u32, table: &mut [i64], workspace: &mut [i64]) -> Reply {
    let mut value = UNWRITTEN;
    // SAFETY: as above.
    let number = unsafe {
        sys::acornsled_tight_key(
            n,
            hidden,
            table.as_mut_ptr(),
            table.len(),
            workspace.as_mut_ptr(),
            workspace.len(),
            &mut value,
        )
    };
    Reply { number, value }
}

/// Replaces the table's first 2n² words by those of the table at a point of a hiding step: the quantities of the set `before`
/// are hidden, and of the step that hides `quantity` the first `blocks` blocks are done; with n + 1 the step is at its end. The
/// workspace needs 2n² words.
pub fn step(n: usize, before: u32, quantity: usize, blocks: usize, table: &mut [i64], workspace: &mut [i64]) -> Reply {
    let mut value = UNWRITTEN;
    // SAFETY: as above.
    let number = unsafe {
        sys::acornsled_step(
            n,
            before,
            quantity,
            blocks,
            table.as_mut_ptr(),
            table.len(),
            workspace.as_mut_ptr(),
            workspace.len(),
            &mut value,
        )
    };
    Reply { number, value }
}

/// Writes n integers that satisfy the table's rules to the first n words of `values`. The workspace needs 2n² words.
pub fn assignment(n: usize, table: &[i64], workspace: &mut [i64], values: &mut [i64]) -> Reply {
    let mut value = UNWRITTEN;
    // SAFETY: as above.
    let number = unsafe {
        sys::acornsled_assignment(
            n,
            table.as_ptr(),
            table.len(),
            workspace.as_mut_ptr(),
            workspace.len(),
            values.as_mut_ptr(),
            values.len(),
            &mut value,
        )
    };
    Reply { number, value }
}

/// Puts the questions to the table, each three words: two signed quantity numbers, 0 for no second, and the bound; words behind
/// the last whole question are not looked at. Bit i of `answers` becomes the answer to the question with i others before it, 1
/// where all integers that satisfy the table meet it. The workspace needs 2n² words, which become the tightest table with
/// nothing hidden.
pub fn ask(n: usize, table: &[i64], questions: &[i64], workspace: &mut [i64], answers: &mut u64) -> Reply {
    let mut value = UNWRITTEN;
    // SAFETY: as above.
    let number = unsafe {
        sys::acornsled_ask(
            n,
            table.as_ptr(),
            table.len(),
            questions.as_ptr(),
            questions.len(),
            workspace.as_mut_ptr(),
            workspace.len(),
            answers,
            &mut value,
        )
    };
    Reply { number, value }
}

/// The number of the verdict on two texts, 100 for equal, 101 for loose, 102 for tight, or of the refusal.
pub fn mark(sheet: &[u8], script: &[u8]) -> u32 {
    // SAFETY: as above.
    unsafe { sys::acornsled_mark(sheet.as_ptr(), sheet.len(), script.as_ptr(), script.len()) }
}

/// The same number, with the reasons: what is told, and for loose and tight the integers that show the verdict, in the first
/// n words of `values`. Where these are too few the call is refused with 6.
pub fn mark_texts(sheet: &[u8], script: &[u8], values: &mut [i64], told: &mut Told) -> u32 {
    // SAFETY: as above.
    unsafe {
        sys::acornsled_mark_texts(
            sheet.as_ptr(),
            sheet.len(),
            script.as_ptr(),
            script.len(),
            values.as_mut_ptr(),
            values.len(),
            &mut told.quantities,
            &mut told.rule,
            &mut told.paper,
            &mut told.value,
        )
    }
}

/// Marks the script's table against the sheet's, both over n quantities: the number of the verdict or of the refusal, and
/// beside it the length needed with 6, else 0. The workspace needs 4n² words. For loose and tight the rule is written, as
/// in [`Told`], and to the first n words of `values` the integers that show the verdict; else both stay as they were.
pub fn mark_tables(
    n: usize,
    hidden: u32,
    sheet: &[i64],
    script: &[i64],
    workspace: &mut [i64],
    values: &mut [i64],
    rule: &mut [i64; 3],
) -> Reply {
    let mut value = UNWRITTEN;
    // SAFETY: as above.
    let number = unsafe {
        sys::acornsled_mark_tables(
            n,
            hidden,
            sheet.as_ptr(),
            sheet.len(),
            script.as_ptr(),
            script.len(),
            workspace.as_mut_ptr(),
            workspace.len(),
            values.as_mut_ptr(),
            values.len(),
            rule,
            &mut value,
        )
    };
    Reply { number, value }
}
