//! The proved engine, called as C calls it, the plain one, and what it takes to
//! compare them with the reference.
//!
//! - `layout`: the state's bytes, from docs/STATE.md
//! - `row14`: which bytes are a state, from document 01's row 14
//! - `lent`: bytes that are lent, and those around them
//! - `pair`: engines and reference on the same calls
//! - `tables`: the same for tables, judged
//! - `sheets`: the same for sheets, written and read
//! - `shrunk`: the same for rehearsals cut down, and what is promised of them
//! - `given`: shares on lent states, and what is due
//! - `cleared`: clears on lent states, likewise
//! - `closes`: closes of a period, run so, and what was asked of them
//! - `through`, `seen`: what came of them, and what they were like
//! - `altered`: tables and sheets with other texts for their items
//! - `wrong_shares`: engines that judge by another rule what was given
//! - `wrong_clears`: engines that clear at another time, or something else
//! - `wrong_gains`: engines that count step files otherwise
//! - `wrong_shrinkers`: engines that cut rehearsals down in another way
//! - `wrong_weights`: engines that ask other quorums of peers with weights
//! - `wrong_readers`: engines that read weights otherwise
//! - `wrong_reports`: engines that show weights for numbers of peers
//! - `wrong_totals`: engines that count something else at the report's foot
//! - `program`: the proved programs, from input to output
//! - `field`: the field peer likewise, one peer's box

pub mod altered;
pub mod cleared;
pub mod closes;
pub mod field;
pub mod given;
pub mod layout;
pub mod lent;
pub mod pair;
pub mod program;
pub mod row14;
pub mod seen;
pub mod sheets;
pub mod shrunk;
pub mod tables;
pub mod through;
pub mod wrong_clears;
pub mod wrong_gains;
pub mod wrong_readers;
pub mod wrong_reports;
pub mod wrong_shares;
pub mod wrong_shrinkers;
pub mod wrong_totals;
pub mod wrong_weights;

/// An engine over lent bytes.
#[derive(Clone, Copy)]
pub struct Engine {
    pub name: &'static str,
    /// Table: the answer.
    pub check_table: fn(&[u8]) -> u8,
    /// Table and state: the answer.
    pub fresh: fn(&[u8], &mut [u8]) -> u8,
    /// Table, state and step: the answer.
    pub step: fn(&[u8], &mut [u8], &[u8]) -> u8,
    /// Input, state and room for the report: the report's length.
    pub rehearse: fn(&[u8], &mut [u8], &mut [u8]) -> usize,
    /// Input and room for the step numbers that are left: the text's length.
    pub shrink: fn(&[u8], &mut [u8]) -> usize,
    /// Step file: the most that the bag can gain by it.
    pub gain: fn(&[u8]) -> usize,
    /// Table, state, period, room for the sheet, and for its length: the answer.
    pub write_sheet: WriteSheet,
    /// Sheet: the answer.
    pub check_sheet: fn(&[u8]) -> u8,
    /// Sheet, item, and room for the item's offset and length: the answer.
    pub sheet_item: fn(&[u8], u8, &mut usize, &mut usize) -> u8,
}

/// What writes a sheet.
pub type WriteSheet = fn(&[u8], &[u8], u8, &mut [u8], &mut usize) -> u8;

pub const PROVED: Engine = Engine {
    name: "proved",
    check_table: board_check_table,
    fresh: board_fresh,
    step: board_step,
    rehearse: board_rehearse,
    shrink: board_shrink,
    gain: board_gain,
    write_sheet: board_write_sheet,
    check_sheet: board_check_sheet,
    sheet_item: board_sheet_item,
};

pub const PLAIN: Engine = Engine {
    name: "plain",
    check_table: plain::check_table,
    fresh: plain::fresh,
    step: plain::step,
    rehearse: plain::rehearse,
    shrink: plain::shrink,
    gain: plain::gain,
    write_sheet: plain::write_sheet,
    check_sheet: plain::check_sheet,
    sheet_item: plain::sheet_item,
};

/// The engines that are held to the reference.
pub const ENGINES: [Engine; 2] = [PROVED, PLAIN];

mod c {
    extern "C" {
        pub fn board_check_table(table: *const u8, n: usize) -> u8;
        pub fn board_state_length() -> usize;
        pub fn board_fresh(table: *const u8, n: usize, state: *mut u8, m: usize) -> u8;
        pub fn board_step(
            table: *const u8,
            table_length: usize,
            state: *mut u8,
            state_length: usize,
            step: *const u8,
            step_length: usize,
        ) -> u8;
        pub fn board_report_most() -> usize;
        pub fn board_rehearse(
            input: *const u8,
            input_length: usize,
            state: *mut u8,
            state_length: usize,
            out: *mut u8,
            out_length: usize,
        ) -> usize;
        pub fn board_shrink_most() -> usize;
        pub fn board_shrink(
            input: *const u8,
            input_length: usize,
            out: *mut u8,
            out_length: usize,
        ) -> usize;
        pub fn board_gain(steps: *const u8, n: usize) -> usize;
        pub fn board_sheet_most() -> usize;
        pub fn board_write_sheet(
            table: *const u8,
            table_length: usize,
            state: *const u8,
            state_length: usize,
            period: u8,
            sheet: *mut u8,
            sheet_length: usize,
            length: *mut usize,
        ) -> u8;
        pub fn board_check_sheet(sheet: *const u8, n: usize) -> u8;
        pub fn board_sheet_item(
            sheet: *const u8,
            sheet_length: usize,
            item: u8,
            offset: *mut usize,
            length: *mut usize,
        ) -> u8;
    }
}

pub fn board_check_table(table: &[u8]) -> u8 {
    // The pointer goes with its slice's length.
    unsafe { c::board_check_table(table.as_ptr(), table.len()) }
}

pub fn board_state_length() -> usize {
    // It takes nothing and reads no memory.
    unsafe { c::board_state_length() }
}

pub fn board_fresh(table: &[u8], state: &mut [u8]) -> u8 {
    // Each pointer goes with its slice's length.
    unsafe { c::board_fresh(table.as_ptr(), table.len(), state.as_mut_ptr(), state.len()) }
}

pub fn board_step(table: &[u8], state: &mut [u8], step: &[u8]) -> u8 {
    let (at, length) = (state.as_mut_ptr(), state.len());
    // Each pointer goes with its slice's length.
    unsafe { c::board_step(table.as_ptr(), table.len(), at, length, step.as_ptr(), step.len()) }
}

pub fn board_report_most() -> usize {
    // It takes nothing and reads no memory.
    unsafe { c::board_report_most() }
}

pub fn board_rehearse(input: &[u8], state: &mut [u8], out: &mut [u8]) -> usize {
    let (state, length) = (state.as_mut_ptr(), state.len());
    let (out, room) = (out.as_mut_ptr(), out.len());
    // Each pointer goes with its slice's length.
    unsafe { c::board_rehearse(input.as_ptr(), input.len(), state, length, out, room) }
}

pub fn board_shrink_most() -> usize {
    // It takes nothing and reads no memory.
    unsafe { c::board_shrink_most() }
}

pub fn board_shrink(input: &[u8], out: &mut [u8]) -> usize {
    // Each pointer goes with its slice's length.
    unsafe { c::board_shrink(input.as_ptr(), input.len(), out.as_mut_ptr(), out.len()) }
}

pub fn board_gain(steps: &[u8]) -> usize {
    // The pointer goes with its slice's length.
    unsafe { c::board_gain(steps.as_ptr(), steps.len()) }
}

pub fn board_sheet_most() -> usize {
    // It takes nothing and reads no memory.
    unsafe { c::board_sheet_most() }
}

pub fn board_write_sheet(
    table: &[u8],
    state: &[u8],
    period: u8,
    sheet: &mut [u8],
    length: &mut usize,
) -> u8 {
    let (table, n) = (table.as_ptr(), table.len());
    let (state, m) = (state.as_ptr(), state.len());
    let (sheet, room) = (sheet.as_mut_ptr(), sheet.len());
    // Each pointer goes with its slice's length, and the last is a number's.
    unsafe { c::board_write_sheet(table, n, state, m, period, sheet, room, length) }
}

pub fn board_check_sheet(sheet: &[u8]) -> u8 {
    // The pointer goes with its slice's length.
    unsafe { c::board_check_sheet(sheet.as_ptr(), sheet.len()) }
}

pub fn board_sheet_item(sheet: &[u8], item: u8, offset: &mut usize, length: &mut usize) -> u8 {
    // The first pointer goes with its slice's length, the others are numbers'.
    unsafe { c::board_sheet_item(sheet.as_ptr(), sheet.len(), item, offset, length) }
}
