//! The rehearsal, from input bytes to the report's bytes.

use crate::lines::Lines;
use crate::run::{Run, STEP};
use crate::state::{Entry, BOARD};

/// Writes the report and answers its length: as many bytes as there is room
/// for are written. The state holds what the steps led to; what is refused,
/// the state's length too, leaves it as it was.
pub fn rehearse(input: &[u8], state: &mut [u8], out: &mut [u8]) -> usize {
    let mut lines = Lines::over(out);
    match Run::over(input, state) {
        Ok((mut run, steps)) => run.report(&mut lines, steps),
        Err(refusal) => lines.refused(refusal),
    }
    lines.length
}

impl Run<'_> {
    fn report(&mut self, lines: &mut Lines, steps: &[u8]) {
        lines.text(b"peers ");
        lines.field(self.table.n as usize);
        lines.text(b"threshold ");
        lines.field(self.table.t as usize);
        lines.text(b"honest ");
        lines.last(self.table.honest.count_ones() as usize);
        for (k, bytes) in steps.chunks(STEP).enumerate() {
            lines.field(k + 1);
            lines.last(self.step(bytes) as usize);
        }
        self.report_databases(lines);
        self.report_receipts(lines);
        self.report_boards(lines);
        self.report_totals(lines);
        lines.text(b"end\n");
    }

    fn report_databases(&self, lines: &mut Lines) {
        for j in 0..self.table.n as usize {
            for period in 0..self.table.periods as usize {
                for item in 0..self.table.m as usize {
                    let signers = self.state.databases[j][period][item];
                    if signers != 0 {
                        lines.text(b"db ");
                        lines.field(j + 1);
                        lines.field(period);
                        lines.field(item);
                        lines.last(signers.count_ones() as usize);
                    }
                }
            }
        }
    }

    fn report_receipts(&self, lines: &mut Lines) {
        for period in 0..self.table.periods as usize {
            let mut left = self.state.receipted[period];
            while left != 0 {
                lines.text(b"receipt ");
                lines.field(period);
                lines.last(left.trailing_zeros() as usize);
                left &= left - 1;
            }
        }
    }

    fn boards(&self) -> impl Iterator<Item = &Entry> {
        self.state.entries().iter().filter(|entry| entry.kind == BOARD)
    }

    fn report_boards(&self, lines: &mut Lines) {
        for entry in self.boards() {
            lines.text(b"board ");
            lines.number(entry.period as usize);
            let mut left = entry.board;
            while left != 0 {
                lines.text(b" ");
                lines.number(left.trailing_zeros() as usize);
                left &= left - 1;
            }
            lines.text(b"\n");
        }
    }

    /// Each board has a backing, so there are at most 128, of 64 items.
    fn report_totals(&self, lines: &mut Lines) {
        let receipted = self.state.receipted;
        let receipts: u32 = receipted.iter().map(|items| items.count_ones()).sum();
        let items: u32 = self.boards().map(|entry| { entry.board }.count_ones()).sum();
        lines.text(b"totals ");
        lines.field({ self.state.posted }.count_ones() as usize);
        lines.field(receipts as usize);
        lines.last(items as usize);
    }
}
