//! A rehearsal read from text: its bytes, and where each thing stands.

use crate::names::Bounds;
use crate::reasons::items::no_item;
use crate::season::Season;
use crate::steps::{read_step, STEP_LENGTH};
use crate::table::{is_item, is_season, is_weights, lay_out, Header, HEADER_FORM, WEIGHTS_FORM};
use crate::table::{read_header, read_item, read_season, read_weights};
use crate::words::{lines, Line};

/// A rehearsal that was read from text.
pub struct Written {
    pub bytes: Vec<u8>,
    /// The lines of the header, of the weights, of the items and of the steps.
    pub header: Source,
    pub weights: Option<Source>,
    pub items: Vec<Source>,
    pub steps: Vec<Source>,
    /// Names that the table does not have and audits that are not of its season,
    /// each with its line. They are written all the same.
    pub warnings: Vec<String>,
}

/// A line of the text: its number, and its words without the comment.
pub struct Source {
    pub line: usize,
    pub words: String,
}

/// What stands before the items.
struct Head {
    season: Season,
    header: Header,
    weights: Vec<u8>,
    /// Their lines.
    sources: (Source, Option<Source>),
}

/// Reads a rehearsal written as text. An error names its line.
pub fn read(text: &str) -> Result<Written, String> {
    let mut lines = lines(text).peekable();
    let (mut season, mut next) = (Season::First, 1);
    if let Some(line) = lines.next_if(is_season) {
        next = line.number + 1;
        season = read_season(line)?;
    }
    let head = read_head(season, next, &mut lines)?;
    let items = std::iter::from_fn(|| lines.next_if(is_item));
    let (mut written, bounds) = read_table(head, items)?;
    written.read_steps(bounds, lines)?;
    Ok(written)
}

/// The header, and in a season that has them the weights, from the next line on.
fn read_head<'a>(
    season: Season,
    next: usize,
    lines: &mut impl Iterator<Item = Line<'a>>,
) -> Result<Head, String> {
    let first = required(lines.next(), next, HEADER_FORM)?;
    let (source, next) = (first.source(), first.number + 1);
    let header = read_header(first, season)?;
    if !season.has_weights() {
        return Ok(Head { season, header, weights: Vec::new(), sources: (source, None) });
    }
    let line = required(lines.next(), next, WEIGHTS_FORM)?;
    let sources = (source, Some(line.source()));
    Ok(Head { season, header, weights: read_weights(line, header[0])?, sources })
}

/// A line that must be there.
fn required<'a>(line: Option<Line<'a>>, next: usize, form: &str) -> Result<Line<'a>, String> {
    line.ok_or_else(|| format!("line {next}: expected '{form}', found no line"))
}

fn read_table<'a>(
    head: Head,
    items: impl Iterator<Item = Line<'a>>,
) -> Result<(Written, Bounds), String> {
    let Head { season, header: fields, weights, sources: (header, weighed) } = head;
    let (mut sources, mut texts, mut strange) = (Vec::new(), Vec::new(), Vec::new());
    for (k, line) in items.enumerate() {
        let (source, is_audit) = (line.source(), line.name() == "audit");
        let item = read_item(line)?;
        if is_audit {
            strange.extend(located(&source, no_item(k, &item.bytes, &[season])));
        }
        sources.push(source);
        texts.push(item);
    }
    let bytes = lay_out(season, fields, &weights, &texts)?;
    let bounds = Bounds::of_header(&fields, texts.len());
    let honest = located(&header, bounds.strange_honest(&fields));
    let warnings = honest.chain(strange).collect();
    let steps = Vec::new();
    Ok((Written { bytes, header, weights: weighed, items: sources, steps, warnings }, bounds))
}

impl Written {
    fn read_steps<'a>(
        &mut self,
        bounds: Bounds,
        lines: impl Iterator<Item = Line<'a>>,
    ) -> Result<(), String> {
        let mut short = None;
        for line in lines {
            if let Some(number) = short {
                let what = format!("nothing after the short raw of line {number}");
                return Err(line.expected(&what));
            }
            if is_item(&line) {
                return Err(line.expected("a step or 'raw' (items stand before the first step)"));
            }
            if is_season(&line) {
                return Err(line.expected("an item, a step or 'raw' (the season stands first)"));
            }
            if is_weights(&line) {
                let place = "weights stand behind 'peers', in season 3 alone";
                return Err(line.expected(&format!("an item, a step or 'raw' ({place})")));
            }
            let (source, is_raw) = (line.source(), line.name() == "raw");
            let step = read_step(line)?;
            if step.len() < STEP_LENGTH {
                short = Some(source.line);
            }
            if !is_raw {
                self.warnings.extend(located(&source, bounds.strangers(&step)));
            }
            self.bytes.extend(step);
            self.steps.push(source);
        }
        Ok(())
    }
}

/// The messages with the line that they are of.
fn located(
    source: &Source,
    messages: impl IntoIterator<Item = String>,
) -> impl Iterator<Item = String> {
    let line = source.line;
    messages.into_iter().map(move |message| format!("line {line}: {message}"))
}
