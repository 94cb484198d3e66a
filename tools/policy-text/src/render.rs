//! Diagnostics as they are printed: with the line, and the place under it.

use std::fmt::Write;

use crate::diagnostic::{Diagnostic, Level};
use crate::span::{beginning, line_number, Span};

/// The most columns of a line that are shown.
const COLUMNS: usize = 120;
/// Bytes that are more than these columns, whatever the characters.
const ENOUGH: usize = 5 * COLUMNS;
/// How many of them stand before the place, where a line is cut.
const BEFORE: usize = 40;
/// What stands for a tab, so that what is under it stands right.
const TAB: &str = "    ";
/// What stands for the part of a line that is not shown.
const CUT: &str = "...";

/// A diagnostic in the form of compilers: message, place, line, label and notes. It ends in a newline.
pub fn render(diagnostic: &Diagnostic, file: &str, text: &[u8]) -> String {
    let level = match diagnostic.level {
        Level::Error => "error",
        Level::Advice => "advice",
    };
    let mut out = format!("{level}: {}\n", shown(diagnostic.message.as_bytes()));
    let file = shown(file.as_bytes());
    let gutter = match diagnostic.span {
        Some(span) => place(&mut out, &file, text, span, &diagnostic.label),
        None => {
            out.push_str(&format!(" --> {file}\n"));
            1
        }
    };
    for note in &diagnostic.notes {
        out.push_str(&format!("{:gutter$} = {note}\n", ""));
    }
    out
}

/// Writes the line with the place, and gives the width of its number.
fn place(out: &mut String, file: &str, text: &[u8], span: Span, label: &str) -> usize {
    let start = span.start.min(text.len());
    let first = line_start(text, start);
    let end = start + line_length(&text[start..]);
    let last = span.end.clamp(start, end);
    let number = line_number(text, start);
    let column = 1 + chars(&text[first..start]);
    let width = number.to_string().len();
    let line = Line::cut(&text[first..start], &text[start..last], &text[last..end]);
    let (before, carets) = (line.before, "^".repeat(line.carets));
    let under = format!("{:before$}{carets} {label}", "");
    // A String takes whatever is written.
    let _ = write!(
        out,
        "{0:width$}--> {file}:{number}:{column}\n{0:width$} |\n{number} | {1}\n{0:width$} | {2}\n",
        "",
        line.text.trim_end(),
        under.trim_end(),
    );
    width
}

fn line_start(text: &[u8], place: usize) -> usize {
    let newline = text[..place].iter().rposition(|byte| *byte == b'\n');
    newline.map_or(beginning(text).min(place), |newline| newline + 1)
}

/// How far it is to the end of the line.
fn line_length(rest: &[u8]) -> usize {
    let newline = rest.iter().position(|byte| *byte == b'\n');
    let length = newline.unwrap_or(rest.len());
    match rest[..length].last() {
        Some(b'\r') if newline.is_some() => length - 1,
        _ => length,
    }
}

fn chars(bytes: &[u8]) -> usize {
    String::from_utf8_lossy(bytes).chars().count()
}

/// Bytes as they can be printed: tabs are spaces, and what is no character or controls the terminal is replaced.
fn shown(bytes: &[u8]) -> String {
    let lossy = String::from_utf8_lossy(bytes);
    let mut shown = String::with_capacity(lossy.len());
    for sign in lossy.chars() {
        match sign {
            '\t' => shown.push_str(TAB),
            // They have no width, or move what stands beside them.
            '\u{200b}'..='\u{200f}'
            | '\u{2028}'..='\u{202e}'
            | '\u{2060}'..='\u{2069}'
            | '\u{feff}' => shown.push(char::REPLACEMENT_CHARACTER),
            _ if sign.is_control() => shown.push(char::REPLACEMENT_CHARACTER),
            _ => shown.push(sign),
        }
    }
    shown
}

/// A line that is short enough, and where its place is.
struct Line {
    text: String,
    before: usize,
    carets: usize,
}

impl Line {
    fn cut(before: &[u8], place: &[u8], after: &[u8]) -> Line {
        let before = &before[before.len().saturating_sub(ENOUGH)..];
        let [place, after] = [place, after].map(|part| &part[..part.len().min(ENOUGH)]);
        let (before, place, after) = (shown(before), shown(place), shown(after));
        let total = [&before, &place, &after].map(|part| part.chars().count());
        let is_long = total.iter().sum::<usize>() > COLUMNS;
        let before = match total[0].checked_sub(BEFORE) {
            Some(over) if is_long && over > CUT.len() => {
                let kept: String = before.chars().skip(over).collect();
                format!("{CUT}{kept}")
            }
            _ => before,
        };
        let width = before.chars().count();
        let mut text = before + &place + &after;
        if let Some((cut, _)) = text.char_indices().nth(COLUMNS) {
            text.truncate(cut);
            text.push_str(CUT);
        }
        Line {
            text,
            before: width,
            carets: total[1].clamp(1, COLUMNS.saturating_sub(width).max(1)),
        }
    }
}
