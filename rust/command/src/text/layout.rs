//! Paragraphs and tables of at most 80 columns.

use crate::clean::{fitted, width};

pub const COLUMNS: usize = 80;

/// A paragraph, broken at spaces. What is too long for a line is broken anywhere.
pub fn paragraph(text: &str, indent: usize) -> String {
    let room = COLUMNS - indent;
    let mut lines = vec![String::new()];
    for word in text.split(' ').flat_map(|word| pieces(word, room)) {
        let line = lines.last_mut().expect("there is a line from the beginning on");
        if line.is_empty() {
            *line = word;
        } else if width(line) + 1 + width(&word) <= room {
            *line += " ";
            *line += &word;
        } else {
            lines.push(word);
        }
    }
    lines.iter().map(|line| format!("{:indent$}{line}\n", "")).collect()
}

/// A word in parts that fit.
fn pieces(word: &str, room: usize) -> Vec<String> {
    let mut pieces = vec![String::new()];
    for c in word.chars() {
        let piece = pieces.last_mut().expect("there is a piece from the beginning on");
        if width(piece) + crate::clean::columns_of(c) <= room {
            piece.push(c);
        } else {
            pieces.push(c.to_string());
        }
    }
    pieces
}

pub fn heading(text: &str) -> String {
    format!("\n{text}\n{}\n", "-".repeat(text.len()))
}

/// Columns of numbers, then a bar, then a name.
pub struct Table {
    pub head: Vec<&'static str>,
    pub rows: Vec<Row>,
    /// How long the longest bar is. 0: there are none.
    pub bars: usize,
}

pub struct Row {
    pub numbers: Vec<String>,
    /// A part of the longest.
    pub bar: (u128, u128),
    pub name: String,
}

impl Table {
    pub fn lines(&self) -> String {
        let wide = |column: usize| {
            let cells = self.rows.iter().map(|row| row.numbers[column].len());
            cells.chain([self.head[column].len()]).max().unwrap_or(0)
        };
        let widths: Vec<usize> = (0..self.head.len()).map(wide).collect();
        let head: Vec<String> = self.head.iter().map(|head| head.to_string()).collect();
        let head = aligned(&head, &widths) + "\n";
        self.rows.iter().fold(head, |lines, row| lines + &self.line(row, &widths))
    }

    fn line(&self, row: &Row, widths: &[usize]) -> String {
        let mut line = aligned(&row.numbers, widths);
        if self.bars > 0 {
            line += &format!("  {:<length$}", bar(row.bar, self.bars), length = self.bars);
        }
        if !row.name.is_empty() {
            let room = COLUMNS.saturating_sub(line.len() + 2);
            line += "  ";
            line += &fitted(&row.name, room);
        }
        format!("{}\n", line.trim_end())
    }
}

fn aligned(cells: &[String], widths: &[usize]) -> String {
    let cells = cells.iter().zip(widths).map(|(cell, &width)| format!("{cell:>width$}"));
    cells.collect::<Vec<_>>().join("  ")
}

/// At least one sign for what is not nothing.
fn bar((part, longest): (u128, u128), length: usize) -> String {
    if part == 0 {
        return String::new();
    }
    let signs = (part * length as u128 * 2 + longest) / (longest * 2);
    "#".repeat(signs.max(1) as usize)
}
