//! Bench code: the new log, made in memory from the groups, or written while it is made.

use std::fs::File;
use std::io::Write;

use crate::columns::{image_length, Storage};
use crate::index::{Index, Rows, RowsBody};
use crate::{Event, DELETE, DELETE_V1, HEADER, WRITE, WRITE_V1};

/// How many bytes are written at once.
const CHUNK: usize = 1 << 18;

/// The log that undoes; the first bytes up to `first` are those of the old one. Of a log that is written to a file what
/// is still to be written.
pub fn write(log: &[u8], first: usize, index: &Index, file: Option<&File>) -> Vec<u8> {
    let room = if file.is_some() { CHUNK } else { log.len() };
    let mut out = Undo { log, index, text: Vec::with_capacity(room), file, from: 0 };
    out.text.extend_from_slice(&log[..first]);
    let mut statements_end = index.statements.len();
    for transaction in index.transactions.iter().rev() {
        out.copy(transaction.begin);
        for statement in (transaction.first_statement..statements_end).rev() {
            out.statement(statement);
        }
        out.copy(transaction.end);
        statements_end = transaction.first_statement;
    }
    out.text
}

struct Undo<'a> {
    log: &'a [u8],
    index: &'a Index<'a>,
    text: Vec<u8>,
    file: Option<&'a File>,
    /// Where the text begins in the log.
    from: usize,
}

impl<'a> Undo<'a> {
    fn event(&self, at: u32) -> Event<'a> {
        Event::read(self.log, at as usize).expect("an event that the index kept")
    }

    fn header(&mut self, old: &[u8], kind: u8, body: usize) {
        let size = HEADER + body;
        if let Some(mut file) = self.file.filter(|_| self.text.len() + size > CHUNK) {
            file.write_all(&self.text).expect("a file that takes what is written");
            self.from += self.text.len();
            self.text.clear();
        }
        let end = (self.from + self.text.len() + size) as u32;
        self.text.extend_from_slice(&old[..4]);
        self.text.push(kind);
        self.text.extend_from_slice(&old[5..9]);
        self.text.extend_from_slice(&(size as u32).to_le_bytes());
        self.text.extend_from_slice(&end.to_le_bytes());
        self.text.extend_from_slice(&old[17..]);
    }

    fn copy(&mut self, at: u32) {
        let event = self.event(at);
        self.header(event.header, event.kind(), event.body.len());
        self.text.extend_from_slice(event.body);
    }

    fn statement(&mut self, number: usize) {
        let index = self.index;
        let statement = index.statements[number];
        let (maps_end, rows_end) = match index.statements.get(number + 1) {
            Some(next) => (next.first_map, next.first_rows),
            None => (index.maps.len(), index.rows.len()),
        };
        for &map in &index.maps[statement.first_map..maps_end] {
            self.copy(map);
        }
        for (left, &rows) in index.rows[statement.first_rows..rows_end].iter().enumerate().rev() {
            self.rows(rows, left == 0);
        }
    }

    fn rows(&mut self, rows: Rows, is_last: bool) {
        let event = self.event(rows.at);
        let columns = &self.index.tables[rows.table as usize].storages;
        let body = RowsBody::read(&event, columns.len()).expect("a rows event that was judged");
        let kind = match event.kind() {
            WRITE_V1 => DELETE_V1,
            DELETE_V1 => WRITE_V1,
            WRITE => DELETE,
            DELETE => WRITE,
            other => other,
        };
        let extra: &[u8] = if event.is_version_1() { &[] } else { &[2, 0] };
        let size = 8 + extra.len() + body.count.len() + body.bitmaps.len() + body.images.len();
        self.header(event.header, kind, size);
        self.text.extend_from_slice(&body.head[..6]);
        self.text.extend_from_slice(&[body.head[6] & !1 | u8::from(is_last), body.head[7]]);
        self.text.extend_from_slice(extra);
        self.text.extend_from_slice(body.count);
        let (before, after) = body.bitmaps.split_at(if event.is_update() { body.bitmaps.len() / 2 } else { 0 });
        self.text.extend_from_slice(after);
        self.text.extend_from_slice(before);
        self.images(body.images, columns);
    }

    /// Images in reverse order. For updates too: each row's two are then exchanged.
    fn images(&mut self, images: &[u8], columns: &[Storage]) {
        let start = self.text.len();
        self.text.resize(start + images.len(), 0);
        let mut free = &mut self.text[start..];
        let mut rest = images;
        while !rest.is_empty() {
            let length = image_length(columns, rest).expect("images that were judged");
            let (image, others) = rest.split_at(length);
            let (front, back) = free.split_at_mut(free.len() - length);
            back.copy_from_slice(image);
            (free, rest) = (front, others);
        }
    }
}
