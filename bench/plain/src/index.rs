//! Bench code: the walk from front to back that judges each event and keeps the groups.

use crate::columns::{are_set, image_length, Columns, Map, Storage};
use crate::{
    number_at, packed_at, Event, Fault, DELETE, DELETE_V1, QUERY, TABLE_MAP, WRITE, WRITE_V1, XID,
};
use std::collections::HashMap;

/// The groups, as positions of events. Each list ends where that of the next begins.
#[derive(Default)]
pub struct Index<'a> {
    pub transactions: Vec<Transaction>,
    pub statements: Vec<Statement>,
    pub maps: Vec<u32>,
    pub rows: Vec<Rows>,
    pub tables: Vec<Table<'a>>,
}

#[derive(Clone, Copy)]
pub struct Transaction {
    pub begin: u32,
    pub end: u32,
    pub first_statement: usize,
}

#[derive(Clone, Copy)]
pub struct Statement {
    pub first_map: usize,
    pub first_rows: usize,
}

#[derive(Clone, Copy)]
pub struct Rows {
    pub at: u32,
    pub table: u32,
}

pub struct Table<'a> {
    columns: Columns<'a>,
    pub storages: Vec<Storage>,
}

/// A rows event's body.
pub struct RowsBody<'a> {
    /// Table id and flags.
    pub head: &'a [u8],
    pub count: &'a [u8],
    /// One bitmap, or two of the same length for an update.
    pub bitmaps: &'a [u8],
    pub images: &'a [u8],
}

impl<'a> RowsBody<'a> {
    pub fn read(event: &Event<'a>, columns: usize) -> Option<RowsBody<'a>> {
        let body = event.body;
        let extra = if event.is_version_1() { 0 } else { number_at(body, 8, 2).filter(|&extra| extra >= 2)? };
        let (count, at) = packed_at(body, 8 + extra)?;
        let images = at + columns.div_ceil(8) * if event.is_update() { 2 } else { 1 };
        let bitmaps = body.get(at..images).filter(|_| count == columns)?;
        Some(RowsBody { head: &body[..8], count: &body[8 + extra..at], bitmaps, images: &body[images..] })
    }
}

#[derive(PartialEq)]
enum Place {
    Outside,
    Announced,
    Inside,
}

/// A map of the statement that is read.
struct Mapped<'a> {
    at: u32,
    body: &'a [u8],
    table: u32,
    used: bool,
}

struct Walk<'a> {
    index: Index<'a>,
    place: Place,
    begin: u32,
    first_statement: usize,
    first_rows: usize,
    in_statement: bool,
    maps: Vec<Mapped<'a>>,
    by_id: HashMap<u64, u32>,
    by_name: HashMap<(&'a [u8], &'a [u8]), u32>,
}

/// The groups of the events from a position on, or the first fault.
pub fn index(log: &[u8], from: usize) -> Result<Index<'_>, Fault> {
    let mut walk = Walk {
        index: Index::default(),
        place: Place::Outside,
        begin: 0,
        first_statement: 0,
        first_rows: 0,
        in_statement: false,
        maps: Vec::new(),
        by_id: HashMap::new(),
        by_name: HashMap::new(),
    };
    let mut at = from;
    while at < log.len() {
        let event = Event::read(log, at)?;
        walk.step(event).map_err(|name| Fault(name, at))?;
        at = event.end();
    }
    if walk.place != Place::Outside {
        return Err(Fault("Unended", at));
    }
    Ok(walk.index)
}

impl<'a> Walk<'a> {
    fn step(&mut self, event: Event<'a>) -> Result<(), &'static str> {
        match event.kind() {
            QUERY => self.query(event),
            XID if event.body.len() != 8 => Err("BadBody"),
            XID => self.end(event),
            33 | 34 => self.outside().map(|()| self.place = Place::Announced),
            3 | 4 | 35 => self.outside(),
            29 => Ok(()),
            1 | 5..=14 | 17 | 18 => Err("Statement"),
            15 => Err("OutOfPlace"),
            TABLE_MAP => self.map(event),
            WRITE_V1..=DELETE_V1 | WRITE..=DELETE => self.rows(event),
            39 => Err("PartialImage"),
            0 | 27 | 28 | 36 | 41..=159 if event.is_ignorable() => Ok(()),
            _ => Err("UnknownEvent"),
        }
    }

    fn outside(&self) -> Result<(), &'static str> {
        if self.place == Place::Outside { Ok(()) } else { Err("OutOfPlace") }
    }

    fn inside(&self) -> Result<(), &'static str> {
        if self.place == Place::Inside { Ok(()) } else { Err("OutOfPlace") }
    }

    fn query(&mut self, event: Event<'a>) -> Result<(), &'static str> {
        let body = event.body;
        if body.len() < 13 {
            return Err("BadBody");
        }
        let zero = 13 + u16::from_le_bytes([body[11], body[12]]) as usize + body[8] as usize;
        if body.get(zero) != Some(&0) {
            return Err("BadBody");
        }
        match &body[zero + 1..] {
            b"BEGIN" if self.place == Place::Inside => Err("OutOfPlace"),
            b"BEGIN" => {
                self.place = Place::Inside;
                self.begin = event.at as u32;
                self.first_statement = self.index.statements.len();
                Ok(())
            }
            b"COMMIT" => self.end(event),
            b"ROLLBACK" => Err("RolledBack"),
            text if text.starts_with(b"ROLLBACK TO ") => Err("RolledBack"),
            text if text.starts_with(b"SAVEPOINT ") => self.inside(),
            _ => Err("Statement"),
        }
    }

    /// A COMMIT or an Xid.
    fn end(&mut self, event: Event<'a>) -> Result<(), &'static str> {
        self.inside()?;
        if self.in_statement {
            return Err("Unended");
        }
        self.forget_maps();
        self.place = Place::Outside;
        if self.first_statement < self.index.statements.len() {
            let (begin, end, first_statement) = (self.begin, event.at as u32, self.first_statement);
            self.index.transactions.push(Transaction { begin, end, first_statement });
        }
        Ok(())
    }

    fn map(&mut self, event: Event<'a>) -> Result<(), &'static str> {
        self.inside()?;
        let map = Map::read(event.body).ok_or("BadBody")?;
        let earlier = self.by_id.get(&map.id).map(|&earlier| self.maps[earlier as usize].body);
        if earlier.is_some_and(|body| body != event.body) {
            return Err("MapClash");
        }
        let columns = map.columns()?;
        let tables = &mut self.index.tables;
        let table = *self.by_name.entry((map.schema, map.table)).or_insert_with(|| {
            tables.push(Table { columns, storages: columns.storages() });
            tables.len() as u32 - 1
        });
        if tables[table as usize].columns != columns {
            return Err("MapClash");
        }
        if earlier.is_none() {
            self.by_id.insert(map.id, self.maps.len() as u32);
            self.maps.push(Mapped { at: event.at as u32, body: event.body, table, used: false });
        }
        Ok(())
    }

    fn rows(&mut self, event: Event<'a>) -> Result<(), &'static str> {
        self.inside()?;
        if event.body.len() < if event.is_version_1() { 8 } else { 10 } {
            return Err("BadBody");
        }
        let id = number_at(event.body, 0, 6).ok_or("BadBody")? as u64;
        let map = &mut self.maps[*self.by_id.get(&id).ok_or("NoMap")? as usize];
        judge_rows(&event, &self.index.tables[map.table as usize].storages)?;
        map.used = true;
        self.index.rows.push(Rows { at: event.at as u32, table: map.table });
        self.in_statement = event.body[6] & 1 == 0;
        if !self.in_statement {
            self.end_statement();
        }
        Ok(())
    }

    fn end_statement(&mut self) {
        let (first_map, first_rows) = (self.index.maps.len(), self.first_rows);
        self.index.statements.push(Statement { first_map, first_rows });
        self.first_rows = self.index.rows.len();
        self.index.maps.extend(self.maps.iter().filter(|map| map.used).map(|map| map.at));
        self.forget_maps();
    }

    fn forget_maps(&mut self) {
        self.maps.clear();
        // clearing takes as long as the table is large
        if self.by_id.capacity() > 1000 {
            self.by_id = HashMap::new();
        }
        self.by_id.clear();
    }
}

fn judge_rows(event: &Event, columns: &[Storage]) -> Result<(), &'static str> {
    let body = RowsBody::read(event, columns.len()).ok_or("BadBody")?;
    if !body.bitmaps.chunks(columns.len().div_ceil(8)).all(|bitmap| are_set(bitmap, columns.len())) {
        return Err("PartialImage");
    }
    let (mut rest, mut count) = (body.images, 0);
    while !rest.is_empty() {
        rest = &rest[image_length(columns, rest).ok_or("BadBody")?..];
        count += 1;
    }
    if event.is_update() && count % 2 == 1 { Err("BadBody") } else { Ok(()) }
}
