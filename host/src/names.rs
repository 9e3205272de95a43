//! The language of the program `names`, over any maker of the calls: it holds the model and the library against the scripts of crates/scripts/data.

use crate::answers::*;
use std::fmt::Write;

const CAPACITY: usize = 256;
const LONGEST_LINE: usize = 63;

/// A line that is written right.
enum Line {
    Put(u64, u64),
    Delete(u64),
    Get(u64),
    List,
    Cut(u64),
}

struct Script<'a, C: Calls> {
    calls: &'a C,
    pool: Vec<u64>,
    map: Vec<u8>,
    /// The stores that a cut lets the next P or D make.
    cut: Option<u64>,
    out: String,
}

/// What the program prints for an input.
pub fn run(calls: &impl Calls, input: &[u8]) -> String {
    let mut script = Script {
        calls,
        pool: vec![0; pool_words(CAPACITY)],
        map: vec![0; map_bytes(CAPACITY)],
        cut: None,
        out: String::new(),
    };
    let number = calls.format(&mut script.pool, &mut script.map, CAPACITY as u64);
    assert_eq!(number, DONE);
    for (i, line) in lines(input).enumerate() {
        script.line(i + 1, line);
    }
    script.out
}

/// Lines end in LF alone; the last may lack it.
fn lines(input: &[u8]) -> impl Iterator<Item = &[u8]> {
    let ended = input.strip_suffix(b"\n").unwrap_or(input);
    let none = input.is_empty();
    ended.split(|byte| *byte == b'\n').take(if none { 0 } else { usize::MAX })
}

impl<C: Calls> Script<'_, C> {
    fn line(&mut self, number: usize, line: &[u8]) {
        match (parse(line), self.cut.take()) {
            (Some(Line::Put(key, value)), Some(stores)) => {
                let planned = self.calls.plan_put(&self.pool, &self.map, key, value, EADR);
                self.cut_after(&planned, stores);
            }
            (Some(Line::Delete(key)), Some(stores)) => {
                let planned = self.calls.plan_delete(&self.pool, key, EADR);
                self.cut_after(&planned, stores);
            }
            (Some(line), None) => self.carry_out(line),
            _ => self.print(format_args!("?\t{number}")),
        }
    }

    fn carry_out(&mut self, line: Line) {
        match line {
            Line::Put(key, value) => {
                let made = self.calls.put(&mut self.pool, &mut self.map, key, value);
                self.print(format_args!("P\t{}\t{}", made.number, made.stores));
            }
            Line::Delete(key) => {
                let made = self.calls.delete(&mut self.pool, &mut self.map, key);
                self.print(format_args!("D\t{}\t{}", made.number, made.stores));
            }
            Line::Get(key) => {
                let found = self.calls.lookup(&self.pool, key);
                self.print(format_args!("G\t{}\t{}\t{}", found.number, found.value, found.nodes));
            }
            Line::List => self.list(),
            Line::Cut(stores) => self.cut = Some(stores),
        }
    }

    fn list(&mut self) {
        let (mut keys, mut values) = ([0; CAPACITY], [0; CAPACITY]);
        let listed = self.calls.list(&self.pool, 0, &mut keys, &mut values);
        assert_eq!(listed.number, DONE);
        for (key, value) in keys.iter().zip(&values).take(listed.count as usize) {
            self.print(format_args!("L\t{key:016x}\t{value}"));
        }
        self.print(format_args!("E\t{}", listed.count));
    }

    /// Makes the first stores of a plan at most, drops the map and opens.
    fn cut_after(&mut self, planned: &Planned, most: u64) {
        let stores = most.min(planned.plan[PLAN_COUNT]);
        for at in 0..stores {
            assert_eq!(self.calls.step(&mut self.pool, &planned.plan, at), DONE);
        }
        self.map.fill(1);
        let opened = self.calls.open(&mut self.pool, &mut self.map);
        assert_eq!(opened.number, DONE);
        self.print(format_args!("C\t{}\t{stores}\t{}\t{}", planned.number, opened.keys, opened.headers));
    }

    fn print(&mut self, line: std::fmt::Arguments) {
        writeln!(self.out, "{line}").expect("a string takes every line");
    }
}

fn parse(line: &[u8]) -> Option<Line> {
    if line.len() > LONGEST_LINE {
        return None;
    }
    let fields: Vec<&[u8]> = line.split(|byte| *byte == b'\t').collect();
    match fields[..] {
        [b"P", k, v] => Some(Line::Put(key(k)?, decimal(v)?)),
        [b"D", k] => Some(Line::Delete(key(k)?)),
        [b"G", k] => Some(Line::Get(key(k)?)),
        [b"L"] => Some(Line::List),
        [b"C", stores] => decimal(stores).filter(|stores| *stores <= MOST_STORES as u64).map(Line::Cut),
        _ => None,
    }
}

/// "Keys are 16 lower-case hex digits."
fn key(field: &[u8]) -> Option<u64> {
    let lower_hex = |byte: &u8| matches!(byte, b'0'..=b'9' | b'a'..=b'f');
    if field.len() != 16 || !field.iter().all(lower_hex) {
        return None;
    }
    u64::from_str_radix(std::str::from_utf8(field).ok()?, 16).ok()
}

/// "Numbers decimal, no leading zeros."
fn decimal(field: &[u8]) -> Option<u64> {
    let leading_zero = field.len() > 1 && field[0] == b'0';
    if leading_zero || !field.iter().all(u8::is_ascii_digit) {
        return None;
    }
    std::str::from_utf8(field).ok()?.parse().ok()
}
