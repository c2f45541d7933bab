//! Reads and writes records as a plain program does: the same fields, ranges and
//! orders, no proofs. Words: a file, a count, and a third one to write too.

#[derive(Clone, Copy, PartialEq, Eq, PartialOrd, Ord)]
struct Tx {
    client: u8,
    life: u32,
    number: u32,
}

#[derive(Clone, Copy, PartialEq, Eq, PartialOrd, Ord)]
struct Line {
    clock: u64,
    tx: Tx,
    op: u8,
    object: u8,
    event: u8,
}

struct Op {
    object: u8,
    inv: u8,
    resp: Option<u8>,
}

enum Record {
    Life,
    Prepare { tx: Tx, epoch: u8, locks: Vec<(u8, u8)>, own: Vec<(u8, u8, u8)>, lines: Vec<Line> },
    Done { tx: Tx, clock: u64 },
    Close { epoch: u8 },
    Install { epoch: u8, clock: u64, lines: Vec<Line> },
    Commit { tx: Tx, clock: u64, ops: Vec<Op> },
    Decide { epoch: u8, clock: u64, lines: Vec<Line> },
}

struct Reader<'a> {
    bytes: &'a [u8],
    at: usize,
}

impl Reader<'_> {
    fn number(&mut self, width: usize, low: u64, high: u64) -> Result<u64, usize> {
        let Some(field) = self.bytes.get(self.at..self.at + width) else {
            return Err(self.bytes.len());
        };
        let number = field.iter().fold(0, |n, b| n << 8 | u64::from(*b));
        if number < low || number > high {
            return Err(self.at);
        }
        self.at += width;
        Ok(number)
    }

    fn tx(&mut self) -> Result<Tx, usize> {
        let client = self.number(1, 0, 15)? as u8;
        let life = self.number(4, 1, u32::MAX.into())? as u32;
        let number = self.number(4, 1, u32::MAX.into())? as u32;
        Ok(Tx { client, life, number })
    }

    fn list<T>(&mut self, width: usize, most: u64, item: impl Fn(&mut Self, Option<&T>) -> Result<T, usize>) -> Result<Vec<T>, usize> {
        let count = self.number(width, 0, most)?;
        let mut items: Vec<T> = Vec::new();
        for _ in 0..count {
            let next = item(self, items.last())?;
            items.push(next);
        }
        Ok(items)
    }

    fn lines(&mut self) -> Result<Vec<Line>, usize> {
        self.list(4, u32::MAX.into(), |r, before: Option<&Line>| {
            let at = r.at;
            let clock = r.number(8, 1, 1 << 62)?;
            let tx = r.tx()?;
            let op = r.number(1, 1, 16)? as u8;
            let object = r.number(1, 0, 15)? as u8;
            let event = r.number(1, 0, 63)? as u8;
            let line = Line { clock, tx, op, object, event };
            if before.is_some_and(|b| *b >= line) { Err(at) } else { Ok(line) }
        })
    }

    fn record(&mut self) -> Result<Record, usize> {
        let kind = self.number(1, 1, 7)?;
        let rec = match kind {
            1 => Record::Life,
            2 => Record::Prepare {
                tx: self.tx()?,
                epoch: self.number(1, 1, 8)? as u8,
                locks: self.list(2, 65535, |r, before: Option<&(u8, u8)>| {
                    let at = r.at;
                    let lock = (r.number(1, 0, 15)? as u8, r.number(1, 0, 31)? as u8);
                    if before.is_some_and(|b| *b >= lock) { Err(at) } else { Ok(lock) }
                })?,
                own: self.list(1, 16, |r, before: Option<&(u8, u8, u8)>| {
                    let at = r.at;
                    let own = (r.number(1, 1, 16)? as u8, r.number(1, 0, 15)? as u8, r.number(1, 0, 63)? as u8);
                    if before.is_some_and(|b| b.0 >= own.0) { Err(at) } else { Ok(own) }
                })?,
                lines: self.lines()?,
            },
            3 => Record::Done { tx: self.tx()?, clock: self.number(8, 1, 1 << 62)? },
            4 => Record::Close { epoch: self.number(1, 1, 8)? as u8 },
            5 => Record::Install { epoch: self.number(1, 1, 8)? as u8, clock: self.number(8, 0, 1 << 62)?, lines: self.lines()? },
            6 => Record::Commit {
                tx: self.tx()?,
                clock: self.number(8, 1, 1 << 62)?,
                ops: self.list(1, 16, |r, _| {
                    let (object, inv) = (r.number(1, 0, 15)? as u8, r.number(1, 0, 31)? as u8);
                    let at = r.at;
                    let resp = match r.number(1, 0, 255)? {
                        255 => None,
                        n if n < 32 => Some(n as u8),
                        _ => return Err(at),
                    };
                    Ok(Op { object, inv, resp })
                })?,
            },
            _ => Record::Decide { epoch: self.number(1, 1, 8)? as u8, clock: self.number(8, 0, 1 << 62)?, lines: self.lines()? },
        };
        if self.at < self.bytes.len() { Err(self.at) } else { Ok(rec) }
    }
}

fn put_tx(out: &mut Vec<u8>, tx: &Tx) {
    out.push(tx.client);
    out.extend_from_slice(&tx.life.to_be_bytes());
    out.extend_from_slice(&tx.number.to_be_bytes());
}

fn put_lines(out: &mut Vec<u8>, lines: &[Line]) {
    out.extend_from_slice(&(lines.len() as u32).to_be_bytes());
    for l in lines {
        out.extend_from_slice(&l.clock.to_be_bytes());
        put_tx(out, &l.tx);
        out.extend_from_slice(&[l.op, l.object, l.event]);
    }
}

fn put_start(out: &mut Vec<u8>, kind: u8, epoch: u8, clock: u64, lines: &[Line]) {
    out.extend_from_slice(&[kind, epoch]);
    out.extend_from_slice(&clock.to_be_bytes());
    put_lines(out, lines);
}

fn write(rec: &Record) -> Vec<u8> {
    let mut out = Vec::new();
    match rec {
        Record::Life => out.push(1),
        Record::Prepare { tx, epoch, locks, own, lines } => {
            out.push(2);
            put_tx(&mut out, tx);
            out.push(*epoch);
            out.extend_from_slice(&(locks.len() as u16).to_be_bytes());
            locks.iter().for_each(|l| out.extend_from_slice(&[l.0, l.1]));
            out.push(own.len() as u8);
            own.iter().for_each(|o| out.extend_from_slice(&[o.0, o.1, o.2]));
            put_lines(&mut out, lines);
        }
        Record::Done { tx, clock } => {
            out.push(3);
            put_tx(&mut out, tx);
            out.extend_from_slice(&clock.to_be_bytes());
        }
        Record::Close { epoch } => out.extend_from_slice(&[4, *epoch]),
        Record::Install { epoch, clock, lines } => put_start(&mut out, 5, *epoch, *clock, lines),
        Record::Commit { tx, clock, ops } => {
            out.push(6);
            put_tx(&mut out, tx);
            out.extend_from_slice(&clock.to_be_bytes());
            out.push(ops.len() as u8);
            ops.iter().for_each(|o| out.extend_from_slice(&[o.object, o.inv, o.resp.unwrap_or(255)]));
        }
        Record::Decide { epoch, clock, lines } => put_start(&mut out, 7, *epoch, *clock, lines),
    }
    out
}

fn main() {
    let words: Vec<String> = std::env::args().skip(1).collect();
    let bytes = std::fs::read(&words[0]).unwrap();
    let count: u32 = words[1].parse().unwrap();
    let mut written = 0;
    for _ in 0..count {
        let rec = std::hint::black_box(Reader { bytes: &bytes, at: 0 }.record().ok().unwrap());
        if words.len() > 2 {
            written += std::hint::black_box(write(&rec)).len();
        }
    }
    println!("{written}");
}
