//! The appends of bench/journal.py as a plain program, unproved: the same calls on a disk that is two lists of bytes,
//! what a read gives and what a stop would leave. It keeps no record of its calls, and no call can fail.
//!
//! usage: journal_walk RECORDS OPENINGS

const BODY: [u8; 100] = [7; 100];
const LONGEST: u32 = 65_536;

#[derive(Default)]
struct Disk {
    bytes: Vec<u8>,
    left: Vec<u8>,
    /// How many bytes from the first on are the same in both.
    same: usize,
}

impl Disk {
    fn reserve(&mut self, end: usize) {
        self.bytes.reserve(end.saturating_sub(self.bytes.len()));
        self.left.reserve(end.saturating_sub(self.left.len()));
    }

    fn write_at(&mut self, at: usize, bytes: &[u8]) {
        let end = at + bytes.len();
        if self.bytes.len() < end {
            self.bytes.resize(end, 0);
        }
        self.bytes[at..end].copy_from_slice(bytes);
        self.same = self.same.min(at);
    }

    fn sync(&mut self) {
        self.left.truncate(self.same);
        self.left.extend_from_slice(&self.bytes[self.same..]);
        self.same = self.bytes.len();
    }

    fn fall(&mut self) {
        self.bytes.truncate(self.same);
        self.bytes.extend_from_slice(&self.left[self.same..]);
        self.same = self.bytes.len();
    }

    fn read(&self, at: usize, count: usize) -> Vec<u8> {
        let at = at.min(self.bytes.len());
        let end = (at + count).min(self.bytes.len());
        self.bytes[at..end].to_vec()
    }
}

#[derive(Default)]
struct Journal {
    disk: Disk,
    end: usize,
    frame: Vec<u8>,
}

impl Journal {
    /// The journal of a disk, and its bodies; none if it's torn.
    fn open(mut disk: Disk) -> Option<(Journal, Vec<Vec<u8>>)> {
        let mut bodies = Vec::new();
        let mut end = 0;
        let len = disk.bytes.len();
        if len <= 1 {
            disk.write_at(0, &[0]);
        }
        disk.sync();
        while len > 1 {
            match disk.read(end, 5)[..] {
                [0, ..] => break,
                [_, a, b, c, d] => {
                    let count = u32::from_be_bytes([a, b, c, d]);
                    if !(1..=LONGEST).contains(&count) || len - end < count as usize + 6 {
                        return None;
                    }
                    bodies.push(disk.read(end + 5, count as usize));
                    end += count as usize + 5;
                }
                _ => return None,
            }
        }
        Some((Journal { disk, end, frame: Vec::new() }, bodies))
    }

    fn append(&mut self, body: &[u8]) {
        self.frame.clear();
        self.frame.reserve(body.len() + 5);
        self.disk.reserve(self.end + body.len() + 6);
        self.frame.extend_from_slice(&(body.len() as u32).to_be_bytes());
        self.frame.extend_from_slice(body);
        self.frame.push(0);
        self.disk.write_at(self.end + 1, &self.frame);
        self.disk.sync();
        self.disk.write_at(self.end, &[1]);
        self.disk.sync();
        self.end += 5 + body.len();
    }
}

fn write_and_read(records: usize, openings: usize) -> Option<usize> {
    let (mut journal, _) = Journal::open(Disk::default())?;
    for _ in 0..records {
        journal.append(&BODY);
    }
    let mut read = 0;
    for _ in 0..openings {
        journal.disk.fall();
        let (again, bodies) = Journal::open(journal.disk)?;
        journal = again;
        read += bodies.len();
    }
    Some(read)
}

fn main() {
    let words: Vec<usize> = std::env::args().skip(1).map(|word| word.parse().unwrap()).collect();
    println!("{}", write_and_read(words[0], words[1]).unwrap());
}
