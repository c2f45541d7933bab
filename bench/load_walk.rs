//! The load of bench/runs.py as a plain program, unproved and on one thread: transactions that write, read and commit
//! over three sites, by rounds of two sites, with whole views in the messages and one history of all steps. It has
//! no links, no refusals and no votes against, so it does less than the run that it's compared with.
//!
//! usage: load_walk COUNT SEED

use std::collections::{BTreeMap, VecDeque};

const SITES: usize = 3;
const ROUND: usize = 2;

#[derive(Clone, Copy, PartialEq, Eq, PartialOrd, Ord)]
struct Stamp {
    clock: u64,
    client: u8,
}

#[derive(Clone, Copy, PartialEq, Eq, PartialOrd, Ord)]
struct TxId {
    client: u8,
    life: u32,
    number: u32,
}

#[derive(Clone, Copy, PartialEq, Eq, PartialOrd, Ord)]
struct Line {
    stamp: Stamp,
    tx: TxId,
    op: u8,
    object: u8,
    event: u8,
}

#[derive(Clone, Copy)]
struct OwnLine {
    op: u8,
    event: u8,
}

#[derive(Clone)]
enum Message {
    Read { tx: TxId, inv: u8 },
    Append { tx: TxId, view: Vec<Line>, own: Vec<OwnLine> },
    Prepare { tx: TxId },
    Granted { clock: u64, log: Vec<Line> },
    Yes { clock: u64 },
    Decision { tx: TxId, stamp: Stamp },
}

/// A step, kept with all that it says, as a history keeps it.
#[allow(dead_code)]
enum Step {
    Called(u8),
    Got(u32),
    Sent(u32, u8, Message),
    Wrote(Vec<u8>),
    Told(u8),
}

struct Envelope {
    number: u32,
    from: u8,
    to: u8,
    message: Message,
}

#[derive(Default)]
struct Held {
    locks: Vec<u8>,
    own: Vec<OwnLine>,
}

#[derive(Default)]
struct Site {
    log: Vec<Line>,
    held: BTreeMap<TxId, Held>,
    prepared: BTreeMap<TxId, ()>,
    clock: u64,
}

#[derive(Default)]
struct Client {
    clock: u64,
    count: u32,
    view: Vec<Line>,
}

#[derive(Default)]
struct World {
    sites: Vec<Site>,
    clients: Vec<Client>,
    history: Vec<(u8, Step)>,
    waiting: VecDeque<Envelope>,
    sent: u32,
    carried: u64,
}

/// The sorted union of two logs.
fn merge(log: &mut Vec<Line>, more: &[Line]) {
    if more.is_empty() {
        return;
    }
    let mut both = Vec::with_capacity(log.len() + more.len());
    let (mut i, mut j) = (0, 0);
    while i < log.len() && j < more.len() {
        let (a, b) = (log[i], more[j]);
        both.push(a.min(b));
        i += usize::from(a <= b);
        j += usize::from(b <= a);
    }
    both.extend_from_slice(&log[i..]);
    both.extend_from_slice(&more[j..]);
    *log = both;
}

impl Site {
    /// What the site answers, and the record that it writes.
    fn handle(&mut self, message: &Message) -> (Option<Message>, Option<Vec<u8>>) {
        let granted = |clock, log| Some(Message::Granted { clock, log });
        match message {
            Message::Read { tx, inv } => {
                self.held.entry(*tx).or_default().locks.push(*inv);
                (granted(self.clock, self.log.clone()), None)
            }
            Message::Append { tx, view, own } => {
                merge(&mut self.log, view);
                self.held.entry(*tx).or_default().own = own.clone();
                (granted(self.clock, Vec::new()), None)
            }
            Message::Prepare { tx } => {
                self.prepared.insert(*tx, ());
                (Some(Message::Yes { clock: self.clock }), Some(vec![2; 30]))
            }
            Message::Decision { tx, stamp } => {
                self.prepared.remove(tx);
                let own = self.held.remove(tx).unwrap_or_default().own;
                let line = |l: &OwnLine| Line { stamp: *stamp, tx: *tx, op: l.op, object: 0, event: l.event };
                merge(&mut self.log, &own.iter().map(line).collect::<Vec<_>>());
                self.clock = self.clock.max(stamp.clock);
                (None, Some(vec![3; 18]))
            }
            Message::Granted { .. } | Message::Yes { .. } => (None, None),
        }
    }
}

impl Client {
    fn hear(&mut self, message: &Message) {
        match message {
            Message::Granted { clock, log } => {
                self.clock = self.clock.max(*clock);
                merge(&mut self.view, log);
            }
            Message::Yes { clock } => self.clock = self.clock.max(*clock),
            _ => {}
        }
    }
}

impl World {
    fn note(&mut self, actor: u8, step: Step) {
        self.history.push((actor, step));
    }

    fn send(&mut self, from: u8, to: u8, message: Message) {
        let number = self.sent;
        self.sent += 1;
        self.carried += match &message {
            Message::Append { view, .. } => view.len() as u64,
            Message::Granted { log, .. } => log.len() as u64,
            _ => 0,
        };
        self.note(from, Step::Sent(number, to, message.clone()));
        self.waiting.push_back(Envelope { number, from, to, message });
    }

    /// Serves until no message waits.
    fn serve(&mut self) {
        while let Some(Envelope { number, from, to, message }) = self.waiting.pop_front() {
            self.note(to, Step::Got(number));
            if usize::from(to) >= SITES {
                self.clients[usize::from(to) - SITES].hear(&message);
                continue;
            }
            let (answer, written) = self.sites[usize::from(to)].handle(&message);
            if let Some(written) = written {
                self.note(to, Step::Wrote(written));
            }
            if let Some(answer) = answer {
                self.send(to, from, answer);
            }
        }
    }

    /// One command: a round of this message, which is then served.
    fn round(&mut self, client: usize, message: &Message) {
        for place in 0..ROUND {
            self.send((SITES + client) as u8, ((client + place) % SITES) as u8, message.clone());
        }
        self.serve();
    }

    /// A transaction that writes, reads and commits; whether it read 1.
    fn transaction(&mut self, client: usize, value: u8) -> bool {
        let actor = (SITES + client) as u8;
        self.clients[client].count += 1;
        self.clients[client].view.clear();
        let tx = TxId { client: client as u8, life: 1, number: self.clients[client].count };
        self.note(actor, Step::Called(0));
        self.note(actor, Step::Told(0));
        let own = vec![OwnLine { op: 1, event: 2 + value }];
        self.note(actor, Step::Called(1));
        self.round(client, &Message::Append { tx, view: Vec::new(), own });
        self.note(actor, Step::Told(0));
        self.note(actor, Step::Called(1));
        self.round(client, &Message::Read { tx, inv: 0 });
        self.note(actor, Step::Told(value));
        self.note(actor, Step::Called(2));
        self.round(client, &Message::Prepare { tx });
        self.clients[client].clock += 1;
        let stamp = Stamp { clock: self.clients[client].clock, client: client as u8 };
        self.note(actor, Step::Wrote(vec![6; 25]));
        for place in 0..ROUND {
            self.send(actor, ((client + place) % SITES) as u8, Message::Decision { tx, stamp });
        }
        self.note(actor, Step::Told(2));
        self.serve();
        value == 1
    }
}

fn main() {
    let mut words = std::env::args().skip(1).map(|word| word.parse::<u64>().unwrap());
    let (count, mut state) = (words.next().unwrap(), words.next().unwrap());
    let mut world = World::default();
    world.sites.resize_with(SITES, Site::default);
    world.clients.resize_with(SITES, Client::default);
    let mut ones = 0;
    for number in 0..count {
        state = (75 * state + 74) % 65537;
        ones += u64::from(world.transaction(number as usize % SITES, (state % 2) as u8));
    }
    println!("{} {} {}", world.history.len(), ones, world.carried);
}
