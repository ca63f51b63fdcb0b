// Scripted agents, written plainly with the standard library: the peer of `bench/run`.
//
// Reads an input of `bspl run NAME`: a protocol of messages alone, the line `%% agents`, and lines `keys`, `loss` and
// `repeat`. Each role has a hash map from key to what it knows, a history and an inbox. Prints the world's lines.
//
// The one argument is the number of threads of each role. With 0 all roles act on one thread. Else each role's desk is
// behind a mutex, and a channel is its mailbox; a thread has one pass more than there are messages over its share of the
// keys, and in each turn locks its role's desk, empties the mailbox into the inbox, takes one envelope and emits one
// message. What is left after the threads is delivered on one thread.
use std::collections::HashMap;
use std::io::{Read, Write};
use std::sync::Mutex;
use std::sync::mpsc::{Receiver, Sender, channel};

#[derive(Clone, PartialEq, Eq, Hash)]
enum Value {
    Number(u64),
    #[allow(dead_code)]
    Text(String),
}

#[derive(Clone, Copy, PartialEq)]
enum Adornment {
    In,
    Out,
    Nil,
}

struct Message {
    sender: usize,
    receiver: usize,
    name: String,
    carried: Vec<(Adornment, usize)>,
}

struct Protocol {
    roles: Vec<String>,
    params: Vec<String>,
    keys: Vec<usize>,
    messages: Vec<Message>,
}

struct Envelope {
    message: usize,
    key: Vec<Value>,
    values: Vec<Value>,
    stamp: u64,
    copies: u64,
}

#[allow(dead_code)]
struct Entry {
    sent: bool,
    message: usize,
    key: usize,
    stamp: u64,
}

struct Row {
    values: Vec<Option<Value>>,
    done: Vec<bool>,
}

struct Desk {
    row_of: HashMap<Vec<Value>, usize>,
    rows: Vec<Row>,
    history: Vec<Entry>,
    clock: u64,
    inbox: Vec<Envelope>,
    mailbox: Receiver<Envelope>,
}

struct Plan {
    keys: u64,
    loss: u64,
    repeat: u64,
}

fn index(names: &[String], name: &str) -> usize {
    names.iter().position(|n| n == name).expect("a declared name")
}

/// The words of each item of a list with commas.
fn items(list: &str) -> Vec<Vec<&str>> {
    list.split(',').map(|item| item.split_whitespace().collect()).collect()
}

/// The protocol of a text with one line for the roles, for the parameters, and for each message.
fn protocol_of(text: &str) -> Protocol {
    let mut p = Protocol { roles: vec![], params: vec![], keys: vec![], messages: vec![] };
    for line in text.lines().map(str::trim) {
        if let Some(roles) = line.strip_prefix("roles ") {
            p.roles = items(roles).iter().map(|words| words[0].to_string()).collect();
        } else if let Some(params) = line.strip_prefix("parameters ") {
            for words in items(params) {
                if words.last() == Some(&"key") {
                    p.keys.push(p.params.len());
                }
                p.params.push(words[1].to_string());
            }
        } else if let Some(params) = line.strip_prefix("private ") {
            p.params.extend(items(params).iter().map(|words| words[0].to_string()));
        } else if let Some((sender, rest)) = line.split_once(" -> ") {
            p.messages.push(message_of(&p, sender, rest));
        }
    }
    p
}

/// The message of a line, after its sender and the arrow.
fn message_of(p: &Protocol, sender: &str, rest: &str) -> Message {
    let (receiver, rest) = rest.split_once(": ").unwrap();
    let (name, rest) = rest.trim_end_matches(']').split_once('[').unwrap();
    let carried = items(rest).into_iter().map(|words| {
        let adornment = match words[0] {
            "in" => Adornment::In,
            "out" => Adornment::Out,
            _ => Adornment::Nil,
        };
        (adornment, index(&p.params, words[1]))
    });
    let (sender, receiver) = (index(&p.roles, sender), index(&p.roles, receiver));
    Message { sender, receiver, name: name.to_string(), carried: carried.collect() }
}

fn plan_of(text: &str) -> Plan {
    let mut plan = Plan { keys: 1, loss: 0, repeat: 0 };
    for line in text.lines() {
        let fields: Vec<&str> = line.split_whitespace().collect();
        match fields[..] {
            ["keys", n] => plan.keys = n.parse().unwrap(),
            ["loss", n] => plan.loss = n.parse().unwrap(),
            ["repeat", n] => plan.repeat = n.parse().unwrap(),
            _ => panic!("a line that this peer does not know"),
        }
    }
    plan
}

impl Desk {
    fn empty_mailbox(&mut self) {
        self.inbox.extend(self.mailbox.try_iter());
    }

    fn can_emit(&self, message: &Message, row: usize) -> bool {
        let values = &self.rows[row].values;
        message.carried.iter().all(|&(adornment, p)| match adornment {
            Adornment::In => values[p].is_some(),
            Adornment::Out | Adornment::Nil => values[p].is_none(),
        })
    }

    fn emit(&mut self, p: &Protocol, role: usize, n: u64, key: &[Value]) -> Option<Envelope> {
        let row = self.row_of[key];
        let messages = p.messages.iter().enumerate();
        let mut own = messages.filter(|(_, m)| m.sender == role);
        let (at, message) = own.find(|&(at, m)| !self.rows[row].done[at] && self.can_emit(m, row))?;
        let mut values = vec![];
        for &(adornment, param) in message.carried.iter().filter(|c| c.0 != Adornment::Nil) {
            let value = match (p.keys.iter().position(|&k| k == param), adornment) {
                (Some(place), _) => key[place].clone(),
                (None, Adornment::In) => self.rows[row].values[param].clone().unwrap(),
                (None, _) => Value::Number(100 * n + at as u64 + 1),
            };
            self.rows[row].values[param] = Some(value.clone());
            values.push(value);
        }
        self.rows[row].done[at] = true;
        self.clock += 1;
        self.history.push(Entry { sent: true, message: at, key: row, stamp: self.clock });
        Some(Envelope { message: at, key: key.to_vec(), values, stamp: self.clock, copies: 1 })
    }

    fn take(&mut self, p: &Protocol, random: &mut u64) -> bool {
        if self.inbox.is_empty() {
            return false;
        }
        *random = random.wrapping_mul(6364136223846793005).wrapping_add(1442695040888963407);
        let place = (*random >> 33) as usize % self.inbox.len();
        let envelope = &mut self.inbox[place];
        let row = self.row_of[&envelope.key];
        if !self.rows[row].done[envelope.message] {
            let valued = p.messages[envelope.message].carried.iter().filter(|c| c.0 != Adornment::Nil);
            for (&(_, param), value) in valued.zip(&envelope.values) {
                self.rows[row].values[param].get_or_insert_with(|| value.clone());
            }
            self.rows[row].done[envelope.message] = true;
            self.clock = self.clock.max(envelope.stamp) + 1;
            self.history.push(Entry { sent: false, message: envelope.message, key: row, stamp: self.clock });
        }
        envelope.copies -= 1;
        if envelope.copies == 0 {
            self.inbox.swap_remove(place);
        }
        true
    }
}

/// What all agents share and nobody changes.
struct Job {
    p: Protocol,
    plan: Plan,
    keys: Vec<Vec<Value>>,
}

impl Job {
    fn is_lost(&self, message: usize, n: u64) -> bool {
        (379 * (message as u64 + 1) + 617 * (n % 1000)) % 1000 < self.plan.loss
    }

    /// Takes one envelope and emits one message at the number: whether it took or emitted, and what is to be delivered.
    fn turn(&self, desk: &mut Desk, role: usize, n: u64, random: &mut u64) -> (bool, Option<Envelope>) {
        let took = desk.take(&self.p, random);
        let Some(mut envelope) = desk.emit(&self.p, role, n, &self.keys[n as usize - 1]) else {
            return (took, None);
        };
        if self.is_lost(envelope.message, n) {
            return (true, None);
        }
        envelope.copies += self.plan.repeat;
        (true, Some(envelope))
    }

    fn receiver(&self, envelope: &Envelope) -> usize {
        self.p.messages[envelope.message].receiver
    }

    /// All roles act in turn until nothing is left.
    fn settle(&self, desks: &mut [Desk]) {
        let (mut random, mut acted) = (1, true);
        while acted {
            acted = false;
            for role in 0..desks.len() {
                for n in 1..=self.plan.keys {
                    let (did, sent) = self.turn(&mut desks[role], role, n, &mut random);
                    acted |= did;
                    if let Some(envelope) = sent {
                        desks[self.receiver(&envelope)].inbox.push(envelope);
                    }
                }
            }
        }
    }

    /// One of a role's threads. It puts what it sends into a mailbox while it holds the lock of its role.
    fn work(&self, lock: &Mutex<Desk>, role: usize, thread: u64, threads: u64, to: &[Sender<Envelope>]) {
        let mut random = 8 * role as u64 + thread;
        for _ in 0..=self.p.messages.len() {
            for n in (1..=self.plan.keys).filter(|n| (n - 1) % threads == thread) {
                let mut desk = lock.lock().unwrap();
                desk.empty_mailbox();
                if let (_, Some(envelope)) = self.turn(&mut desk, role, n, &mut random) {
                    to[self.receiver(&envelope)].send(envelope).unwrap();
                }
            }
        }
    }

    /// Each role acts in so many threads.
    fn play(&self, desks: Vec<Desk>, threads: u64, to: &[Sender<Envelope>]) -> Vec<Desk> {
        let locks: Vec<Mutex<Desk>> = desks.into_iter().map(Mutex::new).collect();
        std::thread::scope(|scope| {
            for (role, lock) in locks.iter().enumerate() {
                for thread in 0..threads {
                    let to = to.to_vec();
                    scope.spawn(move || self.work(lock, role, thread, threads, &to));
                }
            }
        });
        let mut desks: Vec<Desk> = locks.into_iter().map(|lock| lock.into_inner().unwrap()).collect();
        desks.iter_mut().for_each(Desk::empty_mailbox);
        desks
    }

    fn text(&self, desks: &[Desk]) -> String {
        let mut out = format!("world {}\n", self.plan.keys);
        for (at, message) in self.p.messages.iter().enumerate() {
            let count = |sent| desks.iter().flat_map(|d| &d.history).filter(|e| e.message == at && e.sent == sent).count();
            out += &format!("message {} sent {} received {}\n", message.name, count(true), count(false));
        }
        for (n, key) in (1..).zip(&self.keys) {
            out += &format!("row {n}");
            for (param, name) in self.p.params.iter().enumerate() {
                let known = desks.iter().find_map(|d| d.rows[d.row_of[key]].values[param].as_ref());
                out += &match known {
                    Some(Value::Number(v)) => format!(" {name}={v}"),
                    Some(Value::Text(t)) => format!(" {name}=\"{t}\""),
                    None => format!(" {name}=-"),
                };
            }
            out += "\n";
        }
        out + "end\n"
    }
}

fn main() {
    let threads: u64 = std::env::args().nth(1).expect("a number of threads").parse().unwrap();
    let mut input = String::new();
    std::io::stdin().read_to_string(&mut input).unwrap();
    let (text, agents) = input.split_once("%% agents\n").expect("a part `agents`");
    let (p, plan) = (protocol_of(text), plan_of(agents));
    let keys: Vec<Vec<Value>> = (1..=plan.keys).map(|n| vec![Value::Number(n); p.keys.len()]).collect();
    let (to, mailboxes): (Vec<_>, Vec<_>) = p.roles.iter().map(|_| channel()).unzip();
    let mut desks: Vec<Desk> = mailboxes.into_iter().map(|mailbox| Desk {
        row_of: keys.iter().cloned().zip(0..).collect(),
        rows: keys.iter().map(|_| Row { values: vec![None; p.params.len()], done: vec![false; p.messages.len()] }).collect(),
        history: vec![],
        clock: 0,
        inbox: vec![],
        mailbox,
    }).collect();
    let job = Job { p, plan, keys };
    if threads > 0 {
        desks = job.play(desks, threads, &to);
    }
    job.settle(&mut desks);
    std::io::stdout().write_all(job.text(&desks).as_bytes()).unwrap();
}
