// What bench/tree/main.rust does, in plain Rust: a settle over a tree of masters. Each message is encoded to bytes, kept in the list of
// packets and decoded by its receiver, which makes the same tests, keeps the same tables (its records, its jobs, the outcomes of each job,
// the log of each minion below it, what is known of its neighbours) and answers the same. Ids are strings, looked up in hash tables.
use std::collections::HashMap;
use std::io::BufRead;

const FIRST_MOMENT: u64 = 1_700_000_000_000_000;

#[derive(Clone)]
enum Value {
    Null,
    Flag(bool),
    Int(i64),
    Str(String),
    List(Vec<Value>),
    Map(Vec<(String, Value)>),
}

#[derive(Clone)]
enum Target {
    IdGlob(String),
    Not(Box<Target>),
    And(Box<Target>, Box<Target>),
    Or(Box<Target>, Box<Target>),
}

#[derive(Clone)]
struct Job {
    jid: u64,
    kind: u8,
    tgt: String,
    target: Target,
    fun: String,
    args: Vec<Value>,
}

#[derive(Clone)]
struct Outcome {
    retcode: u8,
    value: Value,
}

#[derive(Clone)]
enum Entry {
    Start { boot: u32 },
    Return { seq: u32, outcome: Outcome },
}

enum Message {
    Pub { seq: u32, job: Job },
    Have { jobs: u32 },
    Up { minion: String, n: u32, entry: Entry },
    UpHave { minion: String, n: u32 },
}

#[allow(dead_code)]
enum Deed {
    Boot,
    Publish { job: Job },
    Intake { job: Job },
    Done { seq: u32, entries: Vec<Entry> },
    Up { minion: String, entry: Entry },
}

// Bytes of messages.

fn put_text(out: &mut Vec<u8>, text: &str) {
    out.extend_from_slice(&(text.len() as u32).to_be_bytes());
    out.extend_from_slice(text.as_bytes());
}

fn put_id(out: &mut Vec<u8>, id: &str) {
    out.push(id.len() as u8);
    out.extend_from_slice(id.as_bytes());
}

fn put_items(out: &mut Vec<u8>, items: &[Value]) {
    out.push(0x05);
    out.extend_from_slice(&(items.len() as u32).to_be_bytes());
    items.iter().for_each(|item| put_value(out, item));
}

fn put_value(out: &mut Vec<u8>, value: &Value) {
    match value {
        Value::Null => out.push(0x00),
        Value::Flag(flag) => out.push(if *flag { 0x02 } else { 0x01 }),
        Value::Int(number) => {
            out.push(0x03);
            out.extend_from_slice(&number.to_be_bytes());
        }
        Value::Str(text) => {
            out.push(0x04);
            put_text(out, text);
        }
        Value::List(items) => put_items(out, items),
        Value::Map(pairs) => {
            out.push(0x06);
            out.extend_from_slice(&(pairs.len() as u32).to_be_bytes());
            for (key, value) in pairs {
                put_text(out, key);
                put_value(out, value);
            }
        }
    }
}

fn put_tree(out: &mut Vec<u8>, target: &Target) {
    match target {
        Target::IdGlob(glob) => {
            out.push(0x01);
            put_text(out, glob);
        }
        Target::Not(part) => {
            out.push(0x08);
            put_tree(out, part);
        }
        Target::And(left, right) => {
            out.push(0x09);
            put_tree(out, left);
            put_tree(out, right);
        }
        Target::Or(left, right) => {
            out.push(0x0a);
            put_tree(out, left);
            put_tree(out, right);
        }
    }
}

fn put_job(out: &mut Vec<u8>, job: &Job) {
    out.extend_from_slice(&job.jid.to_be_bytes());
    out.push(job.kind);
    put_text(out, &job.tgt);
    put_tree(out, &job.target);
    out.extend_from_slice(&(job.fun.len() as u16).to_be_bytes());
    out.extend_from_slice(job.fun.as_bytes());
    put_items(out, &job.args);
}

fn put_entry(out: &mut Vec<u8>, entry: &Entry) {
    match entry {
        Entry::Return { seq, outcome } => {
            out.push(0x01);
            out.extend_from_slice(&seq.to_be_bytes());
            out.push(outcome.retcode);
            put_value(out, &outcome.value);
        }
        Entry::Start { boot } => {
            out.push(0x03);
            out.extend_from_slice(&boot.to_be_bytes());
        }
    }
}

fn body_of(kind: u8) -> Vec<u8> {
    let mut out = Vec::with_capacity(32);
    out.extend_from_slice(&[1, kind]);
    out
}

fn pub_body(seq: u32, job: &Job) -> Vec<u8> {
    let mut out = body_of(0x01);
    out.extend_from_slice(&seq.to_be_bytes());
    put_job(&mut out, job);
    out
}

fn up_body(minion: &str, n: u32, entry: &Entry) -> Vec<u8> {
    let mut out = body_of(0x03);
    put_id(&mut out, minion);
    out.extend_from_slice(&n.to_be_bytes());
    put_entry(&mut out, entry);
    out
}

fn encode(message: &Message) -> Vec<u8> {
    match message {
        Message::Pub { seq, job } => pub_body(*seq, job),
        Message::Up { minion, n, entry } => up_body(minion, *n, entry),
        Message::Have { jobs } => {
            let mut out = body_of(0x02);
            out.extend_from_slice(&jobs.to_be_bytes());
            out
        }
        Message::UpHave { minion, n } => {
            let mut out = body_of(0x04);
            put_id(&mut out, minion);
            out.extend_from_slice(&n.to_be_bytes());
            out
        }
    }
}

// Messages of bytes.

struct Reader<'a> {
    rest: &'a [u8],
}

impl<'a> Reader<'a> {
    fn take(&mut self, count: usize) -> Option<&'a [u8]> {
        let (front, rest) = self.rest.split_at_checked(count)?;
        self.rest = rest;
        Some(front)
    }

    fn u8(&mut self) -> Option<u8> {
        Some(self.take(1)?[0])
    }

    fn u16(&mut self) -> Option<u16> {
        Some(u16::from_be_bytes(self.take(2)?.try_into().ok()?))
    }

    fn u32(&mut self) -> Option<u32> {
        Some(u32::from_be_bytes(self.take(4)?.try_into().ok()?))
    }

    fn u64(&mut self) -> Option<u64> {
        Some(u64::from_be_bytes(self.take(8)?.try_into().ok()?))
    }

    fn string(&mut self, count: usize) -> Option<String> {
        Some(std::str::from_utf8(self.take(count)?).ok()?.to_string())
    }

    fn text(&mut self) -> Option<String> {
        let count = self.u32()? as usize;
        self.string(count)
    }

    fn word(&mut self) -> Option<String> {
        let count = usize::from(self.u16()?);
        self.string(count)
    }

    fn id(&mut self) -> Option<String> {
        let count = usize::from(self.u8()?);
        let id = self.take(count)?;
        let is_id = (1..=64).contains(&count) && id.iter().all(|b| b.is_ascii_alphanumeric() || b"._-".contains(b));
        if is_id { Some(std::str::from_utf8(id).ok()?.to_string()) } else { None }
    }

    fn value(&mut self, levels: u32) -> Option<Value> {
        if levels == 0 {
            return None;
        }
        Some(match self.u8()? {
            0x00 => Value::Null,
            0x01 => Value::Flag(false),
            0x02 => Value::Flag(true),
            0x03 => Value::Int(self.u64()? as i64),
            0x04 => Value::Str(self.text()?),
            0x05 => Value::List((0..self.u32()?).map(|_| self.value(levels - 1)).collect::<Option<_>>()?),
            0x06 => Value::Map((0..self.u32()?).map(|_| Some((self.text()?, self.value(levels - 1)?))).collect::<Option<_>>()?),
            _ => return None,
        })
    }

    fn tree(&mut self, nodes: &mut u32) -> Option<Target> {
        *nodes = nodes.checked_sub(1)?;
        Some(match self.u8()? {
            0x01 => Target::IdGlob(self.text()?),
            0x08 => Target::Not(Box::new(self.tree(nodes)?)),
            0x09 => Target::And(Box::new(self.tree(nodes)?), Box::new(self.tree(nodes)?)),
            0x0a => Target::Or(Box::new(self.tree(nodes)?), Box::new(self.tree(nodes)?)),
            _ => return None,
        })
    }

    fn job(&mut self) -> Option<Job> {
        Some(Job {
            jid: self.u64()?,
            kind: self.u8()?,
            tgt: self.text()?,
            target: self.tree(&mut 256)?,
            fun: self.word()?,
            args: match self.value(32)? {
                Value::List(items) => items,
                _ => return None,
            },
        })
    }

    fn entry(&mut self) -> Option<Entry> {
        Some(match self.u8()? {
            0x01 => Entry::Return {
                seq: self.u32()?,
                outcome: Outcome { retcode: self.u8()?, value: self.value(32)? },
            },
            0x03 => Entry::Start { boot: self.u32()? },
            _ => return None,
        })
    }

    fn message(&mut self) -> Option<Message> {
        if self.u8()? != 1 {
            return None;
        }
        Some(match self.u8()? {
            0x01 => Message::Pub { seq: self.u32()?, job: self.job()? },
            0x02 => Message::Have { jobs: self.u32()? },
            0x03 => Message::Up { minion: self.id()?, n: self.u32()?, entry: self.entry()? },
            0x04 => Message::UpHave { minion: self.id()?, n: self.u32()? },
            _ => return None,
        })
    }
}

fn decode(body: &[u8]) -> Option<Message> {
    let mut reader = Reader { rest: body };
    let message = reader.message()?;
    if reader.rest.is_empty() { Some(message) } else { None }
}

// The fleet.

struct Member {
    id: String,
    is_minion: bool,
    parent: usize,
}

struct Fleet {
    members: Vec<Member>,
    places: HashMap<String, usize>,
}

impl Fleet {
    fn add(&mut self, id: String, is_minion: bool, parent: usize) -> usize {
        let place = self.members.len();
        self.places.insert(id.clone(), place);
        self.members.push(Member { id, is_minion, parent });
        place
    }

    fn is_parent(&self, node: usize, child: usize) -> bool {
        0 < child && self.members[child].parent == node
    }

    // The child of a node through which another one lies.
    fn branch(&self, node: usize, other: usize) -> Option<usize> {
        let mut at = other;
        while at != 0 {
            let parent = self.members[at].parent;
            if parent == node {
                return Some(at);
            }
            at = parent;
        }
        None
    }

    fn minions(&self, node: usize) -> Vec<usize> {
        if self.members[node].is_minion {
            return vec![node];
        }
        (0..self.members.len())
            .filter(|m| self.members[*m].is_minion && self.branch(node, *m).is_some())
            .collect()
    }
}

fn fleet(minions: usize, upper: usize, lower: usize) -> Fleet {
    let mut fleet = Fleet { members: Vec::new(), places: HashMap::new() };
    fleet.add("top".to_string(), false, 0);
    let uppers: Vec<usize> = (0..upper).map(|n| fleet.add(format!("syndic-0-{n}"), false, 0)).collect();
    let mut lowers = Vec::new();
    for parent in uppers {
        lowers.extend((0..lower).map(|n| fleet.add(format!("syndic-{parent}-{n}"), false, parent)));
    }
    for n in 0..minions {
        fleet.add(format!("minion-{n}.example.net"), true, lowers[n % lowers.len()]);
    }
    fleet
}

// A node, and what it does with a message.

fn glob(pattern: &[u8], text: &[u8]) -> bool {
    let (mut p, mut t) = (0, 0);
    let mut star: Option<(usize, usize)> = None;
    while t < text.len() {
        if p < pattern.len() && pattern[p] == b'*' {
            star = Some((p + 1, t));
            p += 1;
        } else if p < pattern.len() && (pattern[p] == b'?' || pattern[p] == text[t]) {
            p += 1;
            t += 1;
        } else if let Some((after, from)) = star {
            star = Some((after, from + 1));
            p = after;
            t = from + 1;
        } else {
            return false;
        }
    }
    pattern[p..].iter().all(|b| *b == b'*')
}

fn holds(target: &Target, id: &str) -> bool {
    match target {
        Target::IdGlob(text) => glob(text.as_bytes(), id.as_bytes()),
        Target::Not(part) => !holds(part, id),
        Target::And(left, right) => holds(left, id) && holds(right, id),
        Target::Or(left, right) => holds(left, id) || holds(right, id),
    }
}

fn run(fun: &str, args: &[Value]) -> Outcome {
    match (fun, args) {
        ("test.ping", []) => Outcome { retcode: 0, value: Value::Flag(true) },
        ("test.echo", [value]) => Outcome { retcode: 0, value: value.clone() },
        ("test.ping" | "test.echo", _) => Outcome { retcode: 1, value: Value::Str("bad arguments".to_string()) },
        _ => Outcome { retcode: 254, value: Value::Str(format!("'{fun}' is not available.")) },
    }
}

// What a master keeps of its records.
struct Master {
    jobs: Vec<Job>,
    returns: Vec<HashMap<String, Outcome>>,
    places: HashMap<String, usize>,
    logs: Vec<Vec<Entry>>,
}

impl Master {
    fn add_job(&mut self, job: Job) {
        self.returns.push(HashMap::new());
        self.jobs.push(job);
    }

    fn log(&self, id: &str) -> &[Entry] {
        self.places.get(id).map_or(&[], |place| &self.logs[*place])
    }

    fn outcome(&self, seq: u32, id: &str) -> Option<&Outcome> {
        self.returns.get(seq as usize)?.get(id)
    }

    // May an entry with the next number be recorded?
    fn may_record(&self, minion: &str, entry: &Entry) -> bool {
        match entry {
            Entry::Start { .. } => true,
            Entry::Return { seq, .. } => (*seq as usize) < self.jobs.len() && self.outcome(*seq, minion).is_none(),
        }
    }

    fn add_entry(&mut self, minion: String, entry: Entry) {
        let place = self.places[&minion];
        if let Entry::Return { seq, outcome } = &entry {
            self.returns[*seq as usize].insert(minion, outcome.clone());
        }
        self.logs[place].push(entry);
    }
}

enum Core {
    Minion { jobs: u32, log: Vec<Entry> },
    Master(Master),
}

struct Node {
    me: usize,
    records: Vec<Deed>,
    core: Core,
    known_jobs: HashMap<usize, u32>,
    known_ups: HashMap<usize, u32>,
}

fn raise(counts: &mut HashMap<usize, u32>, node: usize, count: u32) {
    let known = counts.entry(node).or_insert(0);
    *known = count.max(*known);
}

impl Node {
    fn start(fleet: &Fleet, me: usize) -> Node {
        let (records, core) = if fleet.members[me].is_minion {
            (vec![Deed::Boot], Core::Minion { jobs: 0, log: vec![Entry::Start { boot: 1 }] })
        } else {
            let below = fleet.minions(me);
            let places = below.iter().enumerate().map(|(i, m)| (fleet.members[*m].id.clone(), i)).collect();
            let logs = below.iter().map(|_| Vec::new()).collect();
            (Vec::new(), Core::Master(Master { jobs: Vec::new(), returns: Vec::new(), places, logs }))
        };
        Node { me, records, core, known_jobs: HashMap::new(), known_ups: HashMap::new() }
    }

    fn jobs_held(&self) -> u32 {
        match &self.core {
            Core::Minion { jobs, .. } => *jobs,
            Core::Master(master) => master.jobs.len() as u32,
        }
    }

    fn log(&self, id: &str) -> &[Entry] {
        match &self.core {
            Core::Minion { log, .. } => log,
            Core::Master(master) => master.log(id),
        }
    }

    fn known_jobs(&self, child: usize) -> u32 {
        self.known_jobs.get(&child).copied().unwrap_or(0)
    }

    fn known_ups(&self, minion: usize) -> u32 {
        self.known_ups.get(&minion).copied().unwrap_or(0)
    }

    fn take(&mut self, fleet: &Fleet, from: usize, message: Message) -> Option<Message> {
        match message {
            Message::Pub { seq, job } => self.take_job(fleet, from, seq, job),
            Message::Have { jobs } => {
                if fleet.is_parent(self.me, from) && jobs <= self.jobs_held() {
                    raise(&mut self.known_jobs, from, jobs);
                }
                None
            }
            Message::Up { minion, n, entry } => self.take_entry(fleet, from, minion, n, entry),
            Message::UpHave { minion, n } => {
                let place = *fleet.places.get(&minion)?;
                let is_here = place == self.me || fleet.branch(self.me, place).is_some();
                if fleet.is_parent(from, self.me) && is_here && n as usize <= self.log(&minion).len() {
                    raise(&mut self.known_ups, place, n);
                }
                None
            }
        }
    }

    fn take_job(&mut self, fleet: &Fleet, from: usize, seq: u32, job: Job) -> Option<Message> {
        if !fleet.is_parent(from, self.me) || 65_535 <= seq {
            return None;
        }
        match &mut self.core {
            Core::Minion { jobs, log } if *jobs == seq => {
                let mut entries = Vec::new();
                if holds(&job.target, &fleet.members[self.me].id) {
                    entries.push(Entry::Return { seq, outcome: run(&job.fun, &job.args) });
                }
                log.extend(entries.iter().cloned());
                *jobs += 1;
                self.records.push(Deed::Done { seq, entries });
            }
            Core::Master(master) if master.jobs.len() as u32 == seq => {
                if master.jobs.last().is_some_and(|last| job.jid <= last.jid) {
                    return None;
                }
                self.records.push(Deed::Intake { job: job.clone() });
                master.add_job(job);
            }
            _ => {}
        }
        Some(Message::Have { jobs: self.jobs_held() })
    }

    fn take_entry(&mut self, fleet: &Fleet, from: usize, minion: String, n: u32, entry: Entry) -> Option<Message> {
        let place = *fleet.places.get(&minion)?;
        if !fleet.is_parent(self.me, from) || fleet.branch(self.me, place) != Some(from) {
            return None;
        }
        let Core::Master(master) = &mut self.core else {
            return None;
        };
        let have = master.log(&minion).len() as u32;
        if n != have {
            return Some(Message::UpHave { minion, n: have });
        }
        if !master.may_record(&minion, &entry) {
            return None;
        }
        self.records.push(Deed::Up { minion: minion.clone(), entry: entry.clone() });
        master.add_entry(minion.clone(), entry);
        Some(Message::UpHave { minion, n: n + 1 })
    }

    fn publish(&mut self, moment: u64) {
        let Core::Master(master) = &mut self.core else {
            return;
        };
        let job = Job {
            jid: moment,
            kind: 1,
            tgt: "*".to_string(),
            target: Target::IdGlob("*".to_string()),
            fun: "test.ping".to_string(),
            args: Vec::new(),
        };
        self.records.push(Deed::Publish { job: job.clone() });
        master.add_job(job);
    }
}

// The network.

struct Packet {
    from: usize,
    to: usize,
    body: Vec<u8>,
}

struct World<'f> {
    fleet: &'f Fleet,
    order: Vec<usize>,
    nodes: Vec<Node>,
    packets: Vec<Packet>,
}

impl<'f> World<'f> {
    fn of(fleet: &'f Fleet) -> World<'f> {
        let mut order = fleet.minions(0);
        order.sort_by(|a, b| fleet.members[*a].id.cmp(&fleet.members[*b].id));
        let nodes = (0..fleet.members.len()).map(|place| Node::start(fleet, place)).collect();
        World { fleet, order, nodes, packets: Vec::new() }
    }

    fn deliver(&mut self, i: usize) {
        let Some(packet) = self.packets.get(i) else {
            return;
        };
        let (from, to) = (packet.from, packet.to);
        let Some(message) = decode(&packet.body) else {
            return;
        };
        if let Some(reply) = self.nodes[to].take(self.fleet, from, message) {
            self.packets.push(Packet { from: to, to: from, body: encode(&reply) });
        }
    }

    fn exchange(&mut self, from: usize, to: usize, body: Vec<u8>) {
        let i = self.packets.len();
        self.packets.push(Packet { from, to, body });
        self.deliver(i);
        self.deliver(i + 1);
    }

    fn down_child(&mut self, p: usize, c: usize) {
        let left = self.nodes[p].jobs_held().saturating_sub(self.nodes[p].known_jobs(c));
        for _ in 0..left {
            let seq = self.nodes[p].known_jobs(c);
            if let Core::Master(master) = &self.nodes[p].core {
                let body = pub_body(seq, &master.jobs[seq as usize]);
                self.exchange(p, c, body);
            }
            if self.nodes[p].known_jobs(c) <= seq {
                return;
            }
        }
    }

    fn up_minion(&mut self, c: usize, minion: usize) {
        let id = &self.fleet.members[minion].id;
        let parent = self.fleet.members[c].parent;
        let left = (self.nodes[c].log(id).len() as u32).saturating_sub(self.nodes[c].known_ups(minion));
        for _ in 0..left {
            let n = self.nodes[c].known_ups(minion);
            let body = up_body(id, n, &self.nodes[c].log(id)[n as usize]);
            self.exchange(c, parent, body);
            if self.nodes[c].known_ups(minion) <= n {
                return;
            }
        }
    }

    fn settle(&mut self) {
        let count = self.fleet.members.len();
        for p in (0..count).filter(|p| !self.fleet.members[*p].is_minion) {
            for c in (0..count).filter(|c| self.fleet.is_parent(p, *c)) {
                self.down_child(p, c);
            }
        }
        for c in (1..count).rev() {
            for minion in self.fleet.minions(c) {
                self.up_minion(c, minion);
            }
        }
    }

    fn report(&self, jid: u64) -> String {
        let Core::Master(top) = &self.nodes[0].core else {
            return String::new();
        };
        let Some(seq) = top.jobs.iter().position(|job| job.jid == jid) else {
            return format!("unknown {}\n", jid_text(jid));
        };
        let rows: Vec<(&str, Outcome)> = self
            .order
            .iter()
            .map(|m| self.fleet.members[*m].id.as_str())
            .filter_map(|id| Some((id, top.outcome(seq as u32, id)?.clone())))
            .collect();
        let mut text = format!("report {} {} {}\n", jid_text(jid), top.jobs[seq].fun, rows.len());
        for (id, outcome) in &rows {
            text.push_str(&format!("{id} {} {}\n", outcome.retcode, json(&outcome.value)));
        }
        text
    }
}

fn json(value: &Value) -> String {
    match value {
        Value::Null => "null".to_string(),
        Value::Flag(flag) => flag.to_string(),
        Value::Int(number) => number.to_string(),
        Value::Str(text) => format!("{text:?}"),
        Value::List(items) => format!("[{}]", items.iter().map(json).collect::<Vec<_>>().join(",")),
        Value::Map(pairs) => {
            let pairs = pairs.iter().map(|(key, value)| format!("{key:?}:{}", json(value)));
            format!("{{{}}}", pairs.collect::<Vec<_>>().join(","))
        }
    }
}

// Microseconds since 1970-01-01 UTC as a date, a time of the day and microseconds.
fn jid_text(jid: u64) -> String {
    let (days, micros) = (jid / 86_400_000_000, jid % 86_400_000_000);
    let shifted = days + 719_468;
    let (era, of_era) = (shifted / 146_097, shifted % 146_097);
    let year_of_era = (of_era - of_era / 1460 + of_era / 36_524 - of_era / 146_096) / 365;
    let of_year = of_era - (365 * year_of_era + year_of_era / 4 - year_of_era / 100);
    let from_march = (5 * of_year + 2) / 153;
    let day = of_year - (153 * from_march + 2) / 5 + 1;
    let month = if from_march < 10 { from_march + 3 } else { from_march - 9 };
    let year = era * 400 + year_of_era + u64::from(month <= 2);
    let seconds = micros / 1_000_000;
    let (hour, minute, second) = (seconds / 3600, seconds / 60 % 60, seconds % 60);
    format!("{year:04}{month:02}{day:02}{hour:02}{minute:02}{second:02}{:06}", micros % 1_000_000)
}

fn main() {
    for line in std::io::stdin().lock().lines() {
        let line = line.unwrap();
        let numbers: Vec<usize> = line.split(' ').map(|word| word.parse().unwrap()).collect();
        let (minions, upper, lower, jobs) = (numbers[0], numbers[1], numbers[2], numbers[3]);
        let fleet = fleet(minions, upper, lower);
        let mut world = World::of(&fleet);
        for n in 0..jobs {
            world.nodes[0].publish(FIRST_MOMENT + n as u64);
        }
        world.settle();
        let report = world.report(FIRST_MOMENT + (jobs as u64).saturating_sub(1));
        let entries = minions * (jobs + 1);
        let bound = 2 * jobs * (fleet.members.len() - 1) + 2 * entries * 3;
        println!("packets {} bound {bound}", world.packets.len());
        println!("{}", report.lines().next().unwrap_or(""));
    }
}
