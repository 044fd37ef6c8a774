// The same messages in plain Rust, with the crate byteorder and the same owned values, limits and faults.
use byteorder::{BigEndian, ByteOrder, WriteBytesExt};
use std::hint::black_box;

const PARTS: u32 = 10;
const MESSAGES: u32 = 100_000;
const UP_NUMBER: usize = 21;
const PUB_NUMBER: usize = 2;

// Its length and bytes stand inline, as those of the crate's ids do.
#[derive(Clone, Copy)]
struct MinionId {
    bytes: [u8; 64],
    len: u8,
}

enum Value {
    Null,
    Flag(bool),
    Int(i64),
    Str(String),
    List(Vec<Value>),
    Map(Vec<(String, Value)>),
}

enum Target {
    IdGlob(String),
    IdPcre(String),
    IdList(Vec<MinionId>),
    GrainGlob(String),
    GrainPcre(String),
    PillarGlob(String),
    PillarPcre(String),
    Not(Box<Target>),
    And(Box<Target>, Box<Target>),
    Or(Box<Target>, Box<Target>),
}

#[derive(Clone, Copy)]
enum Kind {
    Glob = 1,
    Pcre,
    List,
    Grain,
    GrainPcre,
    Pillar,
    PillarPcre,
    Nodegroup,
    Compound,
}

struct Job {
    jid: u64,
    kind: Kind,
    tgt: String,
    target: Target,
    fun: String,
    args: Vec<Value>,
}

enum Entry {
    Return { seq: u32, retcode: u8, value: Value },
    Fired { tag: String, body: Value },
    Start { boot: u32 },
    Mine { seq: u32, mine: Vec<(String, Value)>, grains: Vec<(String, Value)>, pillar: Vec<(String, Value)> },
}

enum Message {
    Pub { seq: u32, job: Job },
    Have { jobs: u32 },
    Up { minion: MinionId, n: u32, entry: Entry },
    UpHave { minion: MinionId, n: u32 },
    Hello { id: MinionId },
    End,
    AskPublish { kind: Kind, tgt: String, fun: String, args: Vec<Value> },
    AskReport { jid: u64 },
    AskJobs,
    AskMine { kind: Kind, tgt: String, fun: String },
    Answer { status: u8, text: String },
}

#[derive(Debug)]
#[allow(dead_code)]
enum Fault {
    BadVersion,
    BadKind,
    BadField { at: usize },
    Trailing { at: usize },
}

impl MinionId {
    fn read(text: &[u8]) -> Option<MinionId> {
        let is_id = |b: &u8| matches!(b, b'A'..=b'Z' | b'a'..=b'z' | b'0'..=b'9' | b'.' | b'_' | b'-');
        if text.is_empty() || text.len() > 64 || !text.iter().all(is_id) {
            return None;
        }
        let mut bytes = [0; 64];
        bytes[..text.len()].copy_from_slice(text);
        Some(MinionId { bytes, len: text.len() as u8 })
    }

    fn as_bytes(&self) -> &[u8] {
        &self.bytes[..self.len as usize]
    }
}

impl Kind {
    fn of(code: u8) -> Option<Kind> {
        Some(match code {
            1 => Kind::Glob,
            2 => Kind::Pcre,
            3 => Kind::List,
            4 => Kind::Grain,
            5 => Kind::GrainPcre,
            6 => Kind::Pillar,
            7 => Kind::PillarPcre,
            8 => Kind::Nodegroup,
            9 => Kind::Compound,
            _ => return None,
        })
    }
}

fn put_text(out: &mut Vec<u8>, text: &str) {
    out.write_u32::<BigEndian>(text.len() as u32).unwrap();
    out.extend_from_slice(text.as_bytes());
}

fn put_word(out: &mut Vec<u8>, word: &str) {
    out.write_u16::<BigEndian>(word.len() as u16).unwrap();
    out.extend_from_slice(word.as_bytes());
}

fn put_id(out: &mut Vec<u8>, id: &MinionId) {
    out.push(id.len);
    out.extend_from_slice(id.as_bytes());
}

fn put_items(out: &mut Vec<u8>, items: &[Value]) {
    out.push(5);
    out.write_u32::<BigEndian>(items.len() as u32).unwrap();
    for item in items {
        put_value(out, item);
    }
}

fn put_fields(out: &mut Vec<u8>, pairs: &[(String, Value)]) {
    out.push(6);
    out.write_u32::<BigEndian>(pairs.len() as u32).unwrap();
    for (key, value) in pairs {
        put_text(out, key);
        put_value(out, value);
    }
}

fn put_value(out: &mut Vec<u8>, value: &Value) {
    match value {
        Value::Null => out.push(0),
        Value::Flag(flag) => out.push(1 + *flag as u8),
        Value::Int(number) => {
            out.push(3);
            out.write_i64::<BigEndian>(*number).unwrap();
        }
        Value::Str(text) => {
            out.push(4);
            put_text(out, text);
        }
        Value::List(items) => put_items(out, items),
        Value::Map(pairs) => put_fields(out, pairs),
    }
}

fn put_leaf(out: &mut Vec<u8>, tag: u8, text: &str) {
    out.push(tag);
    put_text(out, text);
}

fn put_pair(out: &mut Vec<u8>, tag: u8, left: &Target, right: &Target) {
    out.push(tag);
    put_tree(out, left);
    put_tree(out, right);
}

fn put_tree(out: &mut Vec<u8>, tree: &Target) {
    match tree {
        Target::IdGlob(text) => put_leaf(out, 1, text),
        Target::IdPcre(text) => put_leaf(out, 2, text),
        Target::IdList(ids) => {
            out.push(3);
            out.write_u16::<BigEndian>(ids.len() as u16).unwrap();
            for id in ids {
                put_id(out, id);
            }
        }
        Target::GrainGlob(text) => put_leaf(out, 4, text),
        Target::GrainPcre(text) => put_leaf(out, 5, text),
        Target::PillarGlob(text) => put_leaf(out, 6, text),
        Target::PillarPcre(text) => put_leaf(out, 7, text),
        Target::Not(part) => {
            out.push(8);
            put_tree(out, part);
        }
        Target::And(left, right) => put_pair(out, 9, left, right),
        Target::Or(left, right) => put_pair(out, 10, left, right),
    }
}

fn put_job(out: &mut Vec<u8>, job: &Job) {
    out.write_u64::<BigEndian>(job.jid).unwrap();
    out.push(job.kind as u8);
    put_text(out, &job.tgt);
    put_tree(out, &job.target);
    put_word(out, &job.fun);
    put_items(out, &job.args);
}

fn put_entry(out: &mut Vec<u8>, entry: &Entry) {
    match entry {
        Entry::Return { seq, retcode, value } => {
            out.push(1);
            out.write_u32::<BigEndian>(*seq).unwrap();
            out.push(*retcode);
            put_value(out, value);
        }
        Entry::Fired { tag, body } => {
            out.push(2);
            put_word(out, tag);
            put_value(out, body);
        }
        Entry::Start { boot } => {
            out.push(3);
            out.write_u32::<BigEndian>(*boot).unwrap();
        }
        Entry::Mine { seq, mine, grains, pillar } => {
            out.push(4);
            out.write_u32::<BigEndian>(*seq).unwrap();
            put_fields(out, mine);
            put_fields(out, grains);
            put_fields(out, pillar);
        }
    }
}

fn encode(message: &Message, out: &mut Vec<u8>) {
    out.push(1);
    match message {
        Message::Pub { seq, job } => {
            out.push(1);
            out.write_u32::<BigEndian>(*seq).unwrap();
            put_job(out, job);
        }
        Message::Have { jobs } => {
            out.push(2);
            out.write_u32::<BigEndian>(*jobs).unwrap();
        }
        Message::Up { minion, n, entry } => {
            out.push(3);
            put_id(out, minion);
            out.write_u32::<BigEndian>(*n).unwrap();
            put_entry(out, entry);
        }
        Message::UpHave { minion, n } => {
            out.push(4);
            put_id(out, minion);
            out.write_u32::<BigEndian>(*n).unwrap();
        }
        Message::Hello { id } => {
            out.push(5);
            put_id(out, id);
        }
        Message::End => out.push(6),
        Message::AskPublish { kind, tgt, fun, args } => {
            out.extend_from_slice(&[0x10, *kind as u8]);
            put_text(out, tgt);
            put_word(out, fun);
            put_items(out, args);
        }
        Message::AskReport { jid } => {
            out.push(0x11);
            out.write_u64::<BigEndian>(*jid).unwrap();
        }
        Message::AskJobs => out.push(0x12),
        Message::AskMine { kind, tgt, fun } => {
            out.extend_from_slice(&[0x13, *kind as u8]);
            put_text(out, tgt);
            put_word(out, fun);
        }
        Message::Answer { status, text } => {
            out.extend_from_slice(&[0x14, *status]);
            put_text(out, text);
        }
    }
}

// A body, and how far it was read.
struct Reader<'a> {
    body: &'a [u8],
    at: usize,
}

// What a tree may still have.
struct Room {
    nodes: usize,
    patterns: usize,
    stop: usize,
}

impl<'a> Reader<'a> {
    fn left(&self) -> &'a [u8] {
        &self.body[self.at..]
    }

    // So many bytes, of the field that begins at `field`.
    fn take(&mut self, count: usize, field: usize) -> Result<&'a [u8], Fault> {
        let left = self.left();
        if left.len() < count {
            return Err(Fault::BadField { at: field });
        }
        self.at += count;
        Ok(&left[..count])
    }

    fn byte(&mut self) -> Result<u8, Fault> {
        Ok(self.take(1, self.at)?[0])
    }

    fn number(&mut self) -> Result<u32, Fault> {
        Ok(BigEndian::read_u32(self.take(4, self.at)?))
    }

    fn id(&mut self, field: usize) -> Result<MinionId, Fault> {
        let length = self.take(1, field)?[0] as usize;
        MinionId::read(self.take(length, field)?).ok_or(Fault::BadField { at: field })
    }

    fn word(&mut self) -> Result<String, Fault> {
        let field = self.at;
        let length = BigEndian::read_u16(self.take(2, field)?) as usize;
        let bytes = self.take(length, field)?;
        let bad = Fault::BadField { at: field };
        if bytes.is_empty() || bytes.len() > 256 || !bytes.iter().all(u8::is_ascii_graphic) {
            return Err(bad);
        }
        Ok(std::str::from_utf8(bytes).map_err(|_| bad)?.to_owned())
    }

    fn text(&mut self, most: usize) -> Result<String, Fault> {
        let field = self.at;
        let length = BigEndian::read_u32(self.take(4, field)?) as usize;
        let bytes = self.take(length, field)?;
        let bad = Fault::BadField { at: field };
        if length > most {
            return Err(bad);
        }
        Ok(std::str::from_utf8(bytes).map_err(|_| bad)?.to_owned())
    }

    fn jid(&mut self) -> Result<u64, Fault> {
        let field = self.at;
        let jid = BigEndian::read_u64(self.take(8, field)?);
        if jid > 253_402_300_799_999_999 {
            return Err(Fault::BadField { at: field });
        }
        Ok(jid)
    }

    fn kind(&mut self) -> Result<Kind, Fault> {
        let field = self.at;
        Kind::of(self.byte()?).ok_or(Fault::BadField { at: field })
    }

    fn value(&mut self) -> Result<Value, Fault> {
        let left = self.left();
        let seen = &left[..left.len().min(65_536)];
        let (value, rest) = read_value(32, seen).ok_or(Fault::BadField { at: self.at })?;
        self.at += seen.len() - rest.len();
        Ok(value)
    }

    fn items(&mut self) -> Result<Vec<Value>, Fault> {
        let field = self.at;
        match self.value()? {
            Value::List(items) => Ok(items),
            _ => Err(Fault::BadField { at: field }),
        }
    }

    fn fields(&mut self) -> Result<Vec<(String, Value)>, Fault> {
        let field = self.at;
        match self.value()? {
            Value::Map(pairs) => Ok(pairs),
            _ => Err(Fault::BadField { at: field }),
        }
    }

    fn leaf(&mut self, room: &Room) -> Result<String, Fault> {
        let field = self.at;
        let text = self.text(4096)?;
        if text.is_empty() || self.at > room.stop {
            return Err(Fault::BadField { at: field });
        }
        Ok(text)
    }

    fn ids(&mut self, room: &Room) -> Result<Vec<MinionId>, Fault> {
        let field = self.at;
        let count = BigEndian::read_u16(self.take(2, field)?);
        let mut ids = Vec::new();
        for _ in 0..count {
            ids.push(self.id(field)?);
        }
        if count < 1 || self.at > room.stop {
            return Err(Fault::BadField { at: field });
        }
        Ok(ids)
    }

    fn tag(&mut self, room: &mut Room) -> Result<u8, Fault> {
        let bad = Fault::BadField { at: self.at };
        let tag = self.byte()?;
        if self.at > room.stop || room.nodes == 0 {
            return Err(bad);
        }
        room.nodes -= 1;
        if matches!(tag, 2 | 5 | 7) {
            if room.patterns == 0 {
                return Err(bad);
            }
            room.patterns -= 1;
        }
        Ok(tag)
    }

    fn tree(&mut self, room: &mut Room) -> Result<Target, Fault> {
        let field = self.at;
        Ok(match self.tag(room)? {
            1 => Target::IdGlob(self.leaf(room)?),
            2 => Target::IdPcre(self.leaf(room)?),
            3 => Target::IdList(self.ids(room)?),
            4 => Target::GrainGlob(self.leaf(room)?),
            5 => Target::GrainPcre(self.leaf(room)?),
            6 => Target::PillarGlob(self.leaf(room)?),
            7 => Target::PillarPcre(self.leaf(room)?),
            8 => Target::Not(Box::new(self.tree(room)?)),
            9 => Target::And(Box::new(self.tree(room)?), Box::new(self.tree(room)?)),
            10 => Target::Or(Box::new(self.tree(room)?), Box::new(self.tree(room)?)),
            _ => return Err(Fault::BadField { at: field }),
        })
    }

    fn job(&mut self) -> Result<Job, Fault> {
        let jid = self.jid()?;
        let kind = self.kind()?;
        let tgt = self.text(4096)?;
        let mut room = Room { nodes: 256, patterns: 16, stop: self.at + 65_536 };
        let target = self.tree(&mut room)?;
        Ok(Job { jid, kind, tgt, target, fun: self.word()?, args: self.items()? })
    }

    fn entry(&mut self) -> Result<Entry, Fault> {
        let field = self.at;
        Ok(match self.byte()? {
            1 => Entry::Return { seq: self.number()?, retcode: self.byte()?, value: self.value()? },
            2 => Entry::Fired { tag: self.word()?, body: self.value()? },
            3 => Entry::Start { boot: self.number()? },
            4 => {
                let seq = self.number()?;
                Entry::Mine { seq, mine: self.fields()?, grains: self.fields()?, pillar: self.fields()? }
            }
            _ => return Err(Fault::BadField { at: field }),
        })
    }

    fn status(&mut self) -> Result<u8, Fault> {
        let field = self.at;
        match self.byte()? {
            status @ (0 | 1 | 10 | 11 | 12) => Ok(status),
            _ => Err(Fault::BadField { at: field }),
        }
    }

    fn message(&mut self, kind: u8) -> Result<Message, Fault> {
        Ok(match kind {
            1 => Message::Pub { seq: self.number()?, job: self.job()? },
            2 => Message::Have { jobs: self.number()? },
            3 => Message::Up { minion: self.id(self.at)?, n: self.number()?, entry: self.entry()? },
            4 => Message::UpHave { minion: self.id(self.at)?, n: self.number()? },
            5 => Message::Hello { id: self.id(self.at)? },
            6 => Message::End,
            0x10 => {
                let kind = self.kind()?;
                Message::AskPublish { kind, tgt: self.text(usize::MAX)?, fun: self.word()?, args: self.items()? }
            }
            0x11 => Message::AskReport { jid: self.jid()? },
            0x12 => Message::AskJobs,
            0x13 => Message::AskMine { kind: self.kind()?, tgt: self.text(usize::MAX)?, fun: self.word()? },
            0x14 => Message::Answer { status: self.status()?, text: self.text(1_000_000)? },
            _ => return Err(Fault::BadKind),
        })
    }
}

fn decode(body: &[u8]) -> Result<Message, Fault> {
    if body.first() != Some(&1) {
        return Err(Fault::BadVersion);
    }
    let kind = *body.get(1).ok_or(Fault::BadKind)?;
    let mut reader = Reader { body, at: 2 };
    let message = reader.message(kind)?;
    if reader.at < body.len() {
        return Err(Fault::Trailing { at: reader.at });
    }
    Ok(message)
}

fn read_text(bytes: &[u8]) -> Option<(String, &[u8])> {
    let (length, rest) = bytes.split_first_chunk::<4>()?;
    let length = BigEndian::read_u32(length) as usize;
    if rest.len() < length {
        return None;
    }
    let (front, after) = rest.split_at(length);
    Some((std::str::from_utf8(front).ok()?.to_owned(), after))
}

fn read_value(levels: usize, bytes: &[u8]) -> Option<(Value, &[u8])> {
    if levels == 0 {
        return None;
    }
    let (tag, rest) = bytes.split_first()?;
    Some(match tag {
        0 => (Value::Null, rest),
        1 => (Value::Flag(false), rest),
        2 => (Value::Flag(true), rest),
        3 => {
            let (number, rest) = rest.split_first_chunk::<8>()?;
            (Value::Int(BigEndian::read_i64(number)), rest)
        }
        4 => {
            let (text, rest) = read_text(rest)?;
            (Value::Str(text), rest)
        }
        5 => {
            let (count, mut rest) = rest.split_first_chunk::<4>()?;
            let mut items = Vec::new();
            for _ in 0..BigEndian::read_u32(count) {
                let (item, after) = read_value(levels - 1, rest)?;
                items.push(item);
                rest = after;
            }
            (Value::List(items), rest)
        }
        6 => {
            let (count, mut rest) = rest.split_first_chunk::<4>()?;
            let mut pairs: Vec<(String, Value)> = Vec::new();
            for _ in 0..BigEndian::read_u32(count) {
                if levels == 1 {
                    return None;
                }
                let (key, after) = read_text(rest)?;
                if pairs.last().is_some_and(|last| last.0 >= key) {
                    return None;
                }
                let (value, after) = read_value(levels - 1, after)?;
                pairs.push((key, value));
                rest = after;
            }
            (Value::Map(pairs), rest)
        }
        _ => return None,
    })
}

// Processor time of this thread in nanoseconds.
fn thread_time() -> u128 {
    #[repr(C)]
    struct Timespec {
        seconds: i64,
        nanos: i64,
    }
    unsafe extern "C" {
        fn clock_gettime(clock: i32, time: *mut Timespec) -> i32;
    }
    let mut time = Timespec { seconds: 0, nanos: 0 };
    // 3 is CLOCK_THREAD_CPUTIME_ID of Linux.
    assert_eq!(unsafe { clock_gettime(3, &mut time) }, 0);
    time.seconds as u128 * 1_000_000_000 + time.nanos as u128
}

fn map() -> Value {
    let value = |n: u32| if n % 2 == 0 { Value::Int(n as i64) } else { Value::Str(format!("value {n}")) };
    Value::Map((10..30).map(|n| (format!("key{n}"), value(n))).collect())
}

fn returned(value: Value) -> Message {
    let minion = MinionId::read(b"web-17.example.net").unwrap();
    Message::Up { minion, n: 0, entry: Entry::Return { seq: 7, retcode: 0, value } }
}

fn publication() -> Message {
    let text = |text: &str| text.to_string();
    let both = Target::And(
        Box::new(Target::IdGlob(text("web*"))),
        Box::new(Target::GrainGlob(text("os:debian"))),
    );
    let job = Job {
        jid: 1_700_000_000_000_000,
        kind: Kind::Compound,
        tgt: text("web* and G@os:debian or E@db[0-9]"),
        target: Target::Or(Box::new(both), Box::new(Target::IdPcre(text("db[0-9]")))),
        fun: text("test.echo"),
        args: vec![Value::Str(text("hello"))],
    };
    Message::Pub { seq: 0, job }
}

fn number(message: &Message) -> Option<u32> {
    match message {
        Message::Pub { seq, .. } => Some(*seq),
        Message::Up { n, .. } => Some(*n),
        _ => None,
    }
}

fn decode_all(body: &mut [u8], at: usize, times: u32) -> u32 {
    let mut good = 0;
    for n in 0..times {
        body[at..at + 4].copy_from_slice(&n.to_be_bytes());
        let message = decode(black_box(body)).unwrap();
        if number(black_box(&message)) == Some(n) {
            good += 1;
        }
    }
    good
}

fn encode_all(message: &Message, times: u32, out: &mut Vec<u8>) -> usize {
    let mut bytes = 0;
    for _ in 0..times {
        out.clear();
        encode(black_box(message), out);
        bytes += black_box(&*out).len();
    }
    bytes
}

fn least(mut part: impl FnMut()) -> u128 {
    let nanos = |_| {
        let start = thread_time();
        part();
        thread_time() - start
    };
    (0..PARTS).map(nanos).min().unwrap()
}

fn sum(body: &[u8]) -> u64 {
    body.iter().fold(0xcbf2_9ce4_8422_2325, |sum, b| (sum ^ *b as u64).wrapping_mul(0x100_0000_01b3))
}

fn time(name: &str, message: &Message, at: usize, times: u32) {
    let mut body = Vec::new();
    encode(message, &mut body);
    let size = body.len();
    println!("body {name} {size} {}", sum(&body));
    let decoded = least(|| assert_eq!(decode_all(&mut body, at, times), times));
    let message = decode(&body).unwrap();
    let mut out = Vec::new();
    let encoded = least(|| {
        assert_eq!(encode_all(&message, times, &mut out), size * times as usize);
        assert!(out == body);
    });
    println!("time {name} decode {size} {times} {decoded}");
    println!("time {name} encode {size} {times} {encoded}");
}

fn size(message: &Message) -> usize {
    let mut body = Vec::new();
    encode(message, &mut body);
    body.len()
}

fn main() {
    let pairs = returned(map());
    let large = returned(Value::List((0..151).map(|_| map()).collect()));
    let times = size(&pairs) * MESSAGES as usize / size(&large);
    time("ping", &returned(Value::Flag(true)), UP_NUMBER, MESSAGES);
    time("map", &pairs, UP_NUMBER, MESSAGES);
    time("publication", &publication(), PUB_NUMBER, MESSAGES);
    time("large", &large, UP_NUMBER, times as u32);
}
