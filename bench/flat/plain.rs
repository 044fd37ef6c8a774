// What bench/flat/main.rust does, in plain Rust: every job in order on every minion of a fleet that is copied first. A result has the
// changed part as a map of its own, and is tested against the limits of a value; a row has its minion's id.
use std::io::BufRead;

#[derive(Clone, PartialEq)]
#[allow(dead_code)]
enum Value {
    Null,
    Flag(bool),
    Int(i64),
    Str(String),
    List(Vec<Value>),
    Map(Pairs),
}

type Pairs = Vec<(String, Value)>;

#[derive(Clone, Copy)]
struct Id {
    bytes: [u8; 64],
    len: u8,
}

impl Id {
    fn of(text: &str) -> Id {
        let mut bytes = [0; 64];
        bytes[..text.len()].copy_from_slice(text.as_bytes());
        Id { bytes, len: text.len() as u8 }
    }

    fn as_bytes(&self) -> &[u8] {
        &self.bytes[..usize::from(self.len)]
    }
}

#[derive(Clone)]
#[allow(dead_code)]
struct Holdings {
    grains: Pairs,
    pillar: Pairs,
    store: Pairs,
    mine: Pairs,
}

#[derive(Clone)]
struct Minion {
    id: Id,
    held: Holdings,
}

enum Target {
    IdGlob(String),
    GrainGlob(Vec<String>),
}

struct Job {
    jid: u64,
    target: Target,
    fun: String,
    args: Vec<Value>,
}

struct Outcome {
    retcode: u8,
    value: Value,
}

struct Ran {
    outcome: Outcome,
    store: Option<Pairs>,
}

#[allow(dead_code)]
struct Row {
    id: Id,
    outcome: Outcome,
}

#[allow(dead_code)]
struct Report {
    jid: u64,
    fun: String,
    rows: Vec<Row>,
}

fn glob(pattern: &[u8], text: &[u8], caseless: bool) -> bool {
    let fold = |b: u8| if caseless { b.to_ascii_lowercase() } else { b };
    let (mut p, mut t) = (0, 0);
    let mut star: Option<(usize, usize)> = None;
    while t < text.len() {
        if p < pattern.len() && pattern[p] == b'*' {
            star = Some((p + 1, t));
            p += 1;
        } else if p < pattern.len() && (pattern[p] == b'?' || fold(pattern[p]) == fold(text[t])) {
            p += 1;
            t += 1;
        } else if let Some((after, from)) = star {
            star = Some((after, from + 1));
            p = after;
            t = from + 1;
        } else {
            return false;
        }
    }
    pattern[p..].iter().all(|b| *b == b'*')
}

fn scalar_holds(value: &Value, test: impl Fn(&str) -> bool) -> bool {
    match value {
        Value::Null => test("None"),
        Value::Flag(flag) => test(if *flag { "True" } else { "False" }),
        Value::Int(number) => test(&number.to_string()),
        Value::Str(text) => test(text),
        _ => false,
    }
}

fn meets(value: &Value, parts: &[String]) -> bool {
    match value {
        Value::List(items) => items.iter().any(|item| meets(item, parts)),
        Value::Map(pairs) => meets_map(pairs, parts),
        _ if parts.len() == 1 => scalar_holds(value, |text| glob(parts[0].as_bytes(), text.as_bytes(), true)),
        _ => {
            let joined = parts.join(":");
            scalar_holds(value, |text| glob(joined.as_bytes(), text.as_bytes(), true))
        }
    }
}

fn meets_map(pairs: &Pairs, parts: &[String]) -> bool {
    if parts.len() == 1 {
        return pairs.iter().any(|(key, _)| glob(parts[0].as_bytes(), key.as_bytes(), true));
    }
    get(pairs, &parts[0]).is_some_and(|child| meets(child, &parts[1..]))
}

fn holds(target: &Target, minion: &Minion) -> bool {
    match target {
        Target::IdGlob(text) => glob(text.as_bytes(), minion.id.as_bytes(), false),
        Target::GrainGlob(parts) => meets_map(&minion.held.grains, parts),
    }
}

fn size(value: &Value, levels: usize) -> Option<usize> {
    if levels == 0 {
        return None;
    }
    Some(match value {
        Value::Null | Value::Flag(_) => 1,
        Value::Int(_) => 9,
        Value::Str(text) => 5 + text.len(),
        Value::List(items) => {
            let mut all = 5;
            for item in items {
                all += size(item, levels - 1)?;
            }
            all
        }
        Value::Map(pairs) => size_of(pairs, levels)?,
    })
}

fn size_of(pairs: &Pairs, levels: usize) -> Option<usize> {
    let mut all = 5;
    for (key, value) in pairs {
        all += 4 + key.len() + size(value, levels - 1)?;
    }
    Some(all)
}

fn fits(size: Option<usize>) -> bool {
    size.is_some_and(|bytes| bytes <= 65536)
}

fn get<'a>(pairs: &'a Pairs, key: &str) -> Option<&'a Value> {
    pairs.iter().find(|(name, _)| name == key).map(|(_, value)| value)
}

fn with(pairs: &Pairs, key: &str, value: Value) -> Pairs {
    let mut new = Pairs::new();
    new.extend(pairs.iter().filter(|(name, _)| name.as_str() < key).cloned());
    new.push((key.to_string(), value));
    new.extend(pairs.iter().filter(|(name, _)| name.as_str() > key).cloned());
    new
}

fn refused(text: &str) -> Ran {
    Ran { outcome: Outcome { retcode: 1, value: Value::Str(text.to_string()) }, store: None }
}

fn ended(value: Value, store: Option<Pairs>) -> Ran {
    Ran { outcome: Outcome { retcode: 0, value }, store }
}

fn result(fun: &str, args: &[Value], held: &Holdings) -> Ran {
    match (fun, args) {
        ("test.ping", []) => ended(Value::Flag(true), None),
        ("test.echo", [value]) => ended(value.clone(), None),
        ("data.incr", [Value::Str(key)]) => {
            let number = match get(&held.store, key) {
                None => 0,
                Some(Value::Int(number)) => *number,
                Some(_) => return refused("not a number"),
            };
            match number.checked_add(1) {
                Some(sum) => ended(Value::Int(sum), Some(with(&held.store, key, Value::Int(sum)))),
                None => refused("out of range"),
            }
        }
        _ => refused("bad arguments"),
    }
}

fn run(fun: &str, args: &[Value], held: &Holdings) -> Ran {
    let ran = result(fun, args, held);
    if fits(size(&ran.outcome.value, 32)) && ran.store.as_ref().is_none_or(|store| fits(size_of(store, 32))) {
        ran
    } else {
        refused("result too large")
    }
}

fn one_job(job: &Job, minions: &mut [Minion]) -> Vec<Row> {
    let mut rows = Vec::new();
    for minion in minions {
        if holds(&job.target, minion) {
            let ran = run(&job.fun, &job.args, &minion.held);
            if let Some(store) = ran.store {
                minion.held.store = store;
            }
            rows.push(Row { id: minion.id, outcome: ran.outcome });
        }
    }
    rows
}

fn flat_reports(fleet: &[Minion], jobs: &[Job]) -> Vec<Report> {
    let mut minions = fleet.to_vec();
    jobs.iter()
        .map(|job| Report { jid: job.jid, fun: job.fun.clone(), rows: one_job(job, &mut minions) })
        .collect()
}

fn text(text: &str) -> Value {
    Value::Str(text.to_string())
}

fn minion(n: u32) -> Minion {
    let role = if n % 2 == 0 { "web" } else { "db" };
    let grains = vec![
        ("cpus".to_string(), Value::Int(i64::from(n % 32))),
        ("kernel".to_string(), text("Linux")),
        ("os".to_string(), text("Debian")),
        ("roles".to_string(), Value::List(vec![text("base"), text(role)])),
        ("virtual".to_string(), Value::Flag(n % 5 == 0)),
    ];
    let held = Holdings { grains, pillar: vec![], store: vec![], mine: vec![] };
    Minion { id: Id::of(&format!("minion-{n}.example.net")), held }
}

fn job(what: &str, n: u32) -> Job {
    let target = match what {
        "glob" => Target::IdGlob("minion-*.net".to_string()),
        _ => Target::GrainGlob("os:deb*".split(':').map(str::to_string).collect()),
    };
    Job { jid: u64::from(n), target, fun: "data.incr".to_string(), args: vec![text("hits")] }
}

fn main() {
    for line in std::io::stdin().lock().lines() {
        let line = line.unwrap();
        let words: Vec<&str> = line.split(' ').collect();
        let fleet: Vec<Minion> = (0..words[1].parse().unwrap()).map(minion).collect();
        let jobs: Vec<Job> = (0..words[2].parse().unwrap()).map(|n| job(words[0], n)).collect();
        let reports = flat_reports(&fleet, &jobs);
        let rows = || reports.iter().flat_map(|report| &report.rows).filter(|row| row.outcome.retcode == 0);
        let sum: i64 = rows().map(|row| if let Value::Int(number) = row.outcome.value { number } else { 0 }).sum();
        println!("{} {sum}", rows().count());
    }
}
