// The same decisions in plain Rust, with the crate regex: compiled once, and a pattern holds where its first match begins at 0.
use regex::Regex;
use std::time::Instant;

enum Value {
    Flag(bool),
    Int(i64),
    Str(String),
    List(Vec<Value>),
    Map(Vec<(String, Value)>),
}

enum Target {
    IdGlob(String),
    IdList(Vec<String>),
    IdPcre(Regex),
    GrainGlob(Vec<String>),
    GrainPcre(Vec<String>, Regex),
    Not(Box<Target>),
    And(Box<Target>, Box<Target>),
    Or(Box<Target>, Box<Target>),
}

struct Minion {
    id: String,
    grains: Vec<(String, Value)>,
}

fn glob(pattern: &[u8], text: &[u8], caseless: bool) -> bool {
    let fold = |b: u8| if caseless { b.to_ascii_lowercase() } else { b };
    let (mut p, mut t) = (0, 0);
    let mut star: Option<(usize, usize)> = None;
    while t < text.len() {
        if p < pattern.len() && pattern[p] == b'*' {
            star = Some((p + 1, t));
            p += 1;
        } else if p < pattern.len() && (pattern[p] == b'?' || fold(pattern[p]) == fold(text[t])) {
            p += 1;
            t += 1;
        } else if let Some((after, from)) = star {
            star = Some((after, from + 1));
            p = after;
            t = from + 1;
        } else {
            return false;
        }
    }
    pattern[p..].iter().all(|b| *b == b'*')
}

fn scalar(value: &Value, test: &mut dyn FnMut(&str) -> bool) -> bool {
    match value {
        Value::Flag(flag) => test(if *flag { "True" } else { "False" }),
        Value::Int(number) => test(&number.to_string()),
        Value::Str(text) => test(text),
        _ => false,
    }
}

fn meets(value: &Value, parts: &[String]) -> bool {
    match value {
        Value::List(items) => items.iter().any(|item| meets(item, parts)),
        Value::Map(pairs) => meets_map(pairs, parts),
        _ if parts.len() == 1 => scalar(value, &mut |text| glob(parts[0].as_bytes(), text.as_bytes(), true)),
        _ => {
            let joined = parts.join(":");
            scalar(value, &mut |text| glob(joined.as_bytes(), text.as_bytes(), true))
        }
    }
}

fn meets_map(pairs: &[(String, Value)], parts: &[String]) -> bool {
    if parts.len() == 1 {
        return pairs.iter().any(|(key, _)| glob(parts[0].as_bytes(), key.as_bytes(), true));
    }
    pairs.iter().find(|(key, _)| *key == parts[0]).is_some_and(|(_, child)| meets(child, &parts[1..]))
}

fn starts(regex: &Regex, text: &str) -> bool {
    regex.find(text).is_some_and(|found| found.start() == 0)
}

fn reached(regex: &Regex, value: &Value, path: &[String]) -> bool {
    match value {
        Value::List(items) => items.iter().any(|item| reached(regex, item, path)),
        Value::Map(pairs) => reached_map(regex, pairs, path),
        _ => path.is_empty() && scalar(value, &mut |text| starts(regex, text)),
    }
}

fn reached_map(regex: &Regex, pairs: &[(String, Value)], path: &[String]) -> bool {
    if path.is_empty() {
        return pairs.iter().any(|(key, _)| starts(regex, key));
    }
    pairs.iter().find(|(key, _)| *key == path[0]).is_some_and(|(_, child)| reached(regex, child, &path[1..]))
}

fn holds(target: &Target, minion: &Minion) -> bool {
    match target {
        Target::IdGlob(text) => glob(text.as_bytes(), minion.id.as_bytes(), false),
        Target::IdList(ids) => ids.iter().any(|id| *id == minion.id),
        Target::IdPcre(regex) => starts(regex, &minion.id),
        Target::GrainGlob(parts) => meets_map(&minion.grains, parts),
        Target::GrainPcre(path, regex) => reached_map(regex, &minion.grains, path),
        Target::Not(one) => !holds(one, minion),
        Target::And(left, right) => holds(left, minion) && holds(right, minion),
        Target::Or(left, right) => holds(left, minion) || holds(right, minion),
    }
}

fn text(text: &str) -> Value {
    Value::Str(text.to_string())
}

fn minion(n: usize) -> Minion {
    let role = ["web", "db", "cache", "mail"][n % 4];
    let net = vec![("eth0".to_string(), text("10.0.0.1")), ("lo".to_string(), text("127.0.0.1"))];
    let grains = vec![
        ("cpus", Value::Int(n as i64 % 32)),
        ("domain", text("example.net")),
        ("env", text(if n % 2 == 0 { "prod" } else { "staging" })),
        ("ip_net", Value::Map(net)),
        ("kernel", text("Linux")),
        ("mem", Value::Int(4096)),
        ("os", text(["Debian", "Arch", "Ubuntu"][n % 3])),
        ("osrelease", text("12")),
        ("roles", Value::List(vec![text("base"), text(role)])),
        ("virtual", Value::Flag(n % 5 == 0)),
    ];
    let grains = grains.into_iter().map(|(key, value)| (key.to_string(), value)).collect();
    Minion { id: format!("{role}-{n}.example.net"), grains }
}

fn time(name: &str, target: &Target, minions: &[Minion]) {
    let mut least = u128::MAX;
    let mut count = 0;
    for _ in 0..20 {
        let start = Instant::now();
        count = minions.iter().filter(|minion| holds(std::hint::black_box(target), minion)).count();
        least = least.min(start.elapsed().as_nanos());
    }
    println!("{name}: {count} held, {} ns each", least / 4096);
}

fn parts(text: &str) -> Vec<String> {
    text.split(':').map(str::to_string).collect()
}

fn main() {
    let minions: Vec<Minion> = (1000..5096).map(minion).collect();
    let ids = (0..500).map(|n| minion(1000 + 8 * n).id).collect();
    let id_glob = |text: &str| Box::new(Target::IdGlob(text.to_string()));
    let grain = |text: &str| Box::new(Target::GrainGlob(parts(text)));
    let regex = |text: &str| Regex::new(text).unwrap();
    let words = Target::Or(
        Box::new(Target::Or(
            Box::new(Target::And(id_glob("web-*"), grain("os:debian"))),
            Box::new(Target::And(
                Box::new(Target::IdList(parts("a:b"))),
                Box::new(Target::Not(grain("env:prod"))),
            )),
        )),
        id_glob("mail-*"),
    );
    time("list of 500 ids", &Target::IdList(ids), &minions);
    time("web-*.example.net", &id_glob("web-*.example.net"), &minions);
    time("os:deb*", &grain("os:deb*"), &minions);
    time("roles:web", &grain("roles:web"), &minions);
    time("web-* and G@os:debian or L@a,b and not G@env:prod or mail-*", &words, &minions);
    time("os:(?:Deb|Ub).*", &Target::GrainPcre(parts("os"), regex("(?:Deb|Ub).*")), &minions);
    let id_pattern = "web-1[0-9]+\\.example\\.(?:net|org)";
    time(id_pattern, &Target::IdPcre(regex(id_pattern)), &minions);
    time(".*7\\.example", &Target::IdPcre(regex(".*7\\.example")), &minions);
}
