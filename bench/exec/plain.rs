// What bench/exec/main.rust does, in plain Rust: one function of a minion so often. A result has the changed part as a map of its own, and
// is tested against the limits of a value.
use std::io::BufRead;

#[derive(Clone, PartialEq)]
#[allow(dead_code)]
enum Value {
    Null,
    Flag(bool),
    Int(i64),
    Str(String),
    List(Vec<Value>),
    Map(Pairs),
}

type Pairs = Vec<(String, Value)>;

struct Holdings {
    grains: Pairs,
    store: Pairs,
}

struct Ran {
    retcode: u8,
    value: Value,
    store: Option<Pairs>,
}

fn size(value: &Value, levels: usize) -> Option<usize> {
    if levels == 0 {
        return None;
    }
    Some(match value {
        Value::Null | Value::Flag(_) => 1,
        Value::Int(_) => 9,
        Value::Str(text) => 5 + text.len(),
        Value::List(items) => {
            let mut all = 5;
            for item in items {
                all += size(item, levels - 1)?;
            }
            all
        }
        Value::Map(pairs) => size_of(pairs, levels)?,
    })
}

fn size_of(pairs: &Pairs, levels: usize) -> Option<usize> {
    let mut all = 5;
    for (key, value) in pairs {
        all += 4 + key.len() + size(value, levels - 1)?;
    }
    Some(all)
}

fn fits(size: Option<usize>) -> bool {
    size.is_some_and(|bytes| bytes <= 65536)
}

fn get<'a>(pairs: &'a Pairs, key: &str) -> Option<&'a Value> {
    pairs.iter().find(|(name, _)| name == key).map(|(_, value)| value)
}

fn at<'a>(pairs: &'a Pairs, path: &str) -> Option<&'a Value> {
    match path.split_once(':') {
        None => get(pairs, path),
        Some((key, rest)) => match get(pairs, key) {
            Some(Value::Map(inner)) => at(inner, rest),
            _ => None,
        },
    }
}

fn with(pairs: &Pairs, key: &str, value: Value) -> Pairs {
    let mut new = Pairs::new();
    new.extend(pairs.iter().filter(|(name, _)| name.as_str() < key).cloned());
    new.push((key.to_string(), value));
    new.extend(pairs.iter().filter(|(name, _)| name.as_str() > key).cloned());
    new
}

fn bad() -> Ran {
    Ran { retcode: 1, value: Value::Str("bad arguments".to_string()), store: None }
}

fn result(fun: &str, args: &[Value], held: &Holdings) -> Ran {
    match (fun, args) {
        ("test.echo", [value]) => Ran { retcode: 0, value: value.clone(), store: None },
        ("grains.get", [Value::Str(path)]) => {
            let value = at(&held.grains, path).cloned().unwrap_or(Value::Str(String::new()));
            Ran { retcode: 0, value, store: None }
        }
        ("data.incr", [Value::Str(key)]) => {
            let number = match get(&held.store, key) {
                None => 0,
                Some(Value::Int(number)) => *number,
                Some(_) => return Ran { retcode: 1, value: Value::Str("not a number".to_string()), store: None },
            };
            match number.checked_add(1) {
                Some(sum) => Ran { retcode: 0, value: Value::Int(sum), store: Some(with(&held.store, key, Value::Int(sum))) },
                None => Ran { retcode: 1, value: Value::Str("out of range".to_string()), store: None },
            }
        }
        _ => bad(),
    }
}

fn run(fun: &str, args: &[Value], held: &Holdings) -> Ran {
    let ran = result(fun, args, held);
    if fits(size(&ran.value, 32)) && ran.store.as_ref().is_none_or(|store| fits(size_of(store, 32))) {
        ran
    } else {
        Ran { retcode: 1, value: Value::Str("result too large".to_string()), store: None }
    }
}

fn pairs(count: u32) -> Pairs {
    (1000..1000 + count).map(|n| (format!("key{n}"), Value::Str(format!("value {n}")))).collect()
}

fn main() {
    for line in std::io::stdin().lock().lines() {
        let line = line.unwrap();
        let (what, times) = line.split_once(' ').unwrap();
        let (fun, args) = match what {
            "incr" => ("data.incr", vec![Value::Str("hits".to_string())]),
            "echo" => ("test.echo", vec![Value::Map(pairs(20))]),
            _ => ("grains.get", vec![Value::Str("key1100".to_string())]),
        };
        let mut held = Holdings { grains: pairs(200), store: Pairs::new() };
        let mut good = 0u64;
        for _ in 0..times.parse::<u32>().unwrap() {
            let ran = run(fun, &args, &held);
            good += u64::from(ran.retcode == 0);
            if let Some(store) = ran.store {
                held.store = store;
            }
        }
        println!("{good}");
    }
}
