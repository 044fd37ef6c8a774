// The same in plain Rust, with the crate byteorder and the same owned values, limits and faults.
use byteorder::{BigEndian, ByteOrder, WriteBytesExt};
use std::time::Instant;

enum Value {
    Null,
    Flag(bool),
    Int(i64),
    Str(String),
    List(Vec<Value>),
    Map(Vec<(String, Value)>),
}

#[derive(Debug)]
enum Fault {
    Short,
    BadTag,
    Unsorted,
    NotUtf8,
    TooDeep,
}

fn put_text(out: &mut Vec<u8>, text: &str) {
    out.write_u32::<BigEndian>(text.len() as u32).unwrap();
    out.extend_from_slice(text.as_bytes());
}

fn write(value: &Value, out: &mut Vec<u8>) {
    match value {
        Value::Null => out.push(0),
        Value::Flag(flag) => out.push(1 + *flag as u8),
        Value::Int(number) => {
            out.push(3);
            out.write_i64::<BigEndian>(*number).unwrap();
        }
        Value::Str(text) => {
            out.push(4);
            put_text(out, text);
        }
        Value::List(items) => {
            out.push(5);
            out.write_u32::<BigEndian>(items.len() as u32).unwrap();
            for item in items {
                write(item, out);
            }
        }
        Value::Map(pairs) => {
            out.push(6);
            out.write_u32::<BigEndian>(pairs.len() as u32).unwrap();
            for (key, value) in pairs {
                put_text(out, key);
                write(value, out);
            }
        }
    }
}

fn count(bytes: &[u8]) -> Result<(usize, &[u8]), Fault> {
    if bytes.len() < 4 {
        return Err(Fault::Short);
    }
    Ok((BigEndian::read_u32(bytes) as usize, &bytes[4..]))
}

fn text(bytes: &[u8]) -> Result<(String, &[u8]), Fault> {
    let (length, rest) = count(bytes)?;
    if rest.len() < length {
        return Err(Fault::Short);
    }
    let (front, after) = rest.split_at(length);
    let text = std::str::from_utf8(front).map_err(|_| Fault::NotUtf8)?;
    Ok((text.to_owned(), after))
}

fn read(levels: usize, bytes: &[u8]) -> Result<(Value, &[u8]), Fault> {
    if levels == 0 {
        return Err(Fault::TooDeep);
    }
    let (tag, rest) = bytes.split_first().ok_or(Fault::Short)?;
    Ok(match tag {
        0 => (Value::Null, rest),
        1 => (Value::Flag(false), rest),
        2 => (Value::Flag(true), rest),
        3 => {
            if rest.len() < 8 {
                return Err(Fault::Short);
            }
            (Value::Int(BigEndian::read_i64(rest)), &rest[8..])
        }
        4 => {
            let (text, rest) = text(rest)?;
            (Value::Str(text), rest)
        }
        5 => {
            let (count, mut rest) = count(rest)?;
            let mut items = Vec::new();
            for _ in 0..count {
                let (item, after) = read(levels - 1, rest)?;
                items.push(item);
                rest = after;
            }
            (Value::List(items), rest)
        }
        6 => {
            let (count, mut rest) = count(rest)?;
            let mut pairs: Vec<(String, Value)> = Vec::new();
            for _ in 0..count {
                let (key, after) = text(rest)?;
                if pairs.last().is_some_and(|last| last.0 >= key) {
                    return Err(Fault::Unsorted);
                }
                let (value, after) = read(levels - 1, after)?;
                pairs.push((key, value));
                rest = after;
            }
            (Value::Map(pairs), rest)
        }
        _ => return Err(Fault::BadTag),
    })
}

fn map() -> Value {
    Value::Map(
        (10..30)
            .map(|n| {
                let value = if n % 2 == 0 { Value::Int(n) } else { Value::Str(format!("value {n}")) };
                (format!("key{n}"), value)
            })
            .collect(),
    )
}

fn time(name: &str, value: &Value, times: u32) {
    let mut out = Vec::new();
    let mut bytes = 0;
    let start = Instant::now();
    for _ in 0..times {
        out.clear();
        write(std::hint::black_box(value), &mut out);
        bytes += out.len();
    }
    let writes = start.elapsed().as_nanos() / times as u128;
    let start = Instant::now();
    let mut taken = 0;
    for _ in 0..times {
        let (value, rest) = read(32, std::hint::black_box(&out)).unwrap();
        std::hint::black_box(&value);
        taken += out.len() - rest.len();
    }
    let reads = start.elapsed().as_nanos() / times as u128;
    println!("{name}: write {writes} ns, read {reads} ns ({bytes} {taken})");
}

fn main() {
    let (small, large) = (map(), Value::List((0..151).map(|_| map()).collect()));
    for _ in 0..5 {
        time("map of 20 pairs", &small, 100_000);
        time("list of 151 maps", &large, 1_000);
    }
}
