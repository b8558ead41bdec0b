//! The original crate `gix-refspec` behind the words of `refspec_map`: `canon fetch`, `canon push`, `lhs`, `rhs` and `plan`.
//!
//! Where the crate panics, it prints the one line `panic`, and the status is 101.
use std::io::{Read, Write};

use bstr::{BStr, ByteSlice};
use gix_hash::ObjectId;
use gix_refspec::match_group::validate::{Fix, Issue};
use gix_refspec::match_group::{Item, Mapping, SourceRef};
use gix_refspec::parse::{Error, Operation};
use gix_refspec::{MatchGroup, RefSpecRef};

const LIMIT: u64 = 1_048_576;
const USAGE: &str = "usage: refspec_map canon fetch | canon push | lhs | rhs | plan";

fn variant(e: &Error) -> &'static str {
    match e {
        Error::Empty => "Empty",
        Error::NegativeWithDestination => "NegativeWithDestination",
        Error::NegativeEmpty => "NegativeEmpty",
        Error::NegativeObjectHash => "NegativeObjectHash",
        Error::NegativePartialName => "NegativePartialName",
        Error::NegativeGlobPattern => "NegativeGlobPattern",
        Error::InvalidFetchDestination => "InvalidFetchDestination",
        Error::PushToEmpty => "PushToEmpty",
        Error::PatternUnsupported { .. } => "PatternUnsupported",
        Error::PatternUnbalanced => "PatternUnbalanced",
        Error::ReferenceName(_) => "ReferenceName",
    }
}

/// What is written, and the status.
type Answer = (Vec<u8>, u8);

fn lines(input: &[u8]) -> impl Iterator<Item = &[u8]> {
    let mut rest = input;
    std::iter::from_fn(move || {
        if rest.is_empty() {
            return None;
        }
        match rest.find_byte(b'\n') {
            Some(n) => {
                let line = &rest[..n];
                rest = &rest[n + 1..];
                Some(line)
            }
            None => Some(std::mem::take(&mut rest)),
        }
    })
}

fn per_spec(input: &[u8], op: Operation, f: impl Fn(RefSpecRef<'_>, &mut Vec<u8>)) -> Answer {
    let (mut out, mut status) = (Vec::new(), 0);
    for line in lines(input) {
        match gix_refspec::parse(line.as_bstr(), op) {
            Ok(spec) => f(spec, &mut out),
            Err(e) => {
                status = 1;
                out.extend_from_slice(b"err ");
                out.extend_from_slice(variant(&e).as_bytes());
            }
        }
        out.push(b'\n');
    }
    (out, status)
}

struct Row<'a> {
    name: &'a BStr,
    target: ObjectId,
    object: Option<ObjectId>,
}

enum Line<'a> {
    Spec(&'a BStr),
    Row(Row<'a>),
}

fn word(text: &[u8]) -> Option<(&[u8], &[u8])> {
    let n = text.find_byte(b' ')?;
    Some((&text[..n], &text[n + 1..]))
}

fn read_line(line: &[u8]) -> Option<Line<'_>> {
    let (key, rest) = word(line)?;
    match key {
        b"spec" => Some(Line::Spec(rest.as_bstr())),
        b"ref" => {
            let (hex, name) = word(rest)?;
            let target = ObjectId::from_hex(hex).ok()?;
            Some(Line::Row(Row { name: name.as_bstr(), target, object: None }))
        }
        b"tag" => {
            let (hex, rest) = word(rest)?;
            let target = ObjectId::from_hex(hex).ok()?;
            let (hex, name) = word(rest)?;
            let object = Some(ObjectId::from_hex(hex).ok()?);
            Some(Line::Row(Row { name: name.as_bstr(), target, object }))
        }
        _ => None,
    }
}

fn group(input: &[u8], op: Operation) -> Result<(MatchGroup<'_>, Vec<Row<'_>>), Answer> {
    let (mut specs, mut rows) = (Vec::new(), Vec::new());
    for (n, line) in lines(input).enumerate() {
        match read_line(line) {
            None => return Err((format!("line {} is malformed\n", n + 1).into_bytes(), 1)),
            Some(Line::Spec(text)) => match gix_refspec::parse(text, op) {
                Ok(spec) => specs.push(spec),
                Err(e) => return Err((format!("line {}: {}\n", n + 1, variant(&e)).into_bytes(), 1)),
            },
            Some(Line::Row(row)) => rows.push(row),
        }
    }
    let group = match op {
        Operation::Fetch => MatchGroup::from_fetch_specs(specs),
        Operation::Push => MatchGroup::from_push_specs(specs),
    };
    Ok((group, rows))
}

fn items<'a>(rows: &'a [Row<'a>]) -> impl Iterator<Item = Item<'a>> + Clone {
    rows.iter().map(|r| Item {
        full_ref_name: r.name,
        target: &r.target,
        object: r.object.as_deref(),
    })
}

fn source(out: &mut Vec<u8>, s: &SourceRef<'_>) {
    match s {
        SourceRef::FullName(n) => out.extend_from_slice(n),
        SourceRef::ObjectId(id) => write!(out, "{id}").expect("memory"),
    }
}

fn map(out: &mut Vec<u8>, m: &Mapping<'_, '_>) {
    write!(out, "map\t{}\t", m.spec_index).expect("memory");
    match m.item_index {
        Some(i) => write!(out, "{i}").expect("memory"),
        None => out.push(b'-'),
    }
    out.push(b'\t');
    source(out, &m.lhs);
    if let Some(rhs) = &m.rhs {
        out.push(b'\t');
        out.extend_from_slice(rhs);
    }
    out.push(b'\n');
}

fn maps(mappings: &[Mapping<'_, '_>]) -> Answer {
    let mut out = Vec::new();
    mappings.iter().for_each(|m| map(&mut out, m));
    (out, 0)
}

fn lhs(input: &[u8], op: Operation) -> Answer {
    match group(input, op) {
        Ok((group, rows)) => maps(&group.match_lhs(items(&rows)).mappings),
        Err(a) => a,
    }
}

fn rhs(input: &[u8], op: Operation) -> Answer {
    match group(input, op) {
        Ok((group, rows)) => maps(&group.match_rhs(items(&rows)).mappings),
        Err(a) => a,
    }
}

fn plan(input: &[u8], op: Operation) -> Answer {
    let (group, rows) = match group(input, op) {
        Ok(x) => x,
        Err(a) => return a,
    };
    let mut out = Vec::new();
    match group.match_lhs(items(&rows)).validated() {
        Ok((outcome, fixes)) => {
            outcome.mappings.iter().for_each(|m| map(&mut out, m));
            for fix in &fixes {
                let Fix::MappingWithPartialDestinationRemoved { name, spec } = fix;
                out.extend_from_slice(b"fix\t");
                out.extend_from_slice(name);
                out.push(b'\t');
                out.extend_from_slice(&spec.to_ref().to_bstring());
                out.push(b'\n');
            }
            (out, 0)
        }
        Err(e) => {
            for issue in &e.issues {
                let Issue::Conflict { destination_full_ref_name, sources, specs } = issue;
                out.extend_from_slice(b"conflict\t");
                out.extend_from_slice(destination_full_ref_name);
                for (s, spec) in sources.iter().zip(specs) {
                    out.push(b'\t');
                    source(&mut out, s);
                    out.push(b'\t');
                    out.extend_from_slice(spec);
                }
                out.push(b'\n');
            }
            (out, 1)
        }
    }
}

fn canon(input: &[u8], op: Operation) -> Answer {
    per_spec(input, op, |spec, out| {
        out.extend_from_slice(b"ok ");
        out.extend_from_slice(&spec.to_bstring());
    })
}

type Command = Box<dyn Fn(&[u8]) -> Answer>;

fn command(words: &[&str]) -> Option<Command> {
    let op = |w: &str| match w {
        "fetch" => Some(Operation::Fetch),
        "push" => Some(Operation::Push),
        _ => None,
    };
    Some(match *words {
        ["canon", w] => {
            let op = op(w)?;
            Box::new(move |i| canon(i, op))
        }
        ["lhs"] => Box::new(|i| lhs(i, Operation::Fetch)),
        ["rhs"] => Box::new(|i| rhs(i, Operation::Fetch)),
        ["plan"] => Box::new(|i| plan(i, Operation::Fetch)),
        _ => return None,
    })
}

/// The command's answer, or that it panicked.
fn guarded(run: &dyn Fn(&[u8]) -> Answer, input: &[u8]) -> Answer {
    std::panic::catch_unwind(std::panic::AssertUnwindSafe(|| run(input))).unwrap_or((b"panic\n".to_vec(), 101))
}

fn main() {
    let words: Vec<String> = std::env::args_os().skip(1).map(|w| w.to_string_lossy().into_owned()).collect();
    let words: Vec<&str> = words.iter().map(String::as_str).collect();
    let Some(run) = command(&words) else {
        println!("{USAGE}");
        std::process::exit(2);
    };
    let mut input = Vec::new();
    // Reading may stop as soon as one byte too many has come.
    let read = std::io::stdin().lock().take(LIMIT + 1).read_to_end(&mut input);
    let (out, status) = if read.is_err() {
        (b"read failed\n".to_vec(), 3)
    } else if input.len() as u64 > LIMIT {
        (b"input too long\n".to_vec(), 3)
    } else {
        std::panic::set_hook(Box::new(|_| {})); // no message of a panic
        guarded(&*run, &input)
    };
    let mut stdout = std::io::stdout().lock();
    if stdout.write_all(&out).and_then(|()| stdout.flush()).is_err() {
        std::process::exit(3);
    }
    std::process::exit(i32::from(status));
}
