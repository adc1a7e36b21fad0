//! `event_files FILE`: the trace that `rsml simulate` writes of an event file for the specification of bench/event_files.sh, in plain
//! Rust. Its receives are written out here, and nothing in it reacts.

use std::collections::HashMap;
use std::fs::File;
use std::io::{BufRead, BufReader, BufWriter, Read, Write};

const LINE: usize = 4_096;
const FILE: u64 = 4_294_967_296;

enum Kind {
    Range(i64, i64),
    Names(HashMap<&'static [u8], i64>),
}

struct Form {
    first: u32,
    size: Option<u32>,
    fields: Vec<(&'static [u8], usize)>,
}

struct Forms {
    kinds: Vec<Kind>,
    receives: HashMap<&'static [u8], Form>,
}

enum Fault {
    NotUtf8,
    UnknownInterface,
    BadIndex,
    WrongField,
    ExtraWord,
    NotAValue,
    OutOfRange,
}

fn forms() -> Forms {
    let names = HashMap::from([(&b"Down"[..], 0), (&b"Up"[..], 1)]);
    let set = Form { first: 0, size: None, fields: vec![(b"Lever", 0)] };
    let fill = Form { first: 1, size: Some(4), fields: vec![(b"Depth", 1)] };
    Forms {
        kinds: vec![Kind::Names(names), Kind::Range(0, 999)],
        receives: HashMap::from([(&b"Set"[..], set), (&b"Fill"[..], fill)]),
    }
}

fn digits(text: &[u8]) -> Option<u64> {
    if text.is_empty() {
        return None;
    }
    let mut number: u64 = 0;
    for digit in text {
        if !digit.is_ascii_digit() {
            return None;
        }
        number = number.saturating_mul(10).saturating_add(u64::from(digit - b'0'));
    }
    Some(number)
}

fn signed(text: &[u8]) -> Option<i128> {
    match text.strip_prefix(b"-") {
        Some(rest) => Some(-i128::from(digits(rest)?)),
        None => Some(i128::from(digits(text)?)),
    }
}

fn value(kind: &Kind, text: &[u8]) -> Result<i64, Fault> {
    match kind {
        Kind::Names(names) => names.get(text).copied().ok_or(Fault::NotAValue),
        Kind::Range(low, high) => {
            let number = signed(text).ok_or(Fault::NotAValue)?;
            if i128::from(*low) <= number && number <= i128::from(*high) {
                Ok(number as i64)
            } else {
                Err(Fault::OutOfRange)
            }
        }
    }
}

fn index(size: Option<u32>, text: &[u8]) -> Option<u32> {
    match size {
        None => text.is_empty().then_some(0),
        Some(size) => {
            let inner = text.strip_prefix(b"[")?.strip_suffix(b"]")?;
            let index = digits(inner)?;
            (1 <= index && index <= u64::from(size)).then_some(index as u32)
        }
    }
}

fn read_line(forms: &Forms, line: &[u8], values: &mut [i64]) -> Result<u32, Fault> {
    std::str::from_utf8(line).map_err(|_| Fault::NotUtf8)?;
    let mut words = line.split(|byte| *byte == b' ' || *byte == b'\t').filter(|word| !word.is_empty());
    let first = words.next().ok_or(Fault::UnknownInterface)?;
    let width = first.iter().position(|byte| *byte == b'[').unwrap_or(first.len());
    let form = forms.receives.get(&first[..width]).ok_or(Fault::UnknownInterface)?;
    let index = index(form.size, &first[width..]).ok_or(Fault::BadIndex)?;
    let mut lowest = None;
    for (place, (name, kind)) in form.fields.iter().enumerate() {
        let word = words.next().ok_or(Fault::WrongField)?;
        let text = word.strip_prefix(*name).and_then(|rest| rest.strip_prefix(b"=")).ok_or(Fault::WrongField)?;
        match value(&forms.kinds[*kind], text) {
            Ok(number) => values[place] = number,
            Err(fault) => match lowest {
                Some(Fault::NotAValue) => {}
                _ => lowest = Some(fault),
            },
        }
    }
    if words.next().is_some() {
        return Err(Fault::ExtraWord);
    }
    match lowest {
        None => Ok(form.first + index.saturating_sub(1)),
        Some(fault) => Err(fault),
    }
}

fn skipped(line: &[u8]) -> bool {
    match line.iter().find(|byte| **byte != b' ' && **byte != b'\t') {
        Some(byte) => *byte == b'#',
        None => true,
    }
}

fn rule(fault: Fault) -> &'static str {
    match fault {
        Fault::NotUtf8 => "E1",
        Fault::UnknownInterface => "E2",
        Fault::BadIndex => "E3",
        Fault::WrongField => "E4",
        Fault::ExtraWord => "E5",
        Fault::NotAValue => "E6",
        Fault::OutOfRange => "E7",
    }
}

fn main() -> std::io::Result<()> {
    let name = std::env::args().nth(1).expect("FILE");
    let forms = forms();
    let mut reader = BufReader::with_capacity(16_384, File::open(name)?);
    let mut out = BufWriter::with_capacity(16_384, std::io::stdout().lock());
    let (mut lines, mut events, mut at) = (0_u64, 0_u64, 0_u64);
    let (mut buffer, mut values, mut cells) = (Vec::new(), [0_i64; 1], [0_i64; 5]);
    loop {
        buffer.clear();
        let read = reader.by_ref().take(LINE as u64 + 1).read_until(b'\n', &mut buffer)?;
        if read == 0 {
            return writeln!(out, "end {events}");
        }
        lines += 1;
        let line = buffer.strip_suffix(b"\n").unwrap_or(&buffer);
        if line.len() > LINE {
            return writeln!(out, "fault line {lines} long");
        }
        at += read as u64;
        if at > FILE {
            return writeln!(out, "fault long");
        }
        let line = line.strip_suffix(b"\r").unwrap_or(line);
        if skipped(line) {
            continue;
        }
        match read_line(&forms, line, &mut values) {
            Ok(receive) => {
                events += 1;
                cells[receive as usize] = values[0];
                match receive {
                    0 => writeln!(out, "event {events} Set\n  round 1 Tick")?,
                    index => writeln!(out, "event {events} Fill[{index}]\n  round 1 Tick")?,
                }
            }
            Err(fault) => return writeln!(out, "fault line {lines} {}", rule(fault)),
        }
    }
}
