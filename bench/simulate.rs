//! Three simulators in plain Rust, each written for one specification. They read an event file line by line and write its trace, both
//! through buffers. A line that they can't read ends them.
//! `simulate lamp|tcas|demo EVENTS [UNITS]`

use std::fs::File;
use std::io::{self, BufRead, BufReader, BufWriter, Write};
use std::process::ExitCode;

type Out = BufWriter<io::StdoutLock<'static>>;

/// The words of an event line, the first of them apart.
struct Message<'l> {
    interface: &'l [u8],
    index: usize,
    fields: std::slice::Split<'l, u8, fn(&u8) -> bool>,
}

fn is_blank(byte: &u8) -> bool {
    *byte == b' ' || *byte == b'\t'
}

fn number(text: &[u8]) -> Option<i64> {
    let (minus, digits) = match text.strip_prefix(b"-") {
        Some(digits) => (true, digits),
        None => (false, text),
    };
    if digits.is_empty() || digits.len() > 18 || !digits.iter().all(u8::is_ascii_digit) {
        return None;
    }
    let value = digits.iter().fold(0, |value, digit| 10 * value + i64::from(digit - b'0'));
    Some(if minus { -value } else { value })
}

impl<'l> Message<'l> {
    /// The message of a line, or none where it is skipped.
    fn read(line: &'l [u8]) -> Option<Self> {
        let first = line.iter().position(|byte| !is_blank(byte))?;
        let line = &line[first..];
        if line[0] == b'#' {
            return None;
        }
        let mut fields = line.split(is_blank as fn(&u8) -> bool);
        let word = fields.next()?;
        let (interface, index) = match word.strip_suffix(b"]") {
            None => (word, 0),
            Some(open) => {
                let at = open.iter().position(|byte| *byte == b'[')?;
                (&open[..at], number(&open[at + 1..])? as usize)
            }
        };
        Some(Message { interface, index, fields })
    }

    /// The value of the next field, which has this name.
    fn field(&mut self, name: &[u8]) -> Option<&'l [u8]> {
        let word = self.fields.find(|word| !word.is_empty())?;
        word.strip_prefix(name)?.strip_prefix(b"=")
    }

    /// The number of the next field, which has this name and is in this range.
    fn number(&mut self, name: &[u8], low: i64, high: i64) -> Option<i64> {
        let value = number(self.field(name)?)?;
        (low <= value && value <= high).then_some(value)
    }

    /// Whether the line has no more fields.
    fn is_read(&mut self) -> bool {
        self.fields.all(<[u8]>::is_empty)
    }
}

fn put_number(out: &mut Out, number: i64) -> io::Result<()> {
    let mut digits = [0; 20];
    let mut at = digits.len();
    let mut left = number.unsigned_abs();
    loop {
        at -= 1;
        digits[at] = b'0' + (left % 10) as u8;
        left /= 10;
        if left == 0 {
            break;
        }
    }
    if number < 0 {
        out.write_all(b"-")?;
    }
    out.write_all(&digits[at..])
}

fn put_event(out: &mut Out, event: u64, interface: &[u8], index: usize) -> io::Result<()> {
    out.write_all(b"event ")?;
    put_number(out, event as i64)?;
    out.write_all(b" ")?;
    out.write_all(interface)?;
    if index > 0 {
        out.write_all(b"[")?;
        put_number(out, index as i64)?;
        out.write_all(b"]")?;
    }
    out.write_all(b"\n")
}

/// The transition of something that was on or off and now is, as a label has it. All three machines have these four.
fn switched(was_on: bool, is_on: bool) -> &'static [u8] {
    match (was_on, is_on) {
        (false, true) => b"1 move Off -> On\n",
        (false, false) => b"2 stay Off\n",
        (true, false) => b"3 move On -> Off\n",
        (true, true) => b"4 stay On\n",
    }
}

/// A machine that follows messages: it writes what one does, or answers that it can't read it.
trait Machine {
    fn follow(&mut self, out: &mut Out, event: u64, message: Message<'_>) -> io::Result<bool>;
}

#[derive(Default)]
struct Lamp {
    is_on: bool,
}

impl Machine for Lamp {
    fn follow(&mut self, out: &mut Out, event: u64, mut message: Message<'_>) -> io::Result<bool> {
        let up = match (message.interface, message.field(b"Lever")) {
            (b"Set", Some(b"Up")) => true,
            (b"Set", Some(b"Down")) => false,
            _ => return Ok(false),
        };
        if !message.is_read() {
            return Ok(false);
        }
        put_event(out, event, b"Set", 0)?;
        out.write_all(b"  round 1 Tick\n    take Lamp ")?;
        out.write_all(switched(self.is_on, up))?;
        self.is_on = up;
        Ok(true)
    }
}

#[derive(Clone, Copy, PartialEq, Eq)]
enum Place {
    Far,
    Near,
    Threat,
}

impl Place {
    fn name(self) -> &'static [u8] {
        match self {
            Place::Far => b"Far",
            Place::Near => b"Near",
            Place::Threat => b"Threat",
        }
    }
}

struct Tcas {
    is_on: bool,
    height: i64,
    others: [Place; 30],
}

impl Tcas {
    fn new() -> Self {
        Tcas { is_on: false, height: 0, others: [Place::Far; 30] }
    }

    fn select(&mut self, out: &mut Out, event: u64, active: bool, height: i64) -> io::Result<bool> {
        put_event(out, event, b"Pilot", 0)?;
        out.write_all(b"  round 1 Own\n    take Tcas.Mode ")?;
        out.write_all(switched(self.is_on, active))?;
        let shows = self.is_on || active;
        self.is_on = active;
        self.height = height;
        if shows {
            self.show(out)?;
        }
        Ok(true)
    }

    fn scan(&mut self, out: &mut Out, event: u64, index: usize, tau: i64) -> io::Result<bool> {
        put_event(out, event, b"Radar", index)?;
        out.write_all(b"  round 1 Scan[")?;
        put_number(out, index as i64)?;
        out.write_all(b"]\n    take Tcas.Other[")?;
        put_number(out, index as i64)?;
        let is_enabled = self.is_on && self.height >= 1000;
        let (next, rest) = match () {
            _ if is_enabled && tau < 25 => (Place::Threat, b"] 1 move ".as_slice()),
            _ if is_enabled && tau < 40 => (Place::Near, b"] 2 move ".as_slice()),
            _ => (Place::Far, b"] 3 move ".as_slice()),
        };
        out.write_all(rest)?;
        let place = &mut self.others[index - 1];
        out.write_all(place.name())?;
        out.write_all(b" -> ")?;
        out.write_all(next.name())?;
        out.write_all(b"\n")?;
        *place = next;
        self.show(out)?;
        Ok(true)
    }

    fn show(&self, out: &mut Out) -> io::Result<()> {
        out.write_all(b"  round 2 Show\n    send Display Advice=")?;
        out.write_all(match () {
            _ if self.others.contains(&Place::Threat) => b"Resolution".as_slice(),
            _ if self.others.contains(&Place::Near) => b"Traffic",
            _ => b"Clear",
        })?;
        out.write_all(b" Height=")?;
        put_number(out, self.height)?;
        out.write_all(b"\n")
    }
}

impl Machine for Tcas {
    fn follow(&mut self, out: &mut Out, event: u64, mut message: Message<'_>) -> io::Result<bool> {
        if message.interface == b"Radar" {
            let index = message.index;
            match message.number(b"Tau", 0, 255) {
                Some(tau) if 1 <= index && index <= 30 && message.is_read() => self.scan(out, event, index, tau),
                _ => Ok(false),
            }
        } else {
            let active = message.field(b"Selector") == Some(b"Active");
            match message.number(b"Own_Alt", -1000, 60000) {
                Some(height) if message.interface == b"Pilot" && message.is_read() => self.select(out, event, active, height),
                _ => Ok(false),
            }
        }
    }
}

struct Demo {
    depths: Vec<i64>,
    are_on: Vec<bool>,
    names: Vec<Vec<u8>>,
}

impl Demo {
    fn new(units: usize) -> Self {
        Demo {
            depths: vec![0; units],
            are_on: vec![false; units],
            names: (1..=units).map(|unit| format!("    take Plant.Unit[{unit}] ").into_bytes()).collect(),
        }
    }
}

impl Machine for Demo {
    fn follow(&mut self, out: &mut Out, event: u64, mut message: Message<'_>) -> io::Result<bool> {
        let index = message.index;
        if message.interface != b"Load" || index < 1 || index > self.depths.len() {
            return Ok(false);
        }
        let depth = match message.number(b"Depth", 0, 999) {
            Some(depth) if message.is_read() => depth,
            _ => return Ok(false),
        };
        self.depths[index - 1] = depth;
        put_event(out, event, b"Load", index)?;
        out.write_all(b"  round 1 Go\n")?;
        let leaves = self.are_on.iter().all(|on| *on) || self.depths.iter().all(|depth| *depth < 500);
        for ((on, depth), name) in self.are_on.iter_mut().zip(&self.depths).zip(&self.names) {
            out.write_all(name)?;
            let next = if *on { !leaves } else { *depth >= 500 };
            out.write_all(switched(*on, next))?;
            *on = next;
        }
        Ok(true)
    }
}

/// Follows the lines of a file to its end; false at a line that it can't read.
fn follow_all(machine: &mut dyn Machine, name: &str) -> io::Result<bool> {
    let mut file = BufReader::with_capacity(65536, File::open(name)?);
    let mut out = BufWriter::with_capacity(65536, io::stdout().lock());
    let mut line = Vec::new();
    let mut events = 0;
    while file.read_until(b'\n', &mut line)? > 0 {
        let text = line.strip_suffix(b"\n").unwrap_or(&line);
        let text = text.strip_suffix(b"\r").unwrap_or(text);
        if let Some(message) = Message::read(text) {
            events += 1;
            if !machine.follow(&mut out, events, message)? {
                out.flush()?;
                return Ok(false);
            }
        }
        line.clear();
    }
    out.write_all(b"end ")?;
    put_number(&mut out, events as i64)?;
    out.write_all(b"\n")?;
    out.flush()?;
    Ok(true)
}

fn main() -> ExitCode {
    let words: Vec<String> = std::env::args().skip(1).collect();
    let units = words.get(2).and_then(|units| units.parse().ok()).unwrap_or(64);
    let mut machine: Box<dyn Machine> = match words.first().map(String::as_str) {
        Some("lamp") => Box::new(Lamp::default()),
        Some("tcas") => Box::new(Tcas::new()),
        Some("demo") => Box::new(Demo::new(units)),
        _ => return ExitCode::from(4),
    };
    let name = words.get(1).map_or("", String::as_str);
    match follow_all(machine.as_mut(), name) {
        Ok(true) => ExitCode::SUCCESS,
        Ok(false) => ExitCode::from(3),
        Err(_) => ExitCode::from(5),
    }
}
