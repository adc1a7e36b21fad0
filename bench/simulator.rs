//! A simulator in plain Rust for any specification: an engine over a machine in tables, and the tables of four specifications. Of each of
//! these it reads an event file line by line and writes its trace, both through buffers; or, at the end, how often each transition was taken
//! and each column was true. A line that it can't read ends it.
//! `simulator lamp|tcas|demo|cabin EVENTS [trace|counts [UNITS]]`

use std::collections::HashMap;
use std::fs::File;
use std::io::{self, BufWriter, Read, Write};
use std::os::fd::AsFd;
use std::process::ExitCode;

/// How many bytes the buffers have, and a line at most.
const ROOM: usize = 65536;
const LONGEST: usize = 4096;

type Out = BufWriter<File>;

// The machine.

/// The items from one place in a vector to another.
#[derive(Clone, Copy, Default)]
struct Span {
    from: u32,
    to: u32,
}

impl Span {
    fn of<T>(self, items: &[T]) -> &[T] {
        &items[self.from as usize..self.to as usize]
    }

    fn count(self) -> u32 {
        self.to - self.from
    }
}

/// A phrase with its cell in a table: `T` where the lowest bit is 1, else `F`.
#[derive(Clone, Copy)]
struct Literal(u32);

/// A component and one of its children.
#[derive(Clone, Copy)]
struct Choice {
    component: u32,
    child: u8,
}

/// Cells that are added or taken away, and a number.
#[derive(Clone, Copy)]
struct Sum {
    terms: Span,
    constant: i64,
}

#[derive(Clone, Copy)]
struct Term {
    cell: u32,
    minus: bool,
}

/// A comparison with a number is one with a least and a greatest number. Tables are phrases too, so that those of many transitions are
/// asked once.
#[derive(Clone, Copy)]
enum Phrase {
    Child(Choice),
    Path(Span),
    Cell { cell: u32, low: i64, high: i64 },
    Sum { sum: Sum, low: i64, high: i64 },
    Table(Span),
    Any(Span),
    Every(Span),
    Function { cases: Span, low: i64, high: i64 },
}

struct Case {
    guard: Literal,
    value: Sum,
}

/// What a transition does when it is taken.
struct Transition {
    entered: Span,
    raised: Span,
}

/// A transition from the child at hand, with its guard, and whether it is a move or raises an event.
struct Candidate {
    transition: u32,
    guard: Literal,
    acts: bool,
}

/// A component with transitions on an event: where it is active, and the place of the candidates from its first child.
struct Reacting {
    component: u32,
    around: Span,
    first: u32,
}

/// A case of a send that is not quiet. The head is its line up to its fields.
struct Sending {
    event: u32,
    guard: Literal,
    head: Span,
    fields: Span,
}

struct Sent {
    name: Span,
    value: Value,
    names: Option<u32>,
}

enum Value {
    Sum(Sum),
    Function(Span),
}

/// A receive, and the places of the first of its instances and of their cells.
struct Receive {
    name: Vec<u8>,
    size: u32,
    fields: Span,
    first: u32,
    cells: u32,
}

/// A name with its `=`.
struct Field {
    name: Vec<u8>,
    kind: Kind,
}

#[derive(Clone, Copy)]
enum Kind {
    Range(i64, i64),
    Names(u32),
}

/// An instance of a receive. The head is what stands behind the number of the event, with the line of the first round.
struct Instance {
    event: u32,
    head: Span,
}

#[derive(Clone, Copy)]
struct Latched {
    cell: u32,
    previous: Option<u32>,
}

/// All vectors are in the order of the notation; receives are in that of their names. The labels of transitions are whole lines.
#[derive(Default)]
struct Machine {
    texts: Vec<u8>,
    enumerations: Vec<Vec<Vec<u8>>>,
    receives: Vec<Receive>,
    fields: Vec<Field>,
    instances: Vec<Instance>,
    latched: Vec<Latched>,
    events: Vec<Span>,
    cells: Vec<i64>,
    components: u32,
    phrases: Vec<Phrase>,
    literals: Vec<Literal>,
    columns: Vec<Span>,
    choices: Vec<Choice>,
    terms: Vec<Term>,
    cases: Vec<Case>,
    labels: Vec<Span>,
    transitions: Vec<Transition>,
    raised: Vec<u32>,
    reacting: Vec<Reacting>,
    reacting_on: Vec<Span>,
    candidates: Vec<Candidate>,
    candidates_from: Vec<Span>,
    sendings: Vec<Sending>,
    sendings_by_event: Vec<u32>,
    sendings_on: Vec<Span>,
    sent: Vec<Sent>,
    /// The columns of the guard of each transition, and of each sending, and the words of that.
    columns_of_transitions: Vec<Span>,
    columns_of_sendings: Vec<Span>,
    counted: Vec<Span>,
    words_of_sendings: Vec<Span>,
}

// The engine.

fn is_blank(byte: u8) -> bool {
    byte <= b' ' && (byte == b' ' || byte == b'\t')
}

/// A number of digits behind `-` or nothing. One of very many digits is only very great.
fn number(text: &[u8]) -> Option<i64> {
    let (minus, digits) = match text {
        [b'-', digits @ ..] => (true, digits),
        _ => (false, text),
    };
    let mut value = 0i64;
    for byte in digits {
        let digit = byte.wrapping_sub(b'0');
        if digit > 9 {
            return None;
        }
        value = value.saturating_mul(10).saturating_add(i64::from(digit));
    }
    match digits {
        [] => None,
        _ if minus => Some(-value),
        _ => Some(value),
    }
}

/// The words of a line.
struct Words<'l>(&'l [u8]);

impl<'l> Words<'l> {
    /// The next word; an empty one where there is none.
    fn next(&mut self) -> &'l [u8] {
        let mut line = self.0;
        while let [b' ' | b'\t', rest @ ..] = line {
            line = rest;
        }
        let end = line.iter().position(|byte| is_blank(*byte)).unwrap_or(line.len());
        let (word, rest) = line.split_at(end);
        self.0 = rest;
        word
    }
}

impl Field {
    /// The value that a word gives this field.
    fn read(&self, machine: &Machine, word: &[u8]) -> Option<i64> {
        let text = word.strip_prefix(self.name.as_slice())?;
        match self.kind {
            Kind::Range(low, high) => number(text).filter(|value| low <= *value && *value <= high),
            Kind::Names(names) => {
                let names = &machine.enumerations[names as usize];
                names.iter().position(|name| name == text).map(|place| place as i64)
            }
        }
    }
}

impl Machine {
    /// The receive of a word, and which of its instances it is, from 0.
    fn receive(&self, word: &[u8]) -> Option<(&Receive, u32)> {
        let open = if word.ends_with(b"]") { word.iter().position(|byte| *byte == b'[') } else { None };
        let (name, index) = word.split_at(open.unwrap_or(word.len()));
        let place = self.receives.binary_search_by(|receive| receive.name.as_slice().cmp(name)).ok()?;
        let receive = &self.receives[place];
        match (receive.size, index) {
            (0, []) => Some((receive, 0)),
            (1.., [b'[', digits @ .., b']']) if digits.first() != Some(&b'-') => {
                let index = number(digits).filter(|index| 1 <= *index && *index <= i64::from(receive.size))?;
                Some((receive, index as u32 - 1))
            }
            _ => None,
        }
    }
}

fn put_number(out: &mut Out, number: i64) -> io::Result<()> {
    let mut digits = [0; 20];
    let mut at = digits.len();
    let mut left = number.unsigned_abs();
    loop {
        at -= 1;
        digits[at] = b'0' + (left % 10) as u8;
        left /= 10;
        if left == 0 {
            break;
        }
    }
    if number < 0 {
        at -= 1;
        digits[at] = b'-';
    }
    out.write_all(&digits[at..])
}

/// What phrases are asked of: the children and the cells. What the memo knows of a phrase in a round is twice the number of that round,
/// and 1 where it is true.
struct World<'m> {
    machine: &'m Machine,
    children: Vec<u8>,
    cells: Vec<i64>,
    memo: Vec<u64>,
    round: u64,
}

impl World<'_> {
    fn has(&self, choice: Choice) -> bool {
        self.children[choice.component as usize] == choice.child
    }

    fn has_all(&self, choices: Span) -> bool {
        choices.of(&self.machine.choices).iter().all(|choice| self.has(*choice))
    }

    fn sum(&self, sum: Sum) -> i64 {
        sum.terms.of(&self.machine.terms).iter().fold(sum.constant, |value, term| {
            let number = self.cells[term.cell as usize];
            if term.minus {
                value - number
            } else {
                value + number
            }
        })
    }

    fn table(&mut self, columns: Span) -> bool {
        columns.of(&self.machine.columns).iter().any(|column| self.every(*column))
    }

    fn every(&mut self, literals: Span) -> bool {
        literals.of(&self.machine.literals).iter().all(|literal| self.holds(*literal))
    }

    fn any(&mut self, literals: Span) -> bool {
        literals.of(&self.machine.literals).iter().any(|literal| self.holds(*literal))
    }

    /// Whether a phrase is as a cell of a table has it. Those that are told at one look are not kept.
    #[inline(always)]
    fn holds(&mut self, literal: Literal) -> bool {
        let phrase = literal.0 >> 1;
        let truth = match self.machine.phrases[phrase as usize] {
            Phrase::Child(choice) => self.has(choice),
            Phrase::Cell { cell, low, high } => {
                let value = self.cells[cell as usize];
                low <= value && value <= high
            }
            _ => self.known(phrase as usize),
        };
        truth == (literal.0 & 1 == 1)
    }

    #[inline(always)]
    fn known(&mut self, phrase: usize) -> bool {
        let kept = self.memo[phrase];
        if kept >> 1 == self.round {
            return kept & 1 == 1;
        }
        let truth = self.truth(phrase);
        self.memo[phrase] = self.round << 1 | u64::from(truth);
        truth
    }

    #[inline(never)]
    fn truth(&mut self, phrase: usize) -> bool {
        let between = |low, high, value| low <= value && value <= high;
        match self.machine.phrases[phrase] {
            Phrase::Child(choice) => self.has(choice),
            Phrase::Path(choices) => self.has_all(choices),
            Phrase::Cell { cell, low, high } => between(low, high, self.cells[cell as usize]),
            Phrase::Sum { sum, low, high } => between(low, high, self.sum(sum)),
            Phrase::Table(columns) => self.table(columns),
            Phrase::Any(literals) => self.any(literals),
            Phrase::Every(literals) => self.every(literals),
            Phrase::Function { cases, low, high } => {
                let cases = cases.of(&self.machine.cases);
                cases.iter().any(|case| between(low, high, self.sum(case.value)) && self.holds(case.guard))
            }
        }
    }

    /// The value of the first case with a true guard, 0 where there is none.
    fn function(&mut self, cases: Span) -> i64 {
        let case = cases.of(&self.machine.cases).iter().find(|case| self.holds(case.guard));
        case.map_or(0, |case| self.sum(case.value))
    }
}

/// A set of events.
struct Events {
    items: Vec<u32>,
    has: Vec<bool>,
}

impl Events {
    fn new(count: usize) -> Self {
        Events { items: Vec::with_capacity(count), has: vec![false; count] }
    }

    fn put(&mut self, event: u32) {
        if !self.has[event as usize] {
            self.has[event as usize] = true;
            self.items.push(event);
        }
    }

    fn clear(&mut self) {
        for event in self.items.drain(..) {
            self.has[event as usize] = false;
        }
    }
}

/// A machine that runs.
struct Simulator<'m> {
    machine: &'m Machine,
    world: World<'m>,
    present: Events,
    raised: Events,
    taken: Vec<u32>,
    acting: Vec<u32>,
    sending: Vec<u32>,
    events: i64,
    counts: Option<Counts>,
}

/// How often each transition was taken, each sending was enabled, and each of their columns was true.
struct Counts {
    taken: Vec<u64>,
    sent: Vec<u64>,
    columns: Vec<u64>,
}

impl Counts {
    fn new(machine: &Machine) -> Self {
        let [taken, sent] = [machine.transitions.len(), machine.sendings.len()].map(|count| vec![0; count]);
        Counts { taken, sent, columns: vec![0; machine.counted.len()] }
    }

    fn count_columns(&mut self, world: &mut World, columns: Span) {
        for place in columns.from as usize..columns.to as usize {
            self.columns[place] += u64::from(world.every(world.machine.counted[place]));
        }
    }

    fn put(&self, out: &mut Out, machine: &Machine, events: i64) -> io::Result<()> {
        let mut zeros = 0;
        let mut put = |words: &[u8], action: &str, count: u64, columns: Span| {
            write!(out, "{action} {count} ")?;
            out.write_all(words)?;
            zeros += usize::from(count == 0);
            for (place, count) in columns.of(&self.columns).iter().enumerate() {
                writeln!(out, "  column {} {count}", place + 1)?;
                zeros += usize::from(*count == 0);
            }
            Ok::<(), io::Error>(())
        };
        for (number, label) in machine.labels.iter().enumerate() {
            let words = &label.of(&machine.texts)["    take ".len()..];
            put(words, "taken", self.taken[number], machine.columns_of_transitions[number])?;
        }
        for (number, words) in machine.words_of_sendings.iter().enumerate() {
            put(words.of(&machine.texts), "chosen", self.sent[number], machine.columns_of_sendings[number])?;
        }
        writeln!(out, "events {events}\nuncovered {zeros}")
    }
}

impl<'m> Simulator<'m> {
    fn new(machine: &'m Machine, counts: bool) -> Self {
        let world = World {
            machine,
            children: vec![0; machine.components as usize],
            cells: machine.cells.clone(),
            memo: vec![0; machine.phrases.len()],
            round: 0,
        };
        Simulator {
            machine,
            world,
            present: Events::new(machine.events.len()),
            raised: Events::new(machine.events.len()),
            taken: Vec::with_capacity(machine.transitions.len()),
            acting: Vec::with_capacity(machine.transitions.len()),
            sending: Vec::with_capacity(machine.sendings.len()),
            events: 0,
            counts: counts.then(|| Counts::new(machine)),
        }
    }

    /// Puts the values of a line into the cells: the instance that its first word names, or none where it does not fit.
    fn latch(&mut self, first: &[u8], mut words: Words<'_>) -> Option<&'m Instance> {
        let (receive, this) = self.machine.receive(first)?;
        let fields = receive.fields.of(&self.machine.fields);
        let cells = receive.cells as usize + this as usize * fields.len();
        for (field, latched) in fields.iter().zip(&self.machine.latched[cells..]) {
            let value = field.read(self.machine, words.next())?;
            if let Some(previous) = latched.previous {
                self.world.cells[previous as usize] = self.world.cells[latched.cell as usize];
            }
            self.world.cells[latched.cell as usize] = value;
        }
        words.next().is_empty().then(|| &self.machine.instances[(receive.first + this) as usize])
    }

    /// Reads from the world which transitions are taken, and which of them act, in order.
    fn take(&mut self) {
        let Simulator { machine, world, present, taken, acting, .. } = self;
        taken.clear();
        acting.clear();
        for event in &present.items {
            for reacting in machine.reacting_on[*event as usize].of(&machine.reacting) {
                if reacting.around.count() > 0 && !world.has_all(reacting.around) {
                    continue;
                }
                let child = u32::from(world.children[reacting.component as usize]);
                for candidate in machine.candidates_from[(reacting.first + child) as usize].of(&machine.candidates) {
                    if world.holds(candidate.guard) {
                        taken.push(candidate.transition);
                        if candidate.acts {
                            acting.push(candidate.transition);
                        }
                    }
                }
            }
        }
        if present.items.len() > 1 {
            taken.sort_unstable();
            acting.sort_unstable();
        }
    }

    /// Writes what is sent, in order.
    fn send(&mut self, out: &mut Out) -> io::Result<()> {
        let machine = self.machine;
        self.sending.clear();
        for event in &self.present.items {
            self.sending.extend_from_slice(machine.sendings_on[*event as usize].of(&machine.sendings_by_event));
        }
        if self.present.items.len() > 1 {
            self.sending.sort_unstable();
        }
        for number in &self.sending {
            let sending = &machine.sendings[*number as usize];
            if !self.world.holds(sending.guard) {
                continue;
            }
            if let Some(counts) = &mut self.counts {
                counts.sent[*number as usize] += 1;
                counts.count_columns(&mut self.world, machine.columns_of_sendings[*number as usize]);
                continue;
            }
            out.write_all(sending.head.of(&machine.texts))?;
            for sent in sending.fields.of(&machine.sent) {
                out.write_all(sent.name.of(&machine.texts))?;
                let value = match sent.value {
                    Value::Sum(sum) => self.world.sum(sum),
                    Value::Function(cases) => self.world.function(cases),
                };
                match sent.names {
                    None => put_number(out, value)?,
                    Some(names) => out.write_all(&machine.enumerations[names as usize][value as usize])?,
                }
            }
            out.write_all(b"\n")?;
        }
        Ok(())
    }

    /// Does a round on the events that are present, and writes all of it but its first line.
    fn round(&mut self, out: &mut Out) -> io::Result<()> {
        let machine = self.machine;
        self.world.round += 1;
        self.take();
        let (texts, labels) = (machine.texts.as_slice(), machine.labels.as_slice());
        for transition in &self.taken {
            match &mut self.counts {
                None => out.write_all(labels[*transition as usize].of(texts))?,
                Some(counts) => {
                    counts.taken[*transition as usize] += 1;
                    counts.count_columns(&mut self.world, machine.columns_of_transitions[*transition as usize]);
                }
            }
        }
        self.send(out)?;
        self.present.clear();
        for transition in &self.acting {
            let transition = &machine.transitions[*transition as usize];
            for choice in transition.entered.of(&machine.choices) {
                self.world.children[choice.component as usize] = choice.child;
            }
            for event in transition.raised.of(&machine.raised) {
                self.raised.put(*event);
            }
        }
        self.raised.items.sort_unstable();
        std::mem::swap(&mut self.present, &mut self.raised);
        Ok(())
    }

    /// Follows a line: false where it can't be read.
    fn follow(&mut self, out: &mut Out, line: &[u8]) -> io::Result<bool> {
        let line = line.strip_suffix(b"\r").unwrap_or(line);
        let mut words = Words(line);
        let first = words.next();
        if first.is_empty() || first[0] == b'#' {
            return Ok(true);
        }
        let machine = self.machine;
        let Some(instance) = self.latch(first, words) else { return Ok(false) };
        self.events += 1;
        let traced = self.counts.is_none();
        if traced {
            out.write_all(b"event ")?;
            put_number(out, self.events)?;
            out.write_all(instance.head.of(&machine.texts))?;
        }
        self.present.put(instance.event);
        self.round(out)?;
        let mut round = 1;
        while !self.present.items.is_empty() {
            round += 1;
            if traced {
                out.write_all(b"  round ")?;
                put_number(out, round)?;
                for event in &self.present.items {
                    out.write_all(machine.events[*event as usize].of(&machine.texts))?;
                }
                out.write_all(b"\n")?;
            }
            self.round(out)?;
        }
        Ok(true)
    }

    /// Follows the lines of a file to its end: that of the first line that it can't read, if there is one. What was written stands in
    /// the sink before the file is read further.
    fn follow_all(&mut self, file: &mut File, out: &mut Out) -> io::Result<Option<u64>> {
        let mut held = vec![0; ROOM];
        let (mut rest, mut lines) = (0, 0);
        loop {
            out.flush()?;
            let read = file.read(&mut held[rest..])?;
            let end = rest + read;
            let mut from = 0;
            while let Some(length) = held[from..end].iter().position(|byte| *byte == b'\n') {
                lines += 1;
                if length > LONGEST || !self.follow(out, &held[from..from + length])? {
                    return Ok(Some(lines));
                }
                from += length + 1;
            }
            rest = end - from;
            if rest > LONGEST || read == 0 && rest > 0 && !self.follow(out, &held[from..end])? {
                return Ok(Some(lines + 1));
            }
            if read == 0 {
                break;
            }
            held.copy_within(from..end, 0);
        }
        match &self.counts {
            Some(counts) => counts.put(out, self.machine, self.events)?,
            None => writeln!(out, "end {}", self.events)?,
        }
        Ok(None)
    }
}

// How machines are built.

/// A state: its path, the state around it, and its place there. A superstate has a component; its default child is its first.
struct State {
    path: String,
    step: String,
    around: Option<usize>,
    component: Option<u32>,
    place: u8,
    children: u8,
}

/// An input, with the numbers of its cells from 0.
struct Input {
    name: &'static str,
    kind: Kind,
    first: u32,
}

impl Input {
    fn at(&self, this: u32) -> u32 {
        self.first + this
    }
}

/// A phrase, or what is true where it is not.
#[derive(Clone, Copy)]
struct Asked {
    phrase: u32,
    is_not: bool,
}

impl Asked {
    fn literal(self, cell: bool) -> Literal {
        Literal(self.phrase << 1 | u32::from(cell != self.is_not))
    }
}

/// A transition with what finds it: its component, its source and its event.
struct Trigger {
    component: u32,
    child: u8,
    event: u32,
    guard: Literal,
    label: Span,
    transition: Transition,
}

#[derive(Default)]
struct Builder {
    machine: Machine,
    names: Vec<String>,
    states: Vec<State>,
    families: Vec<usize>,
    ordinals: Vec<u32>,
    triggers: Vec<Trigger>,
    /// The columns of the tables that were made last, by their literals.
    tables: HashMap<u32, Vec<Span>>,
}

/// Puts items behind those of a vector.
fn put<T>(all: &mut Vec<T>, items: impl IntoIterator<Item = T>) -> Span {
    let from = all.len() as u32;
    all.extend(items);
    Span { from, to: all.len() as u32 }
}

/// The name of an instance, which has an index where there is a size.
fn named(name: &str, size: u32, this: u32) -> String {
    if size == 0 {
        name.to_string()
    } else {
        format!("{name}[{}]", this + 1)
    }
}

impl Builder {
    fn text(&mut self, text: &str) -> Span {
        put(&mut self.machine.texts, text.bytes())
    }

    fn enumeration(&mut self, names: &[&str]) -> Kind {
        let names = names.iter().map(|name| name.as_bytes().to_vec()).collect();
        Kind::Names(put(&mut self.machine.enumerations, [names]).from)
    }

    fn input(&mut self, name: &'static str, size: u32, kind: Kind, initial: i64) -> Input {
        let first = put(&mut self.machine.cells, (0..size.max(1)).map(|_| initial)).from;
        Input { name, kind, first }
    }

    /// The first of so many events.
    fn event(&mut self, name: &str, size: u32) -> u32 {
        let first = self.names.len() as u32;
        for this in 0..size.max(1) {
            let name = named(name, size, this);
            let text = self.text(&format!(" {name}"));
            self.machine.events.push(text);
            self.names.push(name);
        }
        first
    }

    /// A receive, of whose instances each has its cells and its event.
    fn receive(&mut self, name: &str, size: u32, inputs: &[&Input], wired: impl Fn(u32) -> (Vec<Latched>, u32)) {
        let (first, cells) = (self.machine.instances.len() as u32, self.machine.latched.len() as u32);
        let field = |input: &&Input| Field { name: format!("{}=", input.name).into_bytes(), kind: input.kind };
        let fields = put(&mut self.machine.fields, inputs.iter().map(field));
        for this in 0..size.max(1) {
            let (latched, event) = wired(this);
            self.machine.latched.extend(latched);
            let head = format!(" {}\n  round 1 {}\n", named(name, size, this), self.names[event as usize]);
            let head = self.text(&head);
            self.machine.instances.push(Instance { event, head });
        }
        self.machine.receives.push(Receive { name: name.as_bytes().to_vec(), size, fields, first, cells });
    }

    fn state(&mut self, around: Option<usize>, step: &str, is_component: bool) -> usize {
        let (mut path, mut place) = (step.to_string(), 0);
        if let Some(around) = around {
            let outer = &mut self.states[around];
            path = format!("{}.{step}", outer.path);
            place = outer.children;
            outer.children += 1;
        }
        let state = self.states.len();
        let component = is_component.then(|| put(&mut self.families, [state]).from);
        self.ordinals.resize(self.families.len(), 0);
        self.states.push(State { path, step: step.to_string(), around, component, place, children: 0 });
        state
    }

    fn all(&mut self, around: Option<usize>, step: &str) -> usize {
        self.state(around, step, false)
    }

    fn one(&mut self, around: Option<usize>, step: &str) -> usize {
        self.state(around, step, true)
    }

    fn basic(&mut self, around: usize, step: &str) -> usize {
        self.state(Some(around), step, false)
    }

    /// A state and those around it, from the inner to the outer, up to one that is left out.
    fn steps(&self, state: usize, to: Option<usize>) -> Vec<usize> {
        let mut steps = Vec::new();
        let mut at = Some(state);
        while let Some(state) = at.filter(|state| Some(*state) != to) {
            steps.push(state);
            at = self.states[state].around;
        }
        steps
    }

    /// The component around a state, of which it is a child, if there is one.
    fn choice(&self, state: usize) -> Option<Choice> {
        let component = self.states[self.states[state].around?].component?;
        Some(Choice { component, child: self.states[state].place })
    }

    fn choices(&mut self, state: usize) -> Span {
        let choices: Vec<Choice> = self.steps(state, None).iter().filter_map(|step| self.choice(*step)).collect();
        put(&mut self.machine.choices, choices)
    }

    fn phrase(&mut self, phrase: Phrase) -> Asked {
        Asked { phrase: put(&mut self.machine.phrases, [phrase]).from, is_not: false }
    }

    fn is_in(&mut self, state: usize) -> Asked {
        let choices = self.choices(state);
        match choices.of(&self.machine.choices) {
            [choice] => self.phrase(Phrase::Child(*choice)),
            _ => self.phrase(Phrase::Path(choices)),
        }
    }

    /// A sum of cells, each with its sign.
    fn sum(&mut self, terms: &[(char, u32)], constant: i64) -> Sum {
        let term = |term: &(char, u32)| Term { cell: term.1, minus: term.0 == '-' };
        Sum { terms: put(&mut self.machine.terms, terms.iter().map(term)), constant }
    }

    /// The least and the greatest number that stand in a relation to a number, and whether the others are meant.
    fn limits(relation: &str, number: i64) -> (i64, i64, bool) {
        match relation {
            "<" => (i64::MIN, number - 1, false),
            "<=" => (i64::MIN, number, false),
            ">" => (number + 1, i64::MAX, false),
            ">=" => (number, i64::MAX, false),
            "=" => (number, number, false),
            _ => (number, number, true),
        }
    }

    fn compare(&mut self, terms: &[(char, u32)], relation: &str, number: i64) -> Asked {
        let (low, high, is_not) = Builder::limits(relation, number);
        let phrase = match terms {
            [('+', cell)] => Phrase::Cell { cell: *cell, low, high },
            _ => Phrase::Sum { sum: self.sum(terms, 0), low, high },
        };
        Asked { is_not, ..self.phrase(phrase) }
    }

    fn cell(&mut self, cell: u32, relation: &str, number: i64) -> Asked {
        self.compare(&[('+', cell)], relation, number)
    }

    /// Whether the value of a function is so. It has one, as the specification is certified.
    fn function_is(&mut self, cases: Span, relation: &str, number: i64) -> Asked {
        let (low, high, is_not) = Builder::limits(relation, number);
        Asked { is_not, ..self.phrase(Phrase::Function { cases, low, high }) }
    }

    fn literals(&mut self, phrases: &[Asked]) -> Span {
        put(&mut self.machine.literals, phrases.iter().map(|phrase| phrase.literal(true)))
    }

    fn some(&mut self, phrases: &[Asked]) -> Asked {
        let literals = self.literals(phrases);
        self.phrase(Phrase::Any(literals))
    }

    fn every(&mut self, phrases: &[Asked]) -> Asked {
        let literals = self.literals(phrases);
        self.phrase(Phrase::Every(literals))
    }

    /// A table of rows, each with its cells. One with a single cell is the phrase of its row.
    fn table(&mut self, rows: &[(Asked, &str)]) -> Literal {
        let count = rows.first().map_or(0, |row| row.1.len());
        let columns: Vec<Span> = (0..count)
            .map(|column| {
                let literals = rows.iter().filter_map(|(phrase, cells)| match cells.as_bytes()[column] {
                    b'.' => None,
                    cell => Some(phrase.literal(cell == b'T')),
                });
                put(&mut self.machine.literals, literals)
            })
            .collect();
        let single = match columns.as_slice() {
            [column] => match column.of(&self.machine.literals) {
                [literal] => Some(*literal),
                _ => None,
            },
            _ => None,
        };
        let literal = single.unwrap_or_else(|| {
            let asked = match columns.as_slice() {
                [] => Phrase::Every(Span::default()),
                [column] => Phrase::Every(*column),
                _ => Phrase::Table(put(&mut self.machine.columns, columns.iter().copied())),
            };
            self.phrase(asked).literal(true)
        });
        self.tables.insert(literal.0, columns);
        literal
    }

    /// The columns of the guard that this is, to be counted.
    fn counted(&mut self, guard: Literal) -> Span {
        let columns = self.tables.get(&guard.0).cloned().unwrap_or_default();
        put(&mut self.machine.counted, columns)
    }

    fn macro_of(&mut self, rows: &[(Asked, &str)]) -> Asked {
        let Literal(literal) = self.table(rows);
        Asked { phrase: literal >> 1, is_not: literal & 1 == 0 }
    }

    fn function(&mut self, cases: Vec<Case>) -> Span {
        put(&mut self.machine.cases, cases)
    }

    /// The children of a component after a move to a target, and of all components in it.
    fn entered(&mut self, component: usize, target: usize) -> Span {
        let steps = self.steps(target, Some(component));
        let choices: Vec<Choice> = (component..self.states.len())
            .filter(|state| self.steps(*state, None).contains(&component))
            .filter_map(|state| Some((state, self.states[state].component?)))
            .map(|(state, number)| {
                let step = steps.iter().find(|step| self.states[**step].around == Some(state));
                Choice { component: number, child: step.map_or(0, |step| self.states[*step].place) }
            })
            .collect();
        put(&mut self.machine.choices, choices)
    }

    /// A transition from a child of a component or from each of several. It stays where there is no target.
    fn transition(&mut self, from: &[usize], to: Option<usize>, event: u32, guard: Literal, raises: &[u32]) {
        let Some(component) = self.states[from[0]].around else { return };
        let Some(number) = self.states[component].component else { return };
        self.ordinals[number as usize] += 1;
        let ordinal = self.ordinals[number as usize];
        for source in from {
            let path = &self.states[component].path;
            let step = &self.states[*source].step;
            let label = match to {
                None => format!("    take {path} {ordinal} stay {step}\n"),
                Some(target) => {
                    let target = &self.states[target].path[path.len() + 1..];
                    format!("    take {path} {ordinal} move {step} -> {target}\n")
                }
            };
            let label = self.text(&label);
            let entered = to.map_or(Span::default(), |target| self.entered(component, target));
            let raised = put(&mut self.machine.raised, raises.iter().copied());
            let transition = Transition { entered, raised };
            let child = self.states[*source].place;
            self.triggers.push(Trigger { component: number, child, event, guard, label, transition });
        }
    }

    /// The case of a send that is not quiet.
    fn send(&mut self, name: &str, event: u32, guard: Literal, fields: Vec<(&str, Value, Kind)>) {
        let head = self.text(&format!("    send {name}"));
        let before = self.machine.sendings.iter().filter(|other| other.head.of(&self.machine.texts) == head.of(&self.machine.texts));
        let words = format!("send {name} case {}\n", before.count() + 1);
        let words = self.text(&words);
        self.machine.words_of_sendings.push(words);
        let sent: Vec<Sent> = fields
            .into_iter()
            .map(|(name, value, kind)| Sent {
                name: self.text(&format!(" {name}=")),
                value,
                names: match kind {
                    Kind::Range(..) => None,
                    Kind::Names(names) => Some(names),
                },
            })
            .collect();
        let fields = put(&mut self.machine.sent, sent);
        self.machine.sendings.push(Sending { event, guard, head, fields });
    }

    /// The machine, in which transitions and cases are found by their events.
    fn finish(mut self) -> Machine {
        self.machine.receives.sort_by(|one, other| one.name.cmp(&other.name));
        self.machine.components = self.families.len() as u32;
        self.triggers.sort_by_key(|trigger| trigger.component);
        for event in 0..self.machine.events.len() as u32 {
            let from = self.machine.reacting.len() as u32;
            for component in 0..self.families.len() {
                self.react(event, component);
            }
            self.machine.reacting_on.push(Span { from, to: self.machine.reacting.len() as u32 });
            let cases = self.machine.sendings.iter().enumerate().filter(|(_, case)| case.event == event);
            let cases = put(&mut self.machine.sendings_by_event, cases.map(|(number, _)| number as u32));
            self.machine.sendings_on.push(cases);
        }
        let guards: Vec<Literal> = self.triggers.iter().map(|trigger| trigger.guard).collect();
        self.machine.columns_of_transitions = guards.into_iter().map(|guard| self.counted(guard)).collect();
        let guards: Vec<Literal> = self.machine.sendings.iter().map(|sending| sending.guard).collect();
        self.machine.columns_of_sendings = guards.into_iter().map(|guard| self.counted(guard)).collect();
        self.machine.labels.extend(self.triggers.iter().map(|trigger| trigger.label));
        self.machine.transitions.extend(self.triggers.into_iter().map(|trigger| trigger.transition));
        self.machine
    }

    /// Puts in the transitions of a component on an event, by their sources.
    fn react(&mut self, event: u32, component: usize) {
        let is_there = |trigger: &Trigger| trigger.event == event && trigger.component as usize == component;
        if !self.triggers.iter().any(is_there) {
            return;
        }
        let state = self.families[component];
        let around = self.choices(state);
        let first = self.machine.candidates_from.len() as u32;
        for child in 0..self.states[state].children {
            let triggers = self.triggers.iter().enumerate();
            let triggers = triggers.filter(|(_, trigger)| is_there(trigger) && trigger.child == child);
            let candidates = triggers.map(|(number, it)| Candidate {
                transition: number as u32,
                guard: it.guard,
                acts: it.transition.entered.count() + it.transition.raised.count() > 0,
            });
            let candidates = put(&mut self.machine.candidates, candidates);
            self.machine.candidates_from.push(candidates);
        }
        self.machine.reacting.push(Reacting { component: component as u32, around, first });
    }
}

/// A cell that has no previous cell.
fn plain(cell: u32) -> Latched {
    Latched { cell, previous: None }
}

// The machines.

fn lamp() -> Machine {
    let mut b = Builder::default();
    let switch = b.enumeration(&["Down", "Up"]);
    let lever = b.input("Lever", 0, switch, 0);
    let tick = b.event("Tick", 0);
    b.receive("Set", 0, &[&lever], |_| (vec![plain(lever.at(0))], tick));
    let lamp = b.one(None, "Lamp");
    let (off, on) = (b.basic(lamp, "Off"), b.basic(lamp, "On"));
    let (up, down) = (b.cell(lever.at(0), "=", 1), b.cell(lever.at(0), "=", 0));
    for (source, phrase, target) in [(off, up, on), (on, down, off)] {
        let (moves, stays) = (b.table(&[(phrase, "T")]), b.table(&[(phrase, "F")]));
        b.transition(&[source], Some(target), tick, moves, &[]);
        b.transition(&[source], None, tick, stays, &[]);
    }
    b.finish()
}

fn tcas() -> Machine {
    const OTHERS: u32 = 30;
    let mut b = Builder::default();
    let power = b.enumeration(&["Standby", "Active"]);
    let level = b.enumeration(&["Clear", "Traffic", "Resolution"]);
    let (feet, seconds) = (Kind::Range(-1000, 60000), Kind::Range(0, 255));
    let selector = b.input("Selector", 0, power, 0);
    let own_alt = b.input("Own_Alt", 0, feet, 0);
    let tau = b.input("Tau", OTHERS, seconds, 255);
    let (own, scan, show) = (b.event("Own", 0), b.event("Scan", OTHERS), b.event("Show", 0));
    b.receive("Pilot", 0, &[&selector, &own_alt], |_| (vec![plain(selector.at(0)), plain(own_alt.at(0))], own));
    b.receive("Radar", OTHERS, &[&tau], |this| (vec![plain(tau.at(this))], scan + this));
    let top = b.all(None, "Tcas");
    let mode = b.one(Some(top), "Mode");
    let (off, on) = (b.basic(mode, "Off"), b.basic(mode, "On"));
    let active = b.cell(selector.at(0), "=", 1);
    let (is_active, is_standby) = (b.table(&[(active, "T")]), b.table(&[(active, "F")]));
    b.transition(&[off], Some(on), own, is_active, &[show]);
    b.transition(&[off], None, own, is_standby, &[]);
    b.transition(&[on], Some(off), own, is_standby, &[show]);
    b.transition(&[on], None, own, is_active, &[show]);
    let (is_on, is_high) = (b.is_in(on), b.cell(own_alt.at(0), ">=", 1000));
    let enabled = b.macro_of(&[(is_on, "T"), (is_high, "T")]);
    let (mut threats, mut nears) = (Vec::new(), Vec::new());
    for this in 0..OTHERS {
        let other = b.one(Some(top), &named("Other", OTHERS, this));
        let any = [b.basic(other, "Far"), b.basic(other, "Near"), b.basic(other, "Threat")];
        let (soon, later) = (b.cell(tau.at(this), "<", 25), b.cell(tau.at(this), "<", 40));
        let threat = b.macro_of(&[(enabled, "T"), (soon, "T")]);
        let near = b.macro_of(&[(enabled, "T"), (later, "T")]);
        let tables = [b.table(&[(threat, "T")]), b.table(&[(threat, "F"), (near, "T")]), b.table(&[(threat, "F"), (near, "F")])];
        for (target, table) in std::iter::zip([any[2], any[1], any[0]], tables) {
            b.transition(&any, Some(target), scan + this, table, &[show]);
        }
        threats.push(b.is_in(any[2]));
        nears.push(b.is_in(any[1]));
    }
    let (threat, near) = (b.some(&threats), b.some(&nears));
    let mut cases = Vec::new();
    for (value, rows) in [(2, &[(threat, "T")][..]), (1, &[(threat, "F"), (near, "T")]), (0, &[(threat, "F"), (near, "F")])] {
        cases.push(Case { guard: b.table(rows), value: b.sum(&[], value) });
    }
    let (worst, height) = (b.function(cases), b.sum(&[('+', own_alt.at(0))], 0));
    let always = b.table(&[]);
    let fields = vec![("Advice", Value::Function(worst), level), ("Height", Value::Sum(height), feet)];
    b.send("Display", show, always, fields);
    b.finish()
}

fn demo(units: u32) -> Machine {
    let mut b = Builder::default();
    let depth = b.input("Depth", units, Kind::Range(0, 999), 0);
    let go = b.event("Go", 0);
    b.receive("Load", units, &[&depth], |this| (vec![plain(depth.at(this))], go));
    let plant = b.all(None, "Plant");
    let mut parts = Vec::new();
    for this in 0..units {
        let unit = b.one(Some(plant), &named("Unit", units, this));
        let (off, on) = (b.basic(unit, "Off"), b.basic(unit, "On"));
        parts.push((off, on, b.is_in(on), b.cell(depth.at(this), ">=", 500)));
    }
    let are_on: Vec<Asked> = parts.iter().map(|part| part.2).collect();
    let are_high: Vec<Asked> = parts.iter().map(|part| part.3).collect();
    let (every, some) = (b.every(&are_on), b.some(&are_high));
    let (full, high) = (b.macro_of(&[(every, "T")]), b.macro_of(&[(some, "T")]));
    let leaves = b.table(&[(full, "T."), (high, ".F")]);
    let remains = b.table(&[(full, "F"), (high, "T")]);
    for (off, on, _, deep) in parts {
        let (fills, waits) = (b.table(&[(deep, "T")]), b.table(&[(deep, "F")]));
        b.transition(&[off], Some(on), go, fills, &[]);
        b.transition(&[off], None, go, waits, &[]);
        b.transition(&[on], Some(off), go, leaves, &[]);
        b.transition(&[on], None, go, remains, &[]);
    }
    b.finish()
}

/// The example of docs/language.md. It has components in others, a previous cell, sums, and a function in a guard.
fn cabin() -> Machine {
    const DOORS: u32 = 2;
    let mut b = Builder::default();
    let position = b.enumeration(&["Locked", "Unlocked"]);
    let health = b.enumeration(&["Good", "Bad"]);
    let advice = b.enumeration(&["All_Shut", "Some_Open"]);
    let pressure = Kind::Range(0, 110);
    let (lever, sensor) = (b.input("Lever", DOORS, position, 0), b.input("Sensor", DOORS, health, 0));
    let (inside, outside) = (b.input("Inside", 0, pressure, 100), b.input("Outside", 0, pressure, 100));
    let previous = b.input("previous Inside", 0, pressure, 100);
    let (turned, measured, changed) = (b.event("Turned", DOORS), b.event("Measured", 0), b.event("Changed", 0));
    b.receive("Crew", DOORS, &[&lever, &sensor], |this| (vec![plain(lever.at(this)), plain(sensor.at(this))], turned + this));
    let kept = Latched { cell: inside.at(0), previous: Some(previous.at(0)) };
    b.receive("Air", 0, &[&inside, &outside], |_| (vec![kept, plain(outside.at(0))], measured));
    let difference = [('+', inside.at(0)), ('-', outside.at(0))];
    let near = b.compare(&difference, "<=", 3);
    let falling = b.compare(&[('+', inside.at(0)), ('-', previous.at(0))], "<=", 0);
    let level = b.macro_of(&[(near, "T"), (falling, "T")]);
    let top = b.all(None, "Cabin");
    let mut are_open = Vec::new();
    for this in 0..DOORS {
        let door = b.one(Some(top), &named("Door", DOORS, this));
        let working = b.one(Some(door), "Working");
        let (shut, open) = (b.basic(working, "Shut"), b.basic(working, "Open"));
        let failed = b.basic(door, "Failed");
        let (good, locked) = (b.cell(sensor.at(this), "=", 0), b.cell(lever.at(this), "=", 0));
        let unlocked = b.cell(lever.at(this), "!=", 0);
        let may_open = b.macro_of(&[(unlocked, "T"), (level, "T")]);
        for (source, phrase, target) in [(shut, may_open, open), (open, locked, shut)] {
            let (moves, stays) = (b.table(&[(good, "T"), (phrase, "T")]), b.table(&[(good, "T"), (phrase, "F")]));
            b.transition(&[source], Some(target), turned + this, moves, &[changed]);
            b.transition(&[source], None, turned + this, stays, &[]);
        }
        let (is_good, is_bad) = (b.table(&[(good, "T")]), b.table(&[(good, "F")]));
        b.transition(&[working], Some(failed), turned + this, is_bad, &[changed]);
        b.transition(&[failed], Some(working), turned + this, is_good, &[]);
        b.transition(&[failed], None, turned + this, is_bad, &[]);
        are_open.push(b.is_in(open));
    }
    let open = b.some(&are_open);
    let mut cases = Vec::new();
    for (value, cell) in [(1, "T"), (0, "F")] {
        cases.push(Case { guard: b.table(&[(open, cell)]), value: b.sum(&[], value) });
    }
    let told = b.function(cases);
    let lamp = b.one(Some(top), "Lamp");
    let (green, red) = (b.basic(lamp, "Green"), b.basic(lamp, "Red"));
    let is_told = b.function_is(told, "=", 1);
    for (target, cell) in [(red, "T"), (green, "F")] {
        let table = b.table(&[(is_told, cell)]);
        b.transition(&[green, red], Some(target), changed, table, &[]);
    }
    let (is_level, sum) = (b.table(&[(level, "T")]), b.sum(&difference, 0));
    b.send("Panel", changed, is_level, vec![("Shown", Value::Function(told), advice), ("Difference", Value::Sum(sum), pressure)]);
    b.finish()
}

fn simulate(machine: &Machine, name: &str, counts: bool) -> io::Result<Option<u64>> {
    let mut file = File::open(name)?;
    let sink = File::from(io::stdout().as_fd().try_clone_to_owned()?);
    let mut out = BufWriter::with_capacity(ROOM, sink);
    let fault = Simulator::new(machine, counts).follow_all(&mut file, &mut out)?;
    out.flush()?;
    Ok(fault)
}

fn main() -> ExitCode {
    let words: Vec<String> = std::env::args().skip(1).collect();
    let units = words.get(3).and_then(|units| units.parse().ok()).unwrap_or(64);
    let machine = match words.first().map(String::as_str) {
        Some("lamp") => lamp(),
        Some("tcas") => tcas(),
        Some("demo") => demo(units),
        Some("cabin") => cabin(),
        _ => return ExitCode::from(4),
    };
    let counts = words.get(2).is_some_and(|word| word == "counts");
    match simulate(&machine, words.get(1).map_or("", String::as_str), counts) {
        Ok(None) => ExitCode::SUCCESS,
        Ok(Some(line)) => {
            eprintln!("line {line} can't be read");
            ExitCode::from(3)
        }
        Err(_) => ExitCode::from(5),
    }
}
