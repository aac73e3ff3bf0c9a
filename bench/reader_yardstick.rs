// A reader of programs in plain Rust, by docs/LANGUAGE.md: the yardstick for the crates that read programs.
// Argument: a file. It prints the line that refuses the program, or the numbers of its qubits, bits and statements.
mod tokens;

use std::collections::HashMap;
use std::{env, fs};
use tokens::{Place, comment_len, is_letter, place_behind, run};

type Fault = (Place, &'static str);

#[derive(Clone, Copy, PartialEq, Debug)]
enum Kind {
    Name,
    Word,
    Number(u32),
    Decimal,
    Quoted,
    Pi,
    Note,
    Sign([u8; 2]),
    End,
}

#[derive(Clone, Copy)]
struct Token<'a> {
    kind: Kind,
    text: &'a [u8],
    at: Place,
}

const OWN: &[&str] = &[
    "OPENQASM", "include", "qubit", "qreg", "bit", "creg", "measure", "reset", "barrier", "if", "else", "while", "pi", "true", "false",
];
const FOREIGN: &[&str] = &[
    "gate", "ctrl", "negctrl", "inv", "pow", "gphase", "for", "def", "extern", "delay", "box", "defcal", "cal", "defcalgrammar",
    "input", "output", "let", "const", "int", "uint", "float", "angle", "bool", "complex", "duration", "stretch", "array", "return",
    "break", "continue", "end", "switch", "pragma",
];

fn is_in(words: &[&str], text: &[u8]) -> bool {
    words.iter().any(|word| word.as_bytes() == text)
}

fn number(rest: &[u8]) -> Result<(Kind, usize), &'static str> {
    let whole = run(rest, |byte| byte.is_ascii_digit());
    if rest.get(whole) == Some(&b'.') {
        let part = run(&rest[whole + 1..], |byte| byte.is_ascii_digit());
        if part > 0 {
            return Ok((Kind::Decimal, whole + 1 + part));
        }
    }
    let mut value: u64 = 0;
    for digit in &rest[..whole] {
        value = 10 * value + u64::from(digit - b'0');
        if value > 1_000_000_000 {
            return Err("LongNumber");
        }
    }
    Ok((Kind::Number(value as u32), whole))
}

fn token(rest: &[u8], clear: bool) -> Result<(Kind, usize), &'static str> {
    let first = rest[0];
    let second = rest.get(1).copied().unwrap_or(0);
    Ok(match first {
        _ if is_letter(first) => {
            let len = run(rest, |byte| is_letter(byte) || byte.is_ascii_digit());
            let word = is_in(OWN, &rest[..len]) || is_in(FOREIGN, &rest[..len]);
            (if word { Kind::Word } else { Kind::Name }, len)
        }
        b'0'..=b'9' => return number(rest),
        b'@' if clear => (Kind::Note, run(rest, |byte| byte != b'\n')),
        b'"' | b'\'' => {
            let len = run(&rest[1..], |byte| byte != first && byte != b'\n');
            if rest.get(len + 1) != Some(&first) {
                return Err("OpenText");
            }
            (Kind::Quoted, len + 2)
        }
        0xCF if second == 0x80 => (Kind::Pi, 2),
        b'=' if second == b'=' => (Kind::Sign([b'=', b'=']), 2),
        b'-' if second == b'>' => (Kind::Sign([b'-', b'>']), 2),
        b';' | b',' | b'(' | b')' | b'[' | b']' | b'{' | b'}' | b'=' | b'!' | b'-' | b'*' | b'/' | b'@' => (Kind::Sign([first, 0]), 1),
        _ => return Err("BadByte"),
    })
}

fn tokens(text: &[u8]) -> Result<Vec<Token<'_>>, Fault> {
    if let Err(error) = std::str::from_utf8(text) {
        return Err((place_behind((1, 1), &text[..error.valid_up_to()]), "NotUtf8"));
    }
    let (mut list, mut offset, mut at, mut clear) = (Vec::new(), 0, (1, 1), true);
    while offset < text.len() {
        let rest = &text[offset..];
        let blank = matches!(rest[0], b' ' | b'\t' | b'\r' | b'\n');
        let len = if blank {
            clear = clear || rest[0] == b'\n';
            1
        } else if rest[0] == b'/' && matches!(rest.get(1), Some(b'/' | b'*')) {
            clear = false;
            comment_len(rest).map_err(|name| (at, name))?
        } else {
            let (kind, len) = token(rest, clear).map_err(|name| (at, name))?;
            clear = false;
            list.push(Token { kind, text: &rest[..len], at });
            len
        };
        at = place_behind(at, &rest[..len]);
        offset += len;
    }
    list.push(Token { kind: Kind::End, text: b"", at });
    Ok(list)
}

type Spot<'a> = (Token<'a>, Option<u32>);

struct Angle {
    at: Place,
    minus: bool,
    times: u32,
    over: Option<u32>,
}

enum Node<'a> {
    Include,
    Declare { quantum: bool, name: Token<'a>, size: Option<u32>, from: Option<Spot<'a>> },
    Measure { from: Spot<'a>, into: Option<Spot<'a>>, into_first: bool },
    Reset(Spot<'a>),
    Barrier(Vec<Spot<'a>>),
    Call { name: Token<'a>, angle: Option<Angle>, spots: Vec<Spot<'a>> },
    If { test: Spot<'a>, yes: Vec<Item<'a>>, no: Vec<Item<'a>> },
    While { test: Spot<'a>, body: Vec<Item<'a>> },
}

struct Item<'a> {
    notes: Vec<Token<'a>>,
    at: Place,
    node: Node<'a>,
}

struct Reader<'a> {
    list: Vec<Token<'a>>,
    next: usize,
}

impl<'a> Reader<'a> {
    fn peek(&self) -> Token<'a> {
        self.list[self.next.min(self.list.len() - 1)]
    }

    fn stop<T>(&self, name: &'static str) -> Result<T, Fault> {
        Err((self.peek().at, name))
    }

    fn take(&mut self, is: impl Fn(Kind) -> bool) -> Result<Token<'a>, Fault> {
        let token = self.peek();
        if !is(token.kind) {
            return self.stop("Unexpected");
        }
        self.next += 1;
        Ok(token)
    }

    fn sees(&self, sign: u8) -> bool {
        self.peek().kind == Kind::Sign([sign, 0])
    }

    fn sees_word(&self, word: &str) -> bool {
        let token = self.peek();
        token.kind == Kind::Word && token.text == word.as_bytes()
    }

    fn sign(&mut self, sign: u8) -> Result<(), Fault> {
        self.take(|kind| kind == Kind::Sign([sign, 0])).map(|_| ())
    }

    fn word(&mut self, word: &str) -> Result<(), Fault> {
        if !self.sees_word(word) {
            return self.stop("Unexpected");
        }
        self.next += 1;
        Ok(())
    }

    fn name(&mut self) -> Result<Token<'a>, Fault> {
        self.take(|kind| kind == Kind::Name)
    }

    fn number(&mut self) -> Result<u32, Fault> {
        match self.take(|kind| matches!(kind, Kind::Number(_)))?.kind {
            Kind::Number(number) => Ok(number),
            _ => Ok(0),
        }
    }

    fn size(&mut self) -> Result<Option<u32>, Fault> {
        if !self.sees(b'[') {
            return Ok(None);
        }
        self.next += 1;
        let number = self.number()?;
        self.sign(b']')?;
        Ok(Some(number))
    }

    fn spot(&mut self) -> Result<Spot<'a>, Fault> {
        Ok((self.name()?, self.size()?))
    }

    fn spots(&mut self) -> Result<Vec<Spot<'a>>, Fault> {
        let mut list = vec![self.spot()?];
        while self.sees(b',') {
            self.next += 1;
            list.push(self.spot()?);
        }
        Ok(list)
    }

    fn pi(&mut self) -> Result<(), Fault> {
        if self.sees_word("pi") { self.word("pi") } else { self.take(|kind| kind == Kind::Pi).map(|_| ()) }
    }

    fn angle(&mut self) -> Result<Angle, Fault> {
        let at = self.peek().at;
        let minus = self.sees(b'-');
        self.next += usize::from(minus);
        let mut times = 1;
        if matches!(self.peek().kind, Kind::Number(_)) {
            times = self.number()?;
            if !self.sees(b'*') {
                return Ok(Angle { at, minus, times, over: None });
            }
            self.next += 1;
        }
        self.pi()?;
        let mut over = 1;
        if self.sees(b'/') {
            self.next += 1;
            over = self.number()?;
        }
        Ok(Angle { at, minus, times, over: Some(over) })
    }

    fn named(&mut self) -> Result<Node<'a>, Fault> {
        let name = self.name()?;
        if self.sees(b'[') || self.sees(b'=') {
            let index = self.size()?;
            self.sign(b'=')?;
            self.word("measure")?;
            return Ok(Node::Measure { from: self.spot()?, into: Some((name, index)), into_first: true });
        }
        let mut angle = None;
        if self.sees(b'(') {
            self.next += 1;
            angle = Some(self.angle()?);
            self.sign(b')')?;
        }
        Ok(Node::Call { name, angle, spots: self.spots()? })
    }

    fn simple(&mut self) -> Result<Node<'a>, Fault> {
        let token = self.peek();
        if token.kind == Kind::Name {
            return self.named();
        }
        let text = if token.kind == Kind::Word { token.text } else { b"" };
        self.next += 1;
        match text {
            b"include" => {
                let text = self.peek();
                if text.kind == Kind::Quoted && &text.text[1..text.text.len() - 1] != b"stdgates.inc" {
                    return self.stop("NotTaken");
                }
                self.take(|kind| kind == Kind::Quoted)?;
                Ok(Node::Include)
            }
            b"qubit" => {
                let size = self.size()?;
                Ok(Node::Declare { quantum: true, name: self.name()?, size, from: None })
            }
            b"qreg" | b"creg" => Ok(Node::Declare { quantum: text == b"qreg", name: self.name()?, size: self.size()?, from: None }),
            b"bit" => {
                let (size, name, mut from) = (self.size()?, self.name()?, None);
                if self.sees(b'=') {
                    self.next += 1;
                    self.word("measure")?;
                    from = Some(self.spot()?);
                }
                Ok(Node::Declare { quantum: false, name, size, from })
            }
            b"measure" => {
                let from = self.spot()?;
                let arrow = self.peek().kind == Kind::Sign([b'-', b'>']);
                self.next += usize::from(arrow);
                let into = if arrow { Some(self.spot()?) } else { None };
                Ok(Node::Measure { from, into, into_first: false })
            }
            b"reset" => Ok(Node::Reset(self.spot()?)),
            b"barrier" => Ok(Node::Barrier(if self.peek().kind == Kind::Name { self.spots()? } else { Vec::new() })),
            _ => {
                self.next -= 1;
                self.stop("Unexpected")
            }
        }
    }

    fn test(&mut self) -> Result<Spot<'a>, Fault> {
        self.sign(b'(')?;
        let spot = if self.sees(b'!') {
            self.next += 1;
            self.spot()?
        } else {
            let spot = self.spot()?;
            if self.peek().kind == Kind::Sign([b'=', b'=']) {
                self.next += 1;
                if !self.sees_word("true") && !self.sees_word("false") && !matches!(self.peek().kind, Kind::Number(0 | 1)) {
                    return self.stop("Unexpected");
                }
                self.next += 1;
            }
            spot
        };
        self.sign(b')')?;
        Ok(spot)
    }

    fn body(&mut self, room: u32) -> Result<Vec<Item<'a>>, Fault> {
        if room == 0 {
            return self.stop("TooDeep");
        }
        if !self.sees(b'{') {
            return Ok(vec![self.statement(room - 1)?]);
        }
        self.next += 1;
        let mut list = Vec::new();
        while !self.sees(b'}') {
            list.push(self.statement(room - 1)?);
        }
        self.next += 1;
        Ok(list)
    }

    fn bare(&mut self, room: u32) -> Result<Node<'a>, Fault> {
        if self.sees_word("if") {
            self.next += 1;
            let (test, yes, mut no) = (self.test()?, self.body(room)?, Vec::new());
            if self.sees_word("else") {
                self.next += 1;
                no = self.body(room)?;
            }
            return Ok(Node::If { test, yes, no });
        }
        if self.sees_word("while") {
            self.next += 1;
            return Ok(Node::While { test: self.test()?, body: self.body(room)? });
        }
        let node = self.simple()?;
        self.sign(b';')?;
        Ok(node)
    }

    fn statement(&mut self, room: u32) -> Result<Item<'a>, Fault> {
        let mut notes = Vec::new();
        while self.peek().kind == Kind::Note {
            notes.push(self.take(|_| true)?);
        }
        let token = self.peek();
        if token.kind == Kind::Word && is_in(FOREIGN, token.text) {
            return self.stop("NotTaken");
        }
        Ok(Item { notes, at: token.at, node: self.bare(room)? })
    }

    fn program(&mut self) -> Result<(Vec<Item<'a>>, Place), Fault> {
        if self.sees_word("OPENQASM") {
            self.next += 1;
            match self.peek().kind {
                Kind::Number(3) => {}
                Kind::Decimal if self.peek().text.starts_with(b"3.") => {}
                Kind::Number(_) | Kind::Decimal => return self.stop("NotTaken"),
                _ => return self.stop("Unexpected"),
            }
            self.next += 1;
            self.sign(b';')?;
        }
        let mut list = Vec::new();
        while self.peek().kind != Kind::End {
            list.push(self.statement(64)?);
        }
        Ok((list, self.peek().at))
    }
}

// ---- what the names mean

#[derive(Clone, Copy)]
struct Register {
    quantum: bool,
    first: u32,
    size: Option<u32>,
}

impl Register {
    fn len(self) -> u32 {
        self.size.unwrap_or(1)
    }
}

enum Stmt {
    Gate { name: &'static str, eighths: i64, operands: [u32; 3] },
    Other,
}

#[derive(Default)]
struct Meaning<'a> {
    names: HashMap<&'a [u8], Register>,
    qubits: u32,
    bits: u32,
    body: Vec<Stmt>,
}

// name, operands, and how many statements it comes to; whether it has an angle
const GATES: &[(&str, usize, usize, bool)] = &[
    ("id", 1, 1, false), ("x", 1, 1, false), ("y", 1, 1, false), ("z", 1, 1, false), ("h", 1, 1, false), ("s", 1, 1, false),
    ("sdg", 1, 1, false), ("t", 1, 1, false), ("tdg", 1, 1, false), ("sx", 1, 1, false), ("p", 1, 1, true), ("rx", 1, 1, true),
    ("ry", 1, 1, true), ("rz", 1, 1, true), ("cx", 2, 1, false), ("CX", 2, 1, false), ("cy", 2, 1, false), ("cz", 2, 1, false),
    ("ch", 2, 1, false), ("cp", 2, 1, true), ("ccx", 3, 1, false), ("swap", 2, 3, false), ("cswap", 3, 3, false),
];

fn trimmed(text: &[u8]) -> &[u8] {
    text.trim_ascii()
}

fn note_parts(text: &[u8]) -> (&[u8], &[u8]) {
    let end = text.windows(2).position(|pair| pair == b"//").unwrap_or(text.len());
    let body = &trimmed(&text[..end])[1..];
    let len = run(body, |byte| is_letter(byte) || byte.is_ascii_digit() || byte == b'.');
    (&body[..len], trimmed(&body[len..]))
}

impl<'a> Meaning<'a> {
    fn notes(&self, item: &Item<'a>) -> Result<(usize, bool), Fault> {
        let (mut asserts, mut invariant) = (0, false);
        for note in &item.notes {
            let (name, rest) = note_parts(note.text);
            if name != b"assert" && name != b"invariant" {
                continue;
            }
            let is_name = rest.first().is_some_and(|byte| is_letter(*byte)) && run(rest, |byte| is_letter(byte) || byte.is_ascii_digit()) == rest.len();
            let stray = name == b"invariant" && (invariant || !matches!(item.node, Node::While { .. }));
            if !is_name || stray {
                return Err((note.at, "StrayAnnotation"));
            }
            asserts += usize::from(name == b"assert");
            invariant = invariant || name == b"invariant";
        }
        Ok((asserts, invariant))
    }

    fn look(&self, spot: &Spot<'a>, quantum: bool) -> Result<(u32, Option<u32>), Fault> {
        let Some(register) = self.names.get(spot.0.text).filter(|register| register.quantum == quantum) else {
            return Err((spot.0.at, "UnknownName"));
        };
        match (spot.1, register.size) {
            (None, size) => Ok((register.first, size)),
            (Some(index), Some(size)) if index < size => Ok((register.first + index, None)),
            _ => Err((spot.0.at, "IndexOut")),
        }
    }

    fn declare(&mut self, quantum: bool, name: Token<'a>, size: Option<u32>) -> Result<(), Fault> {
        if size == Some(0) {
            return Err((name.at, "EmptyRegister"));
        }
        if self.names.contains_key(name.text) {
            return Err((name.at, "TwiceDeclared"));
        }
        let (count, most, fault) = if quantum { (&mut self.qubits, 16, "TooManyQubits") } else { (&mut self.bits, 32, "TooManyBits") };
        let register = Register { quantum, first: *count, size };
        *count += register.len();
        if *count > most {
            return Err((name.at, fault));
        }
        self.names.insert(name.text, register);
        Ok(())
    }

    fn measure(&mut self, left: (&Spot<'a>, bool), right: Option<(&Spot<'a>, bool)>) -> Result<(), Fault> {
        let count = self.look(left.0, left.1)?.1.unwrap_or(1);
        if let Some((spot, quantum)) = right {
            if self.look(spot, quantum)?.1.unwrap_or(1) != count {
                return Err((spot.0.at, "SizeDiffers"));
            }
        }
        self.body.extend((0..count).map(|_| Stmt::Other));
        Ok(())
    }

    fn eighths(name: &str, angle: &Angle) -> Result<i64, Fault> {
        let refused = Err((angle.at, "AngleForm"));
        let eighths = match angle.over {
            None if angle.times == 0 => 0,
            Some(over @ (1 | 2 | 4)) if angle.times <= 1_000_000 => i64::from(4 / over * angle.times),
            _ => return refused,
        };
        if matches!(name, "rx" | "ry" | "rz") && eighths % 2 != 0 {
            return refused;
        }
        Ok(if angle.minus { -eighths } else { eighths })
    }

    fn call(&mut self, name: Token<'a>, angle: &Option<Angle>, spots: &[Spot<'a>]) -> Result<(), Fault> {
        let Some((gate, operands, statements, angled)) = GATES.iter().find(|gate| gate.0.as_bytes() == name.text) else {
            return Err((name.at, "UnknownGate"));
        };
        if angle.is_some() != *angled {
            return Err((name.at, "AngleForm"));
        }
        let eighths = match angle {
            Some(angle) => Self::eighths(gate, angle)?,
            None => 0,
        };
        if spots.len() != *operands {
            return Err((name.at, "OperandCount"));
        }
        let mut found = [(0, None); 3];
        for (spot, place) in spots.iter().zip(&mut found) {
            *place = self.look(spot, true)?;
        }
        let found = &found[..*operands];
        let size = found.iter().find_map(|register| register.1);
        for (spot, register) in spots.iter().zip(found) {
            if register.1.is_some() && register.1 != size {
                return Err((spot.0.at, "SizeDiffers"));
            }
        }
        for index in 0..size.unwrap_or(1) {
            let mut qubits = [0; 3];
            for (at, register) in found.iter().enumerate() {
                qubits[at] = register.0 + if register.1.is_some() { index } else { 0 };
                if qubits[..at].contains(&qubits[at]) {
                    return Err((spots[at].0.at, "RepeatedQubit"));
                }
            }
            self.body.extend((0..*statements).map(|_| Stmt::Gate { name: gate, eighths, operands: qubits }));
        }
        Ok(())
    }

    fn counted(&self, at: Place) -> Result<(), Fault> {
        if self.body.len() > 100_000 { Err((at, "TooManyStatements")) } else { Ok(()) }
    }

    fn item(&mut self, item: &Item<'a>, inside: bool) -> Result<(), Fault> {
        let (asserts, invariant) = self.notes(item)?;
        if inside && matches!(item.node, Node::Include | Node::Declare { .. }) {
            return Err((item.at, "DeclaredInBlock"));
        }
        match &item.node {
            Node::Include => {}
            Node::Declare { quantum, name, size, from } => {
                self.declare(*quantum, *name, *size)?;
                if let Some(from) = from {
                    self.measure((&(*name, None), false), Some((from, true)))?;
                }
            }
            Node::Measure { from, into: Some(into), into_first: true } => self.measure((into, false), Some((from, true)))?,
            Node::Measure { from, into, .. } => self.measure((from, true), into.as_ref().map(|into| (into, false)))?,
            Node::Reset(spot) => {
                let count = self.look(spot, true)?.1.unwrap_or(1);
                self.body.extend((0..count).map(|_| Stmt::Other));
            }
            Node::Barrier(spots) => {
                for spot in spots {
                    self.look(spot, true)?;
                }
            }
            Node::Call { name, angle, spots } => self.call(*name, angle, spots)?,
            Node::If { test, .. } | Node::While { test, .. } => {
                if matches!(item.node, Node::While { .. }) && !invariant {
                    return Err((item.at, "MissingInvariant"));
                }
                if self.look(test, false)?.1.unwrap_or(1) > 1 {
                    return Err((test.0.at, "SizeDiffers"));
                }
                self.body.push(Stmt::Other);
            }
        }
        self.body.extend((0..asserts).map(|_| Stmt::Other));
        self.counted(item.at)?;
        let (first, second): (&[Item<'a>], &[Item<'a>]) = match &item.node {
            Node::If { yes, no, .. } => (yes, no),
            Node::While { body, .. } => (body, &[]),
            _ => (&[], &[]),
        };
        for inner in first.iter().chain(second) {
            self.item(inner, true)?;
        }
        Ok(())
    }
}

fn read(text: &[u8]) -> Result<(u32, u32, usize, i64), Fault> {
    let mut reader = Reader { list: tokens(text)?, next: 0 };
    let (items, end) = reader.program()?;
    let mut meaning = Meaning::default();
    for item in &items {
        meaning.item(item, false)?;
    }
    if meaning.qubits == 0 {
        return Err((end, "NoQubits"));
    }
    let sum = meaning.body.iter().map(|stmt| match stmt {
        Stmt::Gate { name, eighths, operands } => name.len() as i64 + eighths + i64::from(operands[0]),
        Stmt::Other => 0,
    });
    Ok((meaning.qubits, meaning.bits, meaning.body.len(), sum.sum()))
}

fn main() {
    let name = env::args().nth(1).expect("a file");
    let text = fs::read(name).expect("a file that can be read");
    match read(&text) {
        Ok((qubits, bits, statements, sum)) => println!("{qubits} qubits, {bits} bits, {statements} statements, {sum}"),
        Err((at, fault)) => println!("refused: program {}:{}: {fault}", at.0, at.1),
    }
}
