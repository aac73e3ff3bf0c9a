// A check of a program of gates against a set file in plain Rust, by docs/SETS.md: the yardstick for the crates that read
// set files and judge. It stands on the gates of apply_yardstick.rs.
// Arguments: a program and a set file. The program has one register q, and calls of x, h, t and cx on it by their indices.
// It prints the line that refuses the set file or a claim, or the verdict.
#[allow(dead_code)]
#[path = "apply_yardstick.rs"]
mod play;
mod tokens;

use play::{Amp, Entry, Gate, ZERO, apply, checked, lowest};
use std::collections::{HashMap, HashSet};
use std::{env, fs};
use tokens::{Place, comment_len, is_letter, place_behind, run};

type Fault = (Place, &'static str);

const ONE: Amp = Amp { num: [1, 0, 0, 0], power: 0 };
const MOST_NODES: usize = 100_000;
const MOST_STEPS: u128 = 20_000_000;
const RESERVED: &[&str] = &["set", "claim", "when", "and", "union", "all", "w", "i", "sqrt2"];
const EQUALS: u8 = b'E';

// ---- tokens

#[derive(Clone, Copy, PartialEq)]
enum Kind {
    Name,
    Word,
    Number(u128),
    Ket,
    Sign(u8),
    End,
}

#[derive(Clone, Copy)]
struct Token<'a> {
    kind: Kind,
    text: &'a [u8],
    at: Place,
}

fn number(rest: &[u8]) -> Result<(Kind, usize), &'static str> {
    let len = run(rest, |byte| byte.is_ascii_digit());
    let mut value: u128 = 0;
    for digit in &rest[..len] {
        let next = value.checked_mul(10).and_then(|tens| tens.checked_add(u128::from(digit - b'0')));
        value = next.filter(|number| *number < 1 << 127).ok_or("LongNumber")?;
    }
    Ok((Kind::Number(value), len))
}

fn token(rest: &[u8]) -> Result<(Kind, usize), &'static str> {
    Ok(match rest[0] {
        first if is_letter(first) => {
            let len = run(rest, |byte| is_letter(byte) || byte.is_ascii_digit());
            let word = RESERVED.iter().any(|word| word.as_bytes() == &rest[..len]);
            (if word { Kind::Word } else { Kind::Name }, len)
        }
        b'0'..=b'9' => return number(rest),
        b'|' => {
            let len = run(&rest[1..], |byte| byte == b'0' || byte == b'1');
            if len == 0 || rest.get(len + 1) != Some(&b'>') {
                return Err("BadKet");
            }
            (Kind::Ket, len + 2)
        }
        b'=' if rest.get(1) == Some(&b'=') => (Kind::Sign(EQUALS), 2),
        first if b"=;,[]()*^+-/".contains(&first) => (Kind::Sign(first), 1),
        _ => return Err("BadByte"),
    })
}

fn tokens(text: &[u8]) -> Result<Vec<Token<'_>>, Fault> {
    if let Err(error) = std::str::from_utf8(text) {
        return Err((place_behind((1, 1), &text[..error.valid_up_to()]), "NotUtf8"));
    }
    let (mut list, mut offset, mut at) = (Vec::new(), 0, (1, 1));
    while offset < text.len() {
        let rest = &text[offset..];
        let len = if matches!(rest[0], b' ' | b'\t' | b'\r' | b'\n') {
            1
        } else if rest[0] == b'/' && matches!(rest.get(1), Some(b'/' | b'*')) {
            comment_len(rest).map_err(|name| (at, name))?
        } else {
            let (kind, len) = token(rest).map_err(|name| (at, name))?;
            list.push(Token { kind, text: &rest[..len], at });
            len
        };
        at = place_behind(at, &rest[..len]);
        offset += len;
    }
    list.push(Token { kind: Kind::End, text: b"", at });
    Ok(list)
}

// ---- the grammar

struct Term<'a> {
    at: Place,
    num: [i128; 4],
    roots: u128,
    ket: Token<'a>,
}

// an operand, at its operator, and its power
struct Part<'a> {
    at: Place,
    expr: Expr<'a>,
    power: Option<(Place, u128)>,
}

enum Expr<'a> {
    Bracket(Place, Vec<Term<'a>>),
    All(Place, u128),
    Name(Token<'a>),
    Tensor(Vec<Part<'a>>),
    Union(Vec<Part<'a>>),
}

struct Cond<'a> {
    bit: &'a [u8],
}

struct Case<'a> {
    at: Place,
    expr: Expr<'a>,
    when: Vec<Cond<'a>>,
}

struct Item<'a> {
    claim: bool,
    name: Token<'a>,
    cases: Vec<Case<'a>>,
}

struct Reader<'a> {
    list: Vec<Token<'a>>,
    next: usize,
}

impl<'a> Reader<'a> {
    fn peek(&self) -> Token<'a> {
        self.list[self.next.min(self.list.len() - 1)]
    }

    fn take(&mut self, is: impl Fn(Token<'a>) -> bool) -> Result<Token<'a>, Fault> {
        let token = self.peek();
        if !is(token) {
            return Err((token.at, "Unexpected"));
        }
        self.next += 1;
        Ok(token)
    }

    fn sees(&self, sign: u8) -> bool {
        self.peek().kind == Kind::Sign(sign)
    }

    fn sees_word(&self, word: &str) -> bool {
        self.peek().kind == Kind::Word && self.peek().text == word.as_bytes()
    }

    fn sign(&mut self, sign: u8) -> Result<Token<'a>, Fault> {
        self.take(|token| token.kind == Kind::Sign(sign))
    }

    fn maybe(&mut self, sign: u8) -> bool {
        let sees = self.sees(sign);
        self.next += usize::from(sees);
        sees
    }

    fn maybe_word(&mut self, word: &str) -> bool {
        let sees = self.sees_word(word);
        self.next += usize::from(sees);
        sees
    }

    fn name(&mut self) -> Result<Token<'a>, Fault> {
        self.take(|token| token.kind == Kind::Name)
    }

    fn number(&mut self) -> Result<u128, Fault> {
        match self.take(|token| matches!(token.kind, Kind::Number(_)))?.kind {
            Kind::Number(number) => Ok(number),
            _ => Ok(0),
        }
    }

    fn exponent(&mut self) -> Result<u128, Fault> {
        if self.maybe(b'^') { self.number() } else { Ok(1) }
    }

    fn int(&mut self) -> Result<i128, Fault> {
        let minus = self.maybe(b'-');
        let number = self.number()? as i128;
        Ok(if minus { -number } else { number })
    }

    fn scalar(&mut self) -> Result<[i128; 4], Fault> {
        if self.maybe(b'(') {
            let mut num = [self.int()?, 0, 0, 0];
            for place in &mut num[1..] {
                self.sign(b',')?;
                *place = self.int()?;
            }
            self.sign(b')')?;
            return Ok(num);
        }
        let factor = if matches!(self.peek().kind, Kind::Number(_)) { self.number()? as i128 } else { 1 };
        let whole = Amp { num: [factor, 0, 0, 0], power: 0 };
        if self.maybe_word("i") {
            return Ok(whole.turn(2).num);
        }
        let turns = if self.maybe_word("w") { self.exponent()? % 8 } else { 0 };
        Ok(whole.turn(turns as u8).num)
    }

    fn term(&mut self, minus: bool) -> Result<Term<'a>, Fault> {
        let (at, mut num, mut roots) = (self.peek().at, ONE.num, 0);
        let scalar = matches!(self.peek().kind, Kind::Number(_)) || self.sees_word("w") || self.sees_word("i") || self.sees(b'(');
        if scalar {
            num = self.scalar()?;
            if self.maybe(b'/') {
                self.take(|token| token.kind == Kind::Word && token.text == b"sqrt2")?;
                roots = self.exponent()?;
            }
        }
        if minus {
            num = num.map(|number| -number);
        }
        Ok(Term { at, num, roots, ket: self.take(|token| token.kind == Kind::Ket)? })
    }

    fn bracket(&mut self) -> Result<Vec<Term<'a>>, Fault> {
        let minus = self.maybe(b'-');
        let mut terms = vec![self.term(minus)?];
        while !self.maybe(b']') {
            let sign = self.take(|token| matches!(token.kind, Kind::Sign(b'+' | b'-')))?;
            terms.push(self.term(sign.text == b"-")?);
        }
        Ok(terms)
    }

    fn atom(&mut self, depth: u32) -> Result<Expr<'a>, Fault> {
        let token = self.peek();
        if token.kind == Kind::Name {
            return Ok(Expr::Name(self.name()?));
        }
        if self.maybe_word("all") {
            return Ok(Expr::All(token.at, self.number()?));
        }
        if self.maybe(b'[') {
            return Ok(Expr::Bracket(token.at, self.bracket()?));
        }
        if self.sees(b'(') && depth == 64 {
            return Err((token.at, "TooDeep"));
        }
        self.sign(b'(')?;
        let inner = self.expr(depth + 1)?;
        self.sign(b')')?;
        Ok(inner)
    }

    fn power(&mut self, at: Place, depth: u32) -> Result<Part<'a>, Fault> {
        let expr = self.atom(depth)?;
        let caret = self.peek().at;
        let power = if self.maybe(b'^') { Some((caret, self.number()?)) } else { None };
        Ok(Part { at, expr, power })
    }

    fn tensor(&mut self, depth: u32) -> Result<Expr<'a>, Fault> {
        let mut parts = vec![self.power(self.peek().at, depth)?];
        while self.sees(b'*') {
            let at = self.sign(b'*')?.at;
            parts.push(self.power(at, depth)?);
        }
        Ok(Expr::Tensor(parts))
    }

    fn expr(&mut self, depth: u32) -> Result<Expr<'a>, Fault> {
        let mut parts = vec![Part { at: self.peek().at, expr: self.tensor(depth)?, power: None }];
        while self.sees_word("union") {
            let at = self.peek().at;
            self.next += 1;
            parts.push(Part { at, expr: self.tensor(depth)?, power: None });
        }
        Ok(Expr::Union(parts))
    }

    fn cond(&mut self) -> Result<Cond<'a>, Fault> {
        let bit = self.name()?.text;
        if self.maybe(b'[') {
            self.number()?;
            self.sign(b']')?;
        }
        self.sign(EQUALS)?;
        self.take(|token| matches!(token.kind, Kind::Number(0 | 1)))?;
        Ok(Cond { bit })
    }

    fn case(&mut self, claim: bool) -> Result<Case<'a>, Fault> {
        let mut case = Case { at: self.peek().at, expr: self.expr(0)?, when: Vec::new() };
        if claim && self.maybe_word("when") {
            case.when.push(self.cond()?);
            while self.maybe_word("and") {
                case.when.push(self.cond()?);
            }
        }
        Ok(case)
    }

    fn item(&mut self) -> Result<Item<'a>, Fault> {
        let word = self.take(|token| token.kind == Kind::Word && matches!(token.text, b"set" | b"claim"))?;
        let (claim, name) = (word.text == b"claim", self.name()?);
        self.sign(b'=')?;
        let mut cases = vec![self.case(claim)?];
        while claim && self.maybe(b',') {
            cases.push(self.case(true)?);
        }
        self.sign(b';')?;
        Ok(Item { claim, name, cases })
    }

    fn file(&mut self) -> Result<Vec<Item<'a>>, Fault> {
        let mut items = Vec::new();
        while self.peek().kind != Kind::End {
            items.push(self.item()?);
        }
        Ok(items)
    }
}

// ---- what the items mean

enum Node {
    Kets(Vec<(usize, Amp)>),
    All,
    Tensor(usize, usize),
    Union(usize, usize),
    Power(usize, u128),
}

#[derive(Default)]
struct Meaning<'a> {
    table: Vec<(Node, u128)>,
    nodes: usize,
    names: HashMap<&'a [u8], Option<usize>>,
    claims: HashMap<&'a [u8], (Vec<usize>, Vec<&'a [u8]>)>,
}

fn refuse_if(test: bool, at: Place, name: &'static str) -> Result<(), Fault> {
    if test { Err((at, name)) } else { Ok(()) }
}

impl<'a> Meaning<'a> {
    fn count(&mut self, at: Place) -> Result<(), Fault> {
        self.nodes += 1;
        refuse_if(self.nodes > MOST_NODES, at, "TooManyNodes")
    }

    fn node(&mut self, at: Place, refused: bool, node: Node, qubits: u128) -> Result<usize, Fault> {
        refuse_if(refused, at, "QubitCount")?;
        self.count(at)?;
        self.table.push((node, qubits));
        Ok(self.table.len() - 1)
    }

    fn bracket(&mut self, at: Place, terms: &[Term<'a>]) -> Result<usize, Fault> {
        let qubits = terms[0].ket.text.len() - 2;
        let (mut kets, mut found) = (HashSet::new(), Vec::new());
        for term in terms {
            let digits = &term.ket.text[1..term.ket.text.len() - 1];
            refuse_if(term.roots > u128::from(u32::MAX), term.at, "AmpTooWide")?;
            refuse_if(qubits > 16, term.ket.at, "QubitCount")?;
            refuse_if(digits.len() != qubits, term.ket.at, "KetLength")?;
            let index = digits.iter().fold(0, |n, digit| 2 * n + usize::from(digit - b'0'));
            refuse_if(!kets.insert(index), term.ket.at, "RepeatedKet")?;
            self.count(term.ket.at)?;
            found.push((index, lowest(term.num, term.roots as u32)));
        }
        self.node(at, false, Node::Kets(found), qubits as u128)
    }

    fn part(&mut self, part: &Part<'a>) -> Result<usize, Fault> {
        let base = self.expr(&part.expr)?;
        match part.power {
            None => Ok(base),
            Some((at, times)) => {
                let qubits = self.table[base].1.saturating_mul(times);
                self.node(at, qubits == 0 || qubits > 16, Node::Power(base, times), qubits)
            }
        }
    }

    fn expr(&mut self, expr: &Expr<'a>) -> Result<usize, Fault> {
        match expr {
            Expr::Bracket(at, terms) => self.bracket(*at, terms),
            Expr::All(at, qubits) => self.node(*at, *qubits == 0 || *qubits > 16, Node::All, *qubits),
            Expr::Name(name) => self.names.get(name.text).copied().flatten().ok_or((name.at, "UnknownSet")),
            Expr::Tensor(parts) => {
                let mut left = self.part(&parts[0])?;
                for part in &parts[1..] {
                    let right = self.part(part)?;
                    let qubits = self.table[left].1 + self.table[right].1;
                    left = self.node(part.at, qubits > 16, Node::Tensor(left, right), qubits)?;
                }
                Ok(left)
            }
            Expr::Union(parts) => {
                let mut left = self.part(&parts[0])?;
                for part in &parts[1..] {
                    let right = self.part(part)?;
                    let qubits = self.table[left].1;
                    left = self.node(part.at, qubits != self.table[right].1, Node::Union(left, right), qubits)?;
                }
                Ok(left)
            }
        }
    }

    fn item(&mut self, item: &Item<'a>) -> Result<(), Fault> {
        refuse_if(self.names.len() == 1000, item.name.at, "TooManyNames")?;
        refuse_if(self.names.contains_key(item.name.text), item.name.at, "TwiceNamed")?;
        let (mut sets, mut bits) = (Vec::new(), Vec::new());
        for case in &item.cases {
            sets.push(self.expr(&case.expr)?);
            bits.extend(case.when.iter().map(|cond| cond.bit));
        }
        for (case, set) in item.cases.iter().zip(&sets) {
            refuse_if(self.table[*set].1 != self.table[sets[0]].1, case.at, "QubitCount")?;
        }
        self.names.insert(item.name.text, if item.claim { None } else { Some(sets[0]) });
        if item.claim {
            self.claims.insert(item.name.text, (sets, bits));
        }
        Ok(())
    }

    // the cases of a claim; the programs have no bits
    fn claim(&self, name: &str, qubits: u32) -> Result<&[usize], String> {
        let refused = |fault| format!("refused: claim {name}: {fault}");
        let (sets, bits) = self.claims.get(name.as_bytes()).ok_or(refused("UnknownClaim"))?;
        if self.table[sets[0]].1 != u128::from(qubits) {
            return Err(refused("QubitsDiffer"));
        }
        if bits.is_empty() { Ok(sets) } else { Err(refused("BitUnknown")) }
    }
}

// ---- steps, and what is listed

// for each expression the choices at each qubit, and the nodes
fn sizes(table: &[(Node, u128)]) -> Vec<(Vec<u128>, u128)> {
    let mut found: Vec<(Vec<u128>, u128)> = Vec::new();
    for (node, qubits) in table {
        let size = match node {
            Node::Kets(terms) => (vec![1; *qubits as usize], 1 + terms.len() as u128),
            Node::All => (vec![2; *qubits as usize], 1),
            Node::Tensor(left, right) => {
                ([&found[*left].0[..], &found[*right].0].concat(), found[*left].1.saturating_add(found[*right].1).saturating_add(1))
            }
            Node::Union(left, right) => {
                let mut shape: Vec<u128> = found[*left].0.iter().zip(&found[*right].0).map(|(l, r)| *l.max(r)).collect();
                shape[0] = found[*left].0[0].saturating_add(found[*right].0[0]);
                (shape, found[*left].1.saturating_add(found[*right].1).saturating_add(1))
            }
            Node::Power(base, times) => (found[*base].0.repeat(*times as usize), found[*base].1.saturating_add(*times)),
        };
        found.push(size);
    }
    found
}

fn enough(table: &[(Node, u128)], qubits: u32, statements: usize, before: &[usize], after: &[usize]) -> u128 {
    let sizes = sizes(table);
    let words = |set: &usize| sizes[*set].0.iter().fold(1u128, |n, choices| n.saturating_mul(*choices));
    let sum = |sets: &[usize]| sets.iter().fold(0u128, |n, set| n.saturating_add(words(set)));
    let weights = before.iter().chain(after).fold(0u128, |n, set| n.saturating_add(words(set).saturating_mul(sizes[*set].1)));
    let runs = sum(before).saturating_mul((statements as u128 + 1).saturating_add(sum(after)));
    runs.saturating_add(weights).saturating_mul(16 << qubits)
}

fn product(left: Amp, right: Amp) -> Option<Amp> {
    let ([a, b, c, d], [e, f, g, h]) = (left.num, right.num);
    let rows = [
        [(a, e, 1), (b, h, -1), (c, g, -1), (d, f, -1)],
        [(a, f, 1), (b, e, 1), (c, h, -1), (d, g, -1)],
        [(a, g, 1), (b, f, 1), (c, e, 1), (d, h, -1)],
        [(a, h, 1), (b, g, 1), (c, f, 1), (d, e, 1)],
    ];
    let mut num = [0; 4];
    for (sum, row) in num.iter_mut().zip(rows) {
        for (x, y, sign) in row {
            *sum = checked(i128::checked_add(*sum, checked(x.checked_mul(y)?)? * sign)?)?;
        }
    }
    Some(lowest(num, left.power.checked_add(right.power)?))
}

type Vector = Vec<Amp>;

fn tensors(left: &[Vector], right: &[Vector]) -> Option<Vec<Vector>> {
    let mut found = Vec::new();
    for first in left {
        for second in right {
            let mut vector = Vec::with_capacity(first.len() * second.len());
            for amp in first {
                for other in second {
                    vector.push(product(*amp, *other)?);
                }
            }
            found.push(vector);
        }
    }
    Some(found)
}

fn vectors(table: &[(Node, u128)], at: usize) -> Option<Vec<Vector>> {
    let (mut chain, mut first) = (Vec::new(), at);
    while let Node::Union(left, right) = table[first].0 {
        chain.push(right);
        first = left;
    }
    if !chain.is_empty() {
        let mut found = vectors(table, first)?;
        for part in chain.into_iter().rev() {
            found.extend(vectors(table, part)?);
        }
        return Some(found);
    }
    let size = 1usize << table[at].1;
    match &table[at].0 {
        Node::Kets(terms) => {
            let mut vector = vec![ZERO; size];
            for (index, amp) in terms {
                vector[*index] = *amp;
            }
            Some(vec![vector])
        }
        Node::Tensor(left, right) => tensors(&vectors(table, *left)?, &vectors(table, *right)?),
        Node::Power(base, times) => {
            let base = vectors(table, *base)?;
            let mut found = base.clone();
            for _ in 1..*times {
                found = tensors(&found, &base)?;
            }
            Some(found)
        }
        _ => Some((0..size).map(|index| (0..size).map(|x| if x == index { ONE } else { ZERO }).collect()).collect()),
    }
}

// ---- the judge

// whether the vectors are one state; none where a product doesn't fit
fn is_multiple(end: &[Amp], goal: &[Amp]) -> Option<bool> {
    let pivot = (0..end.len()).find(|x| end[*x] != ZERO || goal[*x] != ZERO).unwrap_or(0);
    for x in pivot..end.len() {
        if (end[x] == ZERO) != (goal[x] == ZERO) {
            return Some(false);
        }
        if end[x] != ZERO && product(end[x], goal[pivot])? != product(end[pivot], goal[x])? {
            return Some(false);
        }
    }
    Some(true)
}

// whether the end is kept; none where that can't be told
fn is_kept(end: &[Amp], goals: &[Vector]) -> Option<bool> {
    let mut told = Some(false);
    for goal in goals {
        match is_multiple(end, goal) {
            Some(true) => return Some(true),
            Some(false) => {}
            None => told = None,
        }
    }
    if end.iter().all(|amp| *amp == ZERO) { Some(true) } else { told }
}

fn judged(table: &[(Node, u128)], qubits: u32, gates: &[Gate], before: &[usize], after: &[usize]) -> Option<bool> {
    let listed = |sets: &[usize]| -> Option<Vec<Vector>> {
        let mut found = Vec::new();
        for set in sets {
            found.extend(vectors(table, *set)?);
        }
        Some(found)
    };
    let goals = listed(after)?;
    for mut state in listed(before)? {
        for gate in gates {
            apply(&mut state, qubits, gate).ok()?;
        }
        if !is_kept(&state, &goals)? {
            return Some(false);
        }
    }
    Some(true)
}

// the number of qubits, and the gates
fn program(text: &str) -> (u32, Vec<Gate>) {
    let unit = |turn, roots| Entry::Unit { turn, roots };
    let flip = [[Entry::Zero, unit(0, 0)], [unit(0, 0), Entry::Zero]];
    let numbers = |call: &str| -> Vec<u32> { call.split('[').skip(1).map(|part| part.split(']').next().unwrap().parse().unwrap()).collect() };
    let (mut qubits, mut gates) = (1, Vec::new());
    for call in text.split(';').map(str::trim).filter(|call| !call.is_empty()) {
        let mut spots = numbers(call);
        let target = spots.pop().unwrap_or(1);
        let rows = match call.split([' ', '[']).next().unwrap() {
            "qubit" => {
                qubits = target;
                continue;
            }
            "h" => [[unit(0, 1), unit(0, 1)], [unit(0, 1), unit(4, 1)]],
            "t" => [[unit(0, 0), Entry::Zero], [Entry::Zero, unit(1, 0)]],
            _ => flip,
        };
        gates.push(Gate { controls: spots, target, rows });
    }
    (qubits, gates)
}

fn check(text: &str, sets: &[u8]) -> Result<&'static str, String> {
    let (qubits, gates) = program(text);
    let mut meaning = Meaning::default();
    let refused = |(at, name): Fault| format!("refused: sets {}:{}: {name}", at.0, at.1);
    let items = Reader { list: tokens(sets).map_err(refused)?, next: 0 }.file().map_err(refused)?;
    for item in &items {
        meaning.item(item).map_err(refused)?;
    }
    if !meaning.claims.contains_key(&b"post"[..]) && meaning.claims.contains_key(&b"pre"[..]) {
        return Err("refused: claim post: UnknownClaim".to_string());
    }
    let (before, after) = (meaning.claim("pre", qubits)?, meaning.claim("post", qubits)?);
    if MOST_STEPS < enough(&meaning.table, qubits, gates.len(), before, after) {
        return Ok("1 post: gave up steps");
    }
    Ok(match judged(&meaning.table, qubits, &gates, before, after) {
        Some(true) => "1 post: verified",
        Some(false) => "1 post: refuted",
        None => "1 post: gave up width",
    })
}

fn main() {
    let words: Vec<String> = env::args().collect();
    let text = fs::read_to_string(&words[1]).expect("a program that can be read");
    let sets = fs::read(&words[2]).expect("a set file that can be read");
    match check(&text, &sets) {
        Ok(line) => println!("{line}"),
        Err(line) => println!("{line}"),
    }
}
