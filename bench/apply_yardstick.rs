// The play of a gate on a plain vector of 16 qubits, in plain Rust: the yardstick for `apply_plain`.
// Arguments: the gate (h, t, cx or ccx), the coefficients (small or large), and how often the gate is played.
use std::env;

#[derive(Clone, Copy, PartialEq)]
pub struct Amp {
    pub num: [i128; 4],
    pub power: u32,
}

#[derive(Clone, Copy)]
pub enum Entry {
    Zero,
    Unit { turn: u8, roots: u8 },
}

pub const ZERO: Amp = Amp { num: [0; 4], power: 0 };

fn is_even(n: i128) -> bool {
    n % 2 == 0
}

fn half_sum(x: i128, y: i128) -> i128 {
    x / 2 + y / 2 + (x % 2 + y % 2) / 2
}

pub fn checked(n: i128) -> Option<i128> {
    if n == i128::MIN { None } else { Some(n) }
}

pub fn lowest(mut num: [i128; 4], mut power: u32) -> Amp {
    if num == [0; 4] {
        return ZERO;
    }
    while power > 0 && is_even(num[0]) == is_even(num[2]) && is_even(num[1]) == is_even(num[3]) {
        let [a, b, c, d] = num;
        num = [half_sum(b, -d), half_sum(a, c), half_sum(b, d), half_sum(c, -a)];
        power -= 1;
    }
    Amp { num, power }
}

fn times_root(num: [i128; 4]) -> Option<[i128; 4]> {
    let [a, b, c, d] = num;
    Some([
        checked(b.checked_sub(d)?)?,
        checked(a.checked_add(c)?)?,
        checked(b.checked_add(d)?)?,
        checked(c.checked_sub(a)?)?,
    ])
}

fn times_roots(mut num: [i128; 4], times: u32) -> Option<[i128; 4]> {
    for _ in 0..times {
        num = times_root(num)?;
    }
    Some(num)
}

impl Amp {
    pub fn turn(self, times: u8) -> Amp {
        let mut num = self.num;
        for _ in 0..times {
            let [a, b, c, d] = num;
            num = [-d, a, b, c];
        }
        Amp { num, power: self.power }
    }

    fn over_root(self) -> Option<Amp> {
        Some(lowest(self.num, self.power.checked_add(1)?))
    }

    fn sum(self, other: Amp) -> Option<Amp> {
        if self.num == [0; 4] {
            return Some(other);
        }
        if other.num == [0; 4] {
            return Some(self);
        }
        let power = self.power.max(other.power);
        let [a, b, c, d] = times_roots(self.num, power - self.power)?;
        let [e, f, g, h] = times_roots(other.num, power - other.power)?;
        let num = [
            checked(a.checked_add(e)?)?,
            checked(b.checked_add(f)?)?,
            checked(c.checked_add(g)?)?,
            checked(d.checked_add(h)?)?,
        ];
        Some(lowest(num, power))
    }
}

fn term(entry: Entry, amp: Amp) -> Result<Amp, Amp> {
    match entry {
        Entry::Zero => Ok(ZERO),
        Entry::Unit { turn, roots } => {
            let mut rest = amp.turn(turn);
            for _ in 0..roots {
                match rest.over_root() {
                    Some(quotient) => rest = quotient,
                    None => return Err(rest),
                }
            }
            Ok(rest)
        }
    }
}

fn row_sum(row: [Entry; 2], left: Amp, right: Amp) -> Result<Amp, (Amp, Amp)> {
    let left = term(row[0], left).map_err(|wide| (wide, wide))?;
    let right = term(row[1], right).map_err(|wide| (wide, wide))?;
    left.sum(right).ok_or((left, right))
}

fn fitting_sum(row: [Entry; 2], left: Amp, right: Amp) -> Result<Amp, (Amp, Amp)> {
    match row {
        [Entry::Unit { turn, roots: 0 }, Entry::Zero] => Ok(left.turn(turn)),
        [Entry::Zero, Entry::Unit { turn, roots: 0 }] => Ok(right.turn(turn)),
        _ => row_sum(row, left, right),
    }
}

fn always_fits(row: [Entry; 2]) -> bool {
    matches!(
        row,
        [Entry::Zero, Entry::Unit { roots: 0, .. }] | [Entry::Unit { roots: 0, .. }, Entry::Zero]
    )
}

pub struct Gate {
    pub controls: Vec<u32>,
    pub target: u32,
    pub rows: [[Entry; 2]; 2],
}

fn digit(index: usize, qubits: u32, qubit: u32) -> usize {
    (index >> (qubits - 1 - qubit)) % 2
}

pub fn apply(amps: &mut [Amp], qubits: u32, gate: &Gate) -> Result<(), (Amp, Amp)> {
    let weight = 1usize << (qubits - 1 - gate.target);
    let controlled = |x: usize| gate.controls.iter().all(|c| digit(x, qubits, *c) == 1);
    if !(always_fits(gate.rows[0]) && always_fits(gate.rows[1])) {
        for x in 0..amps.len() {
            if controlled(x) {
                let row = digit(x, qubits, gate.target);
                let low = x - row * weight;
                row_sum(gate.rows[row], amps[low], amps[low + weight])?;
            }
        }
    }
    for x in 0..amps.len() {
        if digit(x, qubits, gate.target) == 0 && controlled(x) {
            let (left, right) = (amps[x], amps[x + weight]);
            amps[x] = fitting_sum(gate.rows[0], left, right)?;
            amps[x + weight] = fitting_sum(gate.rows[1], left, right)?;
        }
    }
    Ok(())
}

fn main() {
    let words: Vec<String> = env::args().collect();
    let unit = |turn, roots| Entry::Unit { turn, roots };
    let flip = [[Entry::Zero, unit(0, 0)], [unit(0, 0), Entry::Zero]];
    let gate = match words[1].as_str() {
        "h" => Gate { controls: vec![], target: 9, rows: [[unit(0, 1), unit(0, 1)], [unit(0, 1), unit(4, 1)]] },
        "t" => Gate { controls: vec![], target: 9, rows: [[unit(0, 0), Entry::Zero], [Entry::Zero, unit(1, 0)]] },
        "cx" => Gate { controls: vec![3], target: 9, rows: flip },
        _ => Gate { controls: vec![3, 12], target: 9, rows: flip },
    };
    let base: i128 = if words[2] == "large" { 1 << 99 } else { 1 };
    let mut amps: Vec<Amp> = (0..65536)
        .map(|i| Amp { num: [base + i, base + 3 * i, base, base + 7], power: 0 })
        .collect();
    let times: u32 = words[3].parse().unwrap();
    for _ in 0..times {
        if apply(&mut amps, 16, &gate).is_err() {
            println!("wide");
            return;
        }
    }
    println!("{}", amps[5].num[1]);
}
