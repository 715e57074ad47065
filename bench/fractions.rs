//! The work of `crates/frac_bench` in plain Rust over `i128`, as a yardstick: the same lines in, the same check sums out.
use std::cmp::Ordering;
use std::io::BufRead;

const LIMIT: u128 = 1 << 126;

#[derive(Clone, Copy, Debug)]
struct Wide;

#[derive(Clone, Copy, Debug)]
struct Plain {
    num: i128,
    den: i128,
}

fn gcd(a: u128, b: u128) -> u128 {
    let (mut x, mut y) = (a, b);
    while y != 0 {
        (x, y) = (y, x % y);
    }
    x
}

fn common(a: i128, b: i128) -> i128 {
    gcd(a.unsigned_abs(), b.unsigned_abs()) as i128
}

fn bounded(n: i128) -> Result<i128, Wide> {
    if n.unsigned_abs() < LIMIT { Ok(n) } else { Err(Wide) }
}

fn times(a: i128, b: i128) -> Result<i128, Wide> {
    bounded(a.checked_mul(b).ok_or(Wide)?)
}

impl Plain {
    fn from_parts(num: i128, den: i128) -> Result<Plain, Wide> {
        let g = common(num, den);
        Ok(Plain { num: bounded(num / g)?, den: bounded(den / g)? })
    }

    fn add(self, other: Plain) -> Result<Plain, Wide> {
        let g = common(self.den, other.den);
        let left = times(self.num, other.den / g)?;
        let right = times(other.num, self.den / g)?;
        let den = times(self.den, other.den / g)?;
        let sum = left + right;
        let h = common(sum, g);
        Ok(Plain { num: bounded(sum / h)?, den: den / h })
    }

    fn sub(self, other: Plain) -> Result<Plain, Wide> {
        self.add(Plain { num: -other.num, den: other.den })
    }

    fn mul(self, other: Plain) -> Result<Plain, Wide> {
        let g = common(self.num, other.den);
        let h = common(other.num, self.den);
        Ok(Plain { num: times(self.num / g, other.num / h)?, den: times(self.den / h, other.den / g)? })
    }

    fn compare(self, other: Plain) -> Result<Ordering, Wide> {
        let g = common(self.den, other.den);
        Ok(times(self.num, other.den / g)?.cmp(&times(other.num, self.den / g)?))
    }
}

fn next(state: u64) -> u64 {
    let a = state ^ (state << 13);
    let b = a ^ (a >> 7);
    b ^ (b << 17)
}

const ABOVE: i128 = 3_209_015_938_253_828_020_717_412_870_544_621;
const BELOW: i128 = 3_729_532_481_450_552_524_172_391_067_196_660;

fn operand(size: &str, n: u64, d: u64) -> Option<Plain> {
    let (num, den) = match size {
        "whole" => (i128::from(n >> 44), 1),
        "small" => (i128::from(n >> 44), i128::from(d >> 44)),
        "long" => (i128::from(n >> 4), i128::from(d >> 4)),
        _ => (ABOVE * i128::from(n >> 56), BELOW * i128::from(d >> 56)),
    };
    if den < 1 {
        return None;
    }
    Plain::from_parts(num, den).ok()
}

fn pairs(size: &str) -> Vec<(Plain, Plain)> {
    let mut pairs = Vec::new();
    let mut state = 88_172_645_463_325_252;
    for _ in 0..64 {
        let a = next(state);
        let b = next(a);
        let c = next(b);
        state = next(c);
        if let (Some(left), Some(right)) = (operand(size, a, b), operand(size, c, state)) {
            pairs.push((left, right));
        }
    }
    pairs
}

fn repeat(rounds: u32, pairs: &[(Plain, Plain)], operation: impl Fn(Plain, Plain) -> i128) -> i128 {
    let mut sum = 0i128;
    for _ in 0..rounds {
        for (left, right) in pairs {
            sum = sum.rotate_left(1).wrapping_add(operation(*left, *right));
        }
    }
    sum
}

fn numbers(answer: Result<Plain, Wide>) -> i128 {
    answer.map_or(-1, |value| value.num ^ value.den)
}

fn rank(answer: Result<Ordering, Wide>) -> i128 {
    match answer {
        Ok(Ordering::Less) => 2,
        Ok(Ordering::Equal) => 3,
        Ok(Ordering::Greater) => 5,
        Err(_) => -1,
    }
}

fn work(operation: &str, rounds: u32, pairs: &[(Plain, Plain)]) -> Option<i128> {
    match operation {
        "gcd" => Some(repeat(rounds, pairs, |x, y| gcd(x.num.unsigned_abs(), y.den.unsigned_abs()) as i128)),
        "add" => Some(repeat(rounds, pairs, |x, y| numbers(x.add(y)))),
        "sub" => Some(repeat(rounds, pairs, |x, y| numbers(x.sub(y)))),
        "mul" => Some(repeat(rounds, pairs, |x, y| numbers(x.mul(y)))),
        "compare" => Some(repeat(rounds, pairs, |x, y| rank(x.compare(y)))),
        _ => None,
    }
}

fn main() {
    for line in std::io::stdin().lock().lines() {
        let line = line.unwrap();
        let mut words = line.split_whitespace();
        let (Some(operation), Some(size), Some(rounds)) = (words.next(), words.next(), words.next()) else { continue };
        let Ok(rounds) = rounds.parse() else { continue };
        if let Some(sum) = work(operation, rounds, &pairs(size)) {
            println!("{operation} {sum}");
        }
    }
}
