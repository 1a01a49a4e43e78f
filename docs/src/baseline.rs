//! Documents 01 and 02 as a plain Rust program: plan bytes on standard input, the reserve report on standard output. With the argument `sheet`: a
//! rule sheet on standard input, its plan bytes on standard output or, on standard error, the number that turns it away. With the arguments `least`
//! and a target: plan bytes on standard input, the least opening that reaches it and its bounds on standard output. With the argument `openings`:
//! plan bytes on standard input, the bounds of survival at each opening from 0 to the plan's on standard output. With the argument `moves`: the
//! bytes of two plans that differ only in their chances, one after the other, on standard input, how far each line of their reports moves on
//! standard output. With the argument `tree` and a question (`survive` or nothing, or `both`, `high` or `low` and its number): bytes of a small plan
//! on standard input, its tree on standard output. With the argument `mix`: mix bytes on standard input, the report of the mix on standard output.
//! With the arguments `deficits` and a month: plan bytes on standard input, how deep the hole may be that this month brings on standard output.
//!
//!   rustc -O docs/src/baseline.rs -o OUT
//!
//! Written from these documents alone, not from the engine or its definitions. It has the rows and the order of work of these documents: two rows
//! of u + c × n + 1 numbers for an answer, k + 1 times that for both k, each replaced in place month by month, from the highest level down, and
//! the claim sum from the largest size down. The least opening takes one walk over the lower row for all openings and, for the one found, one
//! over the upper row; all openings take one walk over each row. A tree is read off the rows of all its months. Each deficit takes a walk of its own
//! over each row.
use std::collections::{BTreeMap, BTreeSet};
use std::fmt::{Display, Write as _};
use std::io::{self, Read, Write as _};
use std::{env, iter};

const S: u64 = 1 << 30;
const MONTHS: usize = 120;
const OPENING: usize = 200;
const SIZES: usize = 320;
const INCOME: usize = 8;
const LARGEST_LEVEL: usize = 320;
const CLAIMS: usize = 24;
const ASKED_LEVEL: usize = 320;

/// The widths in bits of n, u, m and c, and of each number of the row.
const HEAD_BITS: [usize; 4] = [7, 8, 9, 4];
const NUMBER_BITS: usize = 31;

struct Plan {
    opening: usize,
    income: usize,
    chances: Vec<u32>,
    weights: Vec<u32>,
    /// The weights of the sizes below the first empty one, the largest size first.
    run: Vec<u32>,
    /// The sizes above it that are not empty, and their weights, the largest size first.
    listed: Vec<(usize, u32)>,
}

impl Plan {
    fn new(opening: usize, income: usize, chances: &[u32], weights: &[u32]) -> Plan {
        let below = weights.iter().take_while(|&&weight| weight > 0).count();
        let run = weights[..below].iter().rev().copied().collect();
        let above = (below + 1..=weights.len()).rev().map(|x| (x, weights[x - 1]));
        let listed = above.filter(|&(_, weight)| weight > 0).collect();
        Plan { opening, income, chances: chances.to_vec(), weights: weights.to_vec(), run, listed }
    }

    /// The highest level at the end of this many months.
    fn top(&self, months: usize) -> usize {
        self.opening + self.income * months
    }

    /// How many levels a row has, 0 to the largest.
    fn levels(&self) -> usize {
        self.top(self.chances.len()) + 1
    }
}

#[derive(Clone, Copy)]
enum Question {
    Survive,
    Both(usize),
    High(usize),
    Low(usize),
}

/// What is added before a division by S, so that it rounds down or up.
const ROUNDINGS: [u64; 2] = [0, S - 1];

// ---- Plan bytes

struct Bits<'a> {
    bytes: &'a [u8],
    at: usize,
}

impl Bits<'_> {
    /// The next number of this width, most significant bit first.
    fn take(&mut self, width: usize) -> u64 {
        let mut number = 0;
        for at in self.at..self.at + width {
            number = number << 1 | u64::from(self.bytes[at / 8] >> (7 - at % 8) & 1);
        }
        self.at += width;
        number
    }
}

fn check_head([n, u, m, c]: [usize; 4]) -> Result<(), u32> {
    if n > MONTHS {
        return Err(2);
    }
    if u > OPENING {
        return Err(3);
    }
    if m == 0 || m > SIZES {
        return Err(4);
    }
    if c == 0 || c > INCOME {
        return Err(16);
    }
    if u + c * n > LARGEST_LEVEL {
        return Err(17);
    }
    Ok(())
}

fn check_tail([n, u, m, c]: [usize; 4], over: u64) -> Result<(), u32> {
    if over > 0 && m + 1 < u + c * n {
        return Err(9);
    }
    Ok(())
}

/// How many bytes a plan has, its head included.
fn plan_bytes(n: usize, m: usize) -> usize {
    (HEAD_BITS.iter().sum::<usize>() + NUMBER_BITS * (n + m + 1)).div_ceil(8)
}

/// The plan, or the number that turns the bytes away.
fn read(bytes: &[u8]) -> Result<Plan, u32> {
    if 8 * bytes.len() < HEAD_BITS.iter().sum() {
        return Err(1);
    }
    let mut bits = Bits { bytes, at: 0 };
    let head = HEAD_BITS.map(|width| bits.take(width) as usize);
    check_head(head)?;
    let [n, u, m, c] = head;
    if bytes.len() != plan_bytes(n, m) {
        return Err(5);
    }
    let row: Vec<u64> = (0..n + m + 1).map(|_| bits.take(NUMBER_BITS)).collect();
    if bits.take(8 * bytes.len() - bits.at) != 0 {
        return Err(6);
    }
    if row.iter().any(|&x| x > S) {
        return Err(7);
    }
    if row[n..].iter().sum::<u64>() != S {
        return Err(8);
    }
    check_tail(head, row[n + m])?;
    let row: Vec<u32> = row.iter().map(|&x| x as u32).collect();
    Ok(Plan::new(u, c, &row[..n], &row[n..n + m]))
}

fn write(head: [usize; 4], row: &[u64]) -> Vec<u8> {
    let head = head.map(|x| x as u64);
    let widths = HEAD_BITS.iter().chain(iter::repeat(&NUMBER_BITS));
    let mut bits = Vec::new();
    for (number, width) in head.iter().chain(row).zip(widths) {
        bits.extend((0..*width).rev().map(|at| (number >> at & 1) as u8));
    }
    bits.resize(bits.len().next_multiple_of(8), 0);
    bits.chunks(8).map(|byte| byte.iter().fold(0, |number, bit| number << 1 | bit)).collect()
}

// ---- Rule sheets

/// The widths in bits of the kind, n, u, m, first, step and alpha.
const SHEET_BITS: [usize; 7] = [8, 8, 8, 16, 64, 64, 64];
const LEVEL: u64 = 1;
const RAMP: u64 = 2;
const SHEET_INCOME: usize = 1;

/// Parts of S: the product is exact, since S is a power of 2, and the cast rounds what is not below 0 down.
fn parts(x: f64) -> u64 {
    (x * S as f64) as u64
}

/// The plan's head and row, or the number that turns the sheet away. Comparing takes minus zero for zero.
fn read_sheet(bytes: &[u8]) -> Result<([usize; 4], Vec<u64>), u32> {
    if 8 * bytes.len() != SHEET_BITS.iter().sum() {
        return Err(5);
    }
    let mut bits = Bits { bytes, at: 0 };
    let [kind, n, u, m, first, step, alpha] = SHEET_BITS.map(|width| bits.take(width));
    if kind != LEVEL && kind != RAMP {
        return Err(12);
    }
    let [n, u, m] = [n, u, m].map(|x| x as usize);
    let head = [n, u, m, SHEET_INCOME];
    check_head(head)?;
    let [first, step, alpha] = [first, step, alpha].map(f64::from_bits);
    if ![first, step, alpha].iter().all(|x| x.is_finite()) || !(0.0..1.0).contains(&alpha) || kind == LEVEL && step != 0.0 {
        return Err(13);
    }
    let chances: Vec<f64> = (0..n).map(|before| if kind == LEVEL { first } else { first + before as f64 * step }).collect();
    if !chances.iter().all(|chance| (0.0..=1.0).contains(chance)) {
        return Err(13);
    }
    let weights = iter::successors(Some(1.0 - alpha), |weight| Some(weight * alpha)).take(m);
    let mut row: Vec<u64> = chances.into_iter().chain(weights).map(parts).collect();
    let over = S.checked_sub(row[n..].iter().sum()).ok_or(8u32)?;
    check_tail(head, over)?;
    row.push(over);
    Ok((head, row))
}

// ---- The month rule

/// The claim sums at the falling levels s of a month, each told by its quiet level s + c, where a month without claim leads: of
/// F_x × row(s + c − x) over the sizes x = min(s + c − 1, m) .. 1 that are not empty.
fn claim_sums(plan: &Plan) -> impl FnMut(&[u32], usize) -> u64 + '_ {
    let mut listed = &plan.listed[..];
    move |row, quiet| {
        let (row, largest) = (&row[..quiet], quiet - 1);
        while listed.first().is_some_and(|&(x, _)| x > largest) {
            listed = &listed[1..]; // for good, since the levels fall
        }
        let mut sum = 0;
        for &(x, weight) in listed {
            sum += u64::from(weight) * u64::from(row[quiet - x]);
        }
        let run = plan.run.len().min(largest);
        for (&weight, &value) in plan.run[plan.run.len() - run..].iter().zip(&row[quiet - run..]) {
            sum += u64::from(weight) * u64::from(value);
        }
        sum
    }
}

/// Month t over its levels s from the highest down to 0, in place. `claims` is the claim sum at a quiet level, from the row as it is then. What it
/// leaves over by S is carried along, so that the value is the quotient by S × S rounded once. The value takes the place of its quiet level, which
/// no lower level asks for; at the end all go down to their own levels.
fn month(plan: &Plan, t: usize, add: u64, row: &mut [u32], mut claims: impl FnMut(&[u32], usize) -> u64) {
    let chance = u64::from(plan.chances[t - 1]);
    let (income, top) = (plan.income, plan.top(t));
    for quiet in (income..=top).rev() {
        let unclaimed = u64::from(row[quiet]);
        let sum = claims(row, quiet);
        let (claimed, left) = (sum / S, sum % S);
        let carried = (chance * left + add) / S;
        let value = ((S - chance) * unclaimed + chance * claimed + carried + add) / S;
        row[quiet] = value as u32;
    }
    row.copy_within(income..=top, 0);
}

/// From the rows at the end of month t to those before it.
fn month_of(plan: &Plan, question: Question, t: usize, add: u64, rows: &mut [u32]) {
    let levels = plan.levels();
    match question {
        Question::Survive => {}
        Question::High(level) => rows[(level + 1).min(levels)..].fill(0),
        Question::Low(level) => rows[..level.min(levels)].fill(0),
        Question::Both(k) => {
            for left in (1..=k).rev() {
                let (fewer, row) = rows[(left - 1) * levels..].split_at_mut(levels);
                let mut claims = claim_sums(plan);
                month(plan, t, add, row, |_, quiet| claims(fewer, quiet));
            }
            return month(plan, t, add, &mut rows[..levels], |_, _| 0);
        }
    }
    month(plan, t, add, rows, claim_sums(plan));
}

/// The value at the opening, from the rows at the end of this many months: one for each number of claims left, and none left comes first.
fn carried_back(plan: &Plan, question: Question, months: usize, add: u64, rows: &mut [u32]) -> u32 {
    for t in (1..=months).rev() {
        month_of(plan, question, t, add, rows);
    }
    rows[rows.len() - plan.levels() + plan.opening]
}

/// V_0(u) in one rounding, taken as 0 where the opening is above the level of high.
fn value(plan: &Plan, question: Question, add: u64, rows: &mut [u32]) -> u32 {
    if matches!(question, Question::High(level) if plan.opening > level) {
        return 0;
    }
    rows.fill(0);
    rows[..plan.levels()].fill(S as u32);
    carried_back(plan, question, plan.chances.len(), add, rows)
}

/// The value at the opening of a first ruin in month t by a claim that counts, in one rounding. The weights are those of the claims that count at the
/// levels 0, 1, .. before the month.
fn ruin(plan: &Plan, t: usize, add: u64, row: &mut [u32], weights: impl Iterator<Item = u64>) -> u32 {
    let chance = u64::from(plan.chances[t - 1]);
    for (value, weight) in row[..=plan.top(t - 1)].iter_mut().zip(weights) {
        *value = ((chance * weight + add) / S) as u32;
    }
    carried_back(plan, Question::Survive, t - 1, add, row)
}

/// Of failing first in month t. What the sizes below s + c leave of S are those that ruin, and over.
fn failure(plan: &Plan, t: usize, add: u64, row: &mut [u32]) -> u32 {
    let mut weights = plan.weights.iter().map(|&weight| u64::from(weight)).chain(iter::repeat(0));
    let mut ruining = S - weights.by_ref().take(plan.income - 1).sum::<u64>();
    let by_level = weights.map(|weight| {
        let at_level = ruining;
        ruining -= weight;
        at_level
    });
    ruin(plan, t, add, row, by_level)
}

/// The lower and the upper bound, each in its half of the workspace, which has so many rows.
fn both_ways(plan: &Plan, rows: usize, workspace: &mut [u32], one_way: impl Fn(u64, &mut [u32]) -> u32) -> [u32; 2] {
    let half = rows * plan.levels();
    let (lower, upper) = workspace[..2 * half].split_at_mut(half);
    [one_way(ROUNDINGS[0], lower), one_way(ROUNDINGS[1], upper)]
}

fn bounds(plan: &Plan, question: Question, workspace: &mut [u32]) -> [u32; 2] {
    let rows = if let Question::Both(k) = question { k + 1 } else { 1 };
    both_ways(plan, rows, workspace, |add, rows| value(plan, question, add, rows))
}

fn failure_bounds(plan: &Plan, t: usize, workspace: &mut [u32]) -> [u32; 2] {
    both_ways(plan, 1, workspace, |add, row| failure(plan, t, add, row))
}

fn count_row(plan: &Plan, add: u64) -> [u32; MONTHS + 1] {
    let mut row = [0; MONTHS + 1];
    row[0] = S as u32;
    for &chance in &plan.chances {
        let chance = u64::from(chance);
        for k in (0..=MONTHS).rev() {
            let fewer = if k > 0 { u64::from(row[k - 1]) } else { 0 };
            row[k] = ((chance * fewer + (S - chance) * u64::from(row[k]) + add) / S) as u32;
        }
    }
    row
}

// ---- How deep the hole is

/// The levels that the fund can have before month t by a chance above 0, not ruined till then.
fn levels_before(plan: &Plan, t: usize) -> BTreeSet<usize> {
    let mut levels = BTreeSet::from([plan.opening]);
    for &chance in &plan.chances[..t - 1] {
        let mut after = BTreeSet::new();
        for quiet in levels.into_iter().map(|level| level + plan.income) {
            after.extend((u64::from(chance) < S).then_some(quiet));
            let claims = (1..quiet).zip(&plan.weights).filter(|&(_, &weight)| chance > 0 && weight > 0);
            after.extend(claims.map(|(x, _)| quiet - x));
        }
        levels = after;
    }
    levels
}

/// How many deficits of one level are worked together, and what their rows hold at a level.
const TOGETHER: usize = 16;
type Values = [u32; TOGETHER];

/// Month t of these rows, whose values are 0 below `lowest`, as `month` does it for one row.
fn month_together(plan: &Plan, t: usize, add: u64, rows: &mut [Values], lowest: usize) {
    let chance = u64::from(plan.chances[t - 1]);
    let (income, top) = (plan.income, plan.top(t));
    for quiet in (lowest.max(income)..=top).rev() {
        let (mut sums, led_to) = ([0; TOGETHER], &rows[lowest.max(1)..quiet]);
        for (&weight, values) in plan.weights.iter().zip(led_to.iter().rev()).filter(|&(&weight, _)| weight > 0) {
            for (sum, &value) in sums.iter_mut().zip(values) {
                *sum += u64::from(weight) * u64::from(value);
            }
        }
        for (value, sum) in rows[quiet].iter_mut().zip(sums) {
            let carried = (chance * (sum % S) + add) / S;
            *value = (((S - chance) * u64::from(*value) + chance * (sum / S) + carried + add) / S) as u32;
        }
    }
    rows.copy_within(income..=top, 0);
}

/// The values at the opening of failing first in month t from this level by claims of these weights, which no other level counts.
fn deficit_values(plan: &Plan, t: usize, level: usize, weights: [u32; TOGETHER], add: u64) -> Values {
    let (chance, mut rows) = (u64::from(plan.chances[t - 1]), vec![[0; TOGETHER]; plan.top(t - 1) + 1]);
    rows[level] = weights.map(|weight| ((chance * u64::from(weight) + add) / S) as u32);
    for month in (1..t).rev() {
        month_together(plan, month, add, &mut rows, level.saturating_sub(plan.income * (t - 1 - month)));
    }
    rows[plan.opening]
}

/// The deficits of this level that have a weight, rising, with their bounds.
fn level_deficits(plan: &Plan, t: usize, level: usize) -> Vec<(usize, [u32; 2])> {
    let sizes = plan.weights.iter().skip(level + plan.income - 1);
    let listed: Vec<(usize, u32)> = sizes.copied().enumerate().filter(|&(_, weight)| weight > 0).collect();
    let mut found = Vec::new();
    for some in listed.chunks(TOGETHER) {
        let mut weights = [0; TOGETHER];
        weights.iter_mut().zip(some).for_each(|(weight, &(_, listed))| *weight = listed);
        let [lowers, uppers] = ROUNDINGS.map(|add| deficit_values(plan, t, level, weights, add));
        found.extend(some.iter().enumerate().map(|(at, &(deficit, _))| (deficit, [lowers[at], uppers[at]])));
    }
    found
}

/// A line for each level and deficit whose upper bound is above 0, then the sums of these bounds by deficit.
fn deficits_text(plan: &Plan, t: usize) -> Result<String, u32> {
    if t == 0 || t > plan.chances.len() {
        return Err(10);
    }
    let (mut text, mut totals) = (String::new(), BTreeMap::new());
    for level in levels_before(plan, t) {
        for (deficit, pair) in level_deficits(plan, t, level).into_iter().filter(|&(_, [_, upper])| upper > 0) {
            put(&mut text, &format!("deficit {level}"), Some(deficit), pair);
            let total: &mut [u64; 2] = totals.entry(deficit).or_default();
            *total = [total[0] + u64::from(pair[0]), total[1] + u64::from(pair[1])];
        }
    }
    for (deficit, pair) in totals {
        put(&mut text, "total", Some(deficit), pair);
    }
    Ok(text)
}

// ---- The least opening that is good enough, and all openings

/// Survival in one rounding at the openings 0 to the plan's, by one walk for all of them. "The work is given up in the month when no level reaches
/// the target any more", which a target of 0 never is: what stands there of these openings is below the target too.
fn opening_values(plan: &Plan, add: u64, target: u64) -> Vec<u32> {
    let months = plan.chances.len();
    let mut row = vec![S as u32; plan.levels()];
    'months: for t in (1..=months).rev() {
        month_of(plan, Question::Survive, t, add, &mut row);
        let reached = &row[..=plan.top(t - 1)];
        if reached.iter().all(|&value| u64::from(value) < target) {
            break 'months;
        }
    }
    row.truncate(plan.opening + 1);
    row
}

/// The least opening up to the plan's that reaches the target, and its bounds, or the number that turns the target away.
fn least_opening(plan: Plan, target: u64) -> Result<(usize, [u32; 2]), u32> {
    if target == 0 || target > S {
        return Err(14);
    }
    let lowers = opening_values(&plan, ROUNDINGS[0], target);
    let opening = lowers.iter().position(|&lower| u64::from(lower) >= target).ok_or(15u32)?;
    let found = Plan { opening, ..plan };
    let upper = value(&found, Question::Survive, ROUNDINGS[1], &mut vec![0; found.levels()]);
    Ok((opening, [lowers[opening], upper]))
}

/// The number of a word of digits; every one above S is taken as S + 1.
fn number_of(word: &str) -> Option<u64> {
    let digits = word.chars().map(|digit| digit.to_digit(10).map(u64::from));
    let number = digits.reduce(|number, digit| Some((10 * number? + digit?).min(S + 1)));
    number.flatten()
}

fn least_line(plan: Plan, target: u64) -> Result<String, u32> {
    let (opening, pair) = least_opening(plan, target)?;
    let mut text = String::new();
    put(&mut text, "opening", Some(opening), pair);
    Ok(text)
}

fn openings_text(plan: &Plan) -> String {
    let [lowers, uppers] = ROUNDINGS.map(|add| opening_values(plan, add, 0));
    let mut text = String::new();
    for (opening, (lower, upper)) in lowers.into_iter().zip(uppers).enumerate() {
        put(&mut text, "opening", Some(opening), [lower, upper]);
    }
    text
}

// ---- Trees of small plans

const SMALL_MONTHS: usize = 6;
const SMALL_OPENING: usize = 6;
const SMALL_INCOME: usize = 1;

fn question_of(words: &[String]) -> Option<Question> {
    match words {
        [] => Some(Question::Survive),
        [word] => (word == "survive").then_some(Question::Survive),
        [word, number] => {
            let number = number_of(number)? as usize;
            match word.as_str() {
                "both" => Some(Question::Both(number)),
                "high" => Some(Question::High(number)),
                "low" => Some(Question::Low(number)),
                _ => None,
            }
        }
        _ => None,
    }
}

fn check_small(plan: &Plan, question: Question) -> Result<(), u32> {
    let asked = match question {
        Question::Survive => true,
        Question::Both(k) => k <= CLAIMS,
        Question::High(level) | Question::Low(level) => level <= ASKED_LEVEL,
    };
    let small = plan.chances.len() <= SMALL_MONTHS && plan.opening <= SMALL_OPENING && plan.income == SMALL_INCOME;
    if asked && small { Ok(()) } else { Err(10) }
}

/// The rows at the end of each month, of which the first is month 0, in one rounding.
fn rows_by_month(plan: &Plan, question: Question, add: u64) -> Vec<Vec<u32>> {
    let more = if let Question::Both(k) = question { k } else { 0 };
    let mut rows = vec![S as u32; plan.levels()];
    rows.resize((1 + more) * plan.levels(), 0);
    let mut by_month = vec![rows.clone()];
    for t in (1..=plan.chances.len()).rev() {
        month_of(plan, question, t, add, &mut rows);
        by_month.push(rows.clone());
    }
    by_month.reverse();
    by_month
}

/// Where a month can end: a level, and how many claims are left to place.
type End = (usize, usize);

struct Tree {
    plan: Plan,
    question: Question,
    /// In each rounding the rows by month.
    rows: [Vec<Vec<u32>>; 2],
}

impl Tree {
    fn new(plan: Plan, question: Question) -> Tree {
        let rows = ROUNDINGS.map(|add| rows_by_month(&plan, question, add));
        Tree { plan, question, rows }
    }

    /// Whether the question forbids this level at the end of month t; month 0 is the opening.
    fn stops(&self, t: usize, level: usize) -> bool {
        match self.question {
            Question::High(most) => level > most,
            Question::Low(least) => t > 0 && level < least,
            _ => false,
        }
    }

    fn described(&self, t: usize, (level, left): End) -> String {
        let at = left * self.plan.levels() + level;
        let [lower, upper] = [&self.rows[0], &self.rows[1]].map(|by_month| by_month[t][at]);
        match self.question {
            Question::Both(_) => format!("level {level} left {left} {lower} {upper}"),
            _ if self.stops(t, level) => format!("level {level} forbidden 0 0"),
            _ => format!("level {level} {lower} {upper}"),
        }
    }

    /// Where a claim of size x leads, if one is left to place.
    fn claimed(&self, (level, left): End, x: usize) -> Option<End> {
        let fewer = if let Question::Both(_) = self.question { left.checked_sub(1)? } else { left };
        Some((level + 1 - x, fewer))
    }

    /// What month t + 1 brings after this end of month t; the ends that it can come to are added to those of other ends. What the sizes up to the
    /// level leave of S ruins.
    fn put_month(&self, text: &mut String, t: usize, end: End, later: &mut BTreeSet<End>) {
        let (level, left) = end;
        let (chance, quiet) = (u64::from(self.plan.chances[t]), (level + 1, left));
        writeln!(text, "  chance {chance}\n  no claim {}", self.described(t + 1, quiet)).unwrap();
        later.extend((chance < S).then_some(quiet));
        let mut ruining = S;
        for (x, &weight) in (1..=level).zip(&self.plan.weights).filter(|&(_, &weight)| weight > 0) {
            let claimed = self.claimed(end, x);
            let place = claimed.map_or("none left 0 0".to_string(), |end| self.described(t + 1, end));
            writeln!(text, "  claim {x} weight {weight} {place}").unwrap();
            later.extend(claimed.filter(|_| chance > 0));
            ruining -= u64::from(weight);
        }
        writeln!(text, "  ruin weight {ruining}").unwrap();
    }

    /// Month by month, from the highest end down.
    fn text(&self) -> String {
        let asked = if let Question::Both(k) = self.question { k } else { 0 };
        let (mut text, mut ends) = (String::new(), BTreeSet::from([(self.plan.opening, asked)]));
        for t in 0..=self.plan.chances.len() {
            let mut later = BTreeSet::new();
            for &end in ends.iter().rev() {
                writeln!(text, "month {t} {}", self.described(t, end)).unwrap();
                if t < self.plan.chances.len() && !self.stops(t, end.0) {
                    self.put_month(&mut text, t, end, &mut later);
                }
            }
            ends = later;
        }
        text
    }
}

fn tree_text(plan: Plan, question: Question) -> Result<String, u32> {
    check_small(&plan, question)?;
    Ok(Tree::new(plan, question).text())
}

// ---- The reserve report

fn put(text: &mut String, word: &str, number: Option<usize>, [lower, upper]: [impl Display; 2]) {
    match number {
        Some(number) => writeln!(text, "{word} {number} {lower} {upper}").unwrap(),
        None => writeln!(text, "{word} {lower} {upper}").unwrap(),
    }
}

/// The most that a question of a report needs.
fn largest_workspace(plan: &Plan) -> Vec<u32> {
    vec![0; 2 * plan.levels() * (CLAIMS + 1)]
}

fn put_head(text: &mut String, plan: &Plan) {
    let (n, u, m, c) = (plan.chances.len(), plan.opening, plan.weights.len(), plan.income);
    writeln!(text, "months {n} opening {u} sizes {m} income {c}").unwrap();
}

/// The lines of both, high and low, whose bounds `bounds_of` gives.
fn put_questions(text: &mut String, plan: &Plan, mut bounds_of: impl FnMut(Question) -> [u32; 2]) {
    let n = plan.chances.len();
    for k in 0..=n.min(CLAIMS) {
        put(text, "both", Some(k), bounds_of(Question::Both(k)));
    }
    for level in 1..=plan.top(n) {
        put(text, "high", Some(level), bounds_of(Question::High(level)));
    }
    for level in 1..=plan.opening + plan.income {
        put(text, "low", Some(level), bounds_of(Question::Low(level)));
    }
}

fn report(plan: &Plan) -> String {
    let (n, mut workspace, mut text) = (plan.chances.len(), largest_workspace(plan), String::new());
    put_head(&mut text, plan);
    put(&mut text, "survive", None, bounds(plan, Question::Survive, &mut workspace));
    let counts = ROUNDINGS.map(|add| count_row(plan, add));
    for k in 0..=n {
        put(&mut text, "claims", Some(k), [counts[0][k], counts[1][k]]);
    }
    put_questions(&mut text, plan, |question| bounds(plan, question, &mut workspace));
    let mut totals = [0, 0];
    for t in 1..=n {
        let pair = failure_bounds(plan, t, &mut workspace);
        put(&mut text, "fails", Some(t), pair);
        totals = [totals[0] + u64::from(pair[0]), totals[1] + u64::from(pair[1])];
    }
    put(&mut text, "fails all", None, totals);
    text
}

// ---- How far chances can move the result

/// The last two words of a line are its bounds.
fn bounds_of(line: &str) -> (&str, [u64; 2]) {
    let mut words = line.rsplitn(3, ' ');
    let [upper, lower] = [(); 2].map(|_| words.next().unwrap().parse().unwrap());
    (words.next().unwrap(), [lower, upper])
}

/// The differences of the two bounds of each line of the reports, and the sum of the differences of the chances that bounds them: of months 1 to t
/// for `fails t`, of all months for the others. The first line has no bounds, and the last one adds others up.
fn moves(plan: &Plan, other: &Plan) -> String {
    let chances = plan.chances.iter().zip(&other.chances);
    let differences: Vec<u64> = chances.map(|(&one, &another)| u64::from(one.abs_diff(another))).collect();
    let (report, moved) = (report(plan), report(other));
    let mut text = String::new();
    for (line, moved) in report.lines().zip(moved.lines()).skip(1).filter(|(line, _)| !line.starts_with("fails all")) {
        let (words, pair) = bounds_of(line);
        let (_, other_pair) = bounds_of(moved);
        let months = words.strip_prefix("fails ").map_or(differences.len(), |t| t.parse().unwrap());
        let apart: u64 = differences[..months].iter().sum();
        writeln!(text, "{words} {} {} {apart}", pair[0].abs_diff(other_pair[0]), pair[1].abs_diff(other_pair[1])).unwrap();
    }
    text
}

/// The same from two plans' bytes, one after the other, which are accepted.
fn moves_text(bytes: &[u8]) -> String {
    let mut bits = Bits { bytes, at: 0 };
    let [n, _, m, _] = HEAD_BITS.map(|width| bits.take(width) as usize);
    let [one, other] = <[&[u8]; 2]>::from(bytes.split_at(plan_bytes(n, m))).map(|bytes| read(bytes).expect("an accepted plan"));
    moves(&one, &other)
}

// ---- Mixes

const PLANS: usize = 8;
const WEIGHT_BYTES: usize = 4;

struct Mix {
    weights: Vec<u64>,
    plans: Vec<Plan>,
}

/// How many of these bytes are the next plan's: as many as its head asks, or all that are left.
fn next_plan(bytes: &[u8]) -> usize {
    if 8 * bytes.len() < HEAD_BITS.iter().sum() {
        return bytes.len();
    }
    let mut bits = Bits { bytes, at: 0 };
    let [n, _, m, _] = HEAD_BITS.map(|width| bits.take(width) as usize);
    plan_bytes(n, m).min(bytes.len())
}

/// But for their chances. The weights tell over, which is what they leave of S.
fn alike(one: &Plan, other: &Plan) -> bool {
    let heads = [one, other].map(|plan| (plan.chances.len(), plan.opening, plan.income));
    heads[0] == heads[1] && one.weights == other.weights
}

/// The mix, or the number that turns the bytes away.
fn read_mix(bytes: &[u8]) -> Result<Mix, u32> {
    let (&count, bytes) = bytes.split_first().ok_or(1u32)?;
    let count = usize::from(count);
    if count == 0 || count > PLANS {
        return Err(18);
    }
    let (weights, mut rest) = bytes.split_at_checked(WEIGHT_BYTES * count).ok_or(1u32)?;
    let mut bits = Bits { bytes: weights, at: 0 };
    let weights: Vec<u64> = (0..count).map(|_| bits.take(8 * WEIGHT_BYTES)).collect();
    let mut plans = Vec::new();
    for later in (0..count).rev() {
        let taken = if later > 0 { next_plan(rest) } else { rest.len() };
        plans.push(read(&rest[..taken])?);
        rest = &rest[taken..];
    }
    if !plans.iter().all(|plan| alike(plan, &plans[0])) || weights.iter().sum::<u64>() != S {
        return Err(18);
    }
    Ok(Mix { weights, plans })
}

/// The weighted sums of the plans' bounds, divided by S, the lower one rounded down and the upper one up.
fn mix_bounds(mix: &Mix, question: Question, workspace: &mut [u32]) -> [u32; 2] {
    let mut totals = ROUNDINGS;
    for (weight, plan) in mix.weights.iter().zip(&mix.plans) {
        for (total, bound) in totals.iter_mut().zip(bounds(plan, question, workspace)) {
            *total += weight * u64::from(bound);
        }
    }
    totals.map(|total| (total / S) as u32)
}

fn mix_report(mix: &Mix) -> String {
    let (first, mut text) = (&mix.plans[0], String::new());
    let mut workspace = largest_workspace(first);
    put_head(&mut text, first);
    put(&mut text, "survive", None, mix_bounds(mix, Question::Survive, &mut workspace));
    put_questions(&mut text, first, |question| mix_bounds(mix, question, &mut workspace));
    text
}

/// A refused plan is an answer, too.
fn print(text: Result<String, u32>) -> io::Result<()> {
    let text = text.unwrap_or_else(|number| format!("refused {number}\n"));
    io::stdout().write_all(text.as_bytes())
}

fn main() -> io::Result<()> {
    let mut bytes = Vec::new();
    io::stdin().read_to_end(&mut bytes)?;
    let mut words = env::args().skip(1);
    match words.next().as_deref() {
        Some("sheet") => match read_sheet(&bytes) {
            Ok((head, row)) => io::stdout().write_all(&write(head, &row)),
            Err(number) => writeln!(io::stderr(), "refused {number}"),
        },
        Some("least") => match words.next().as_deref().and_then(number_of) {
            Some(target) => print(read(&bytes).and_then(|plan| least_line(plan, target))),
            None => writeln!(io::stderr(), "a target is a whole number"),
        },
        Some("openings") => print(read(&bytes).map(|plan| openings_text(&plan))),
        Some("deficits") => match words.next().as_deref().and_then(number_of) {
            Some(month) => print(read(&bytes).and_then(|plan| deficits_text(&plan, month as usize))),
            None => writeln!(io::stderr(), "a month is a whole number"),
        },
        Some("moves") => print(Ok(moves_text(&bytes))),
        Some("tree") => match question_of(&words.collect::<Vec<String>>()) {
            Some(question) => print(read(&bytes).and_then(|plan| tree_text(plan, question))),
            None => writeln!(io::stderr(), "a question is survive, both, high or low, the last three with a whole number"),
        },
        Some("mix") => print(read_mix(&bytes).map(|mix| mix_report(&mix))),
        _ => print(read(&bytes).map(|plan| report(&plan))),
    }
}
