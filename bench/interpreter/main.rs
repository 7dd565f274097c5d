// An ordinary interpreter, to be compared with `regver replay`: trees of the same shape, walked by `match`, with nothing
// proved. `interpreter for|case ROWS` runs two equal programs under the relation of `../replay_loops.sh`, row by row, and
// prints what `replay` prints.
#![allow(dead_code)]

use std::io::{self, BufWriter, Write};

#[derive(Clone, Copy)]
enum Kind {
    Bool,
    Sint,
    Int,
    Dint,
    Usint,
    Uint,
    Udint,
    Byte,
    Word,
    Dword,
}

#[derive(Clone, Copy)]
enum Operator {
    Or,
    Xor,
    And,
    Equal,
    NotEqual,
    Less,
    Greater,
    LessEqual,
    GreaterEqual,
    Plus,
    Minus,
    Times,
    Divide,
    Mod,
}

#[derive(Clone, Copy)]
enum UnaryOperator {
    Minus,
    Not,
}

enum Expr {
    Number(i64),
    Cell(usize),
    Unary(UnaryOperator, Kind, Box<Expr>),
    Chain(Box<Expr>, Vec<Operand>),
}

struct Operand {
    operator: Operator,
    kind: Kind,
    right: Expr,
}

enum Stmt {
    Assign(usize, Expr),
    If(Vec<Arm>, Vec<Stmt>),
    Case(Expr, Vec<Entry>, Vec<Stmt>),
    For(Turns, Vec<Stmt>),
}

struct Arm {
    condition: Expr,
    body: Vec<Stmt>,
}

struct Entry {
    labels: Vec<Range>,
    body: Vec<Stmt>,
}

#[derive(Clone, Copy)]
struct Turns {
    count: u16,
    control: usize,
    first: i64,
    step: i64,
}

#[derive(Clone, Copy)]
struct Range {
    low: i64,
    high: i64,
}

impl Range {
    fn contains(self, value: i64) -> bool {
        self.low <= value && value <= self.high
    }
}

struct Cell {
    range: Range,
    initial: i64,
}

struct Program {
    cells: Vec<Cell>,
    body: Vec<Stmt>,
}

// The low bits of a value, as the type reads them.
fn wrap(kind: Kind, value: i64) -> i64 {
    match kind {
        Kind::Bool => value & 1,
        Kind::Sint => value as i8 as i64,
        Kind::Int => value as i16 as i64,
        Kind::Dint => value as i32 as i64,
        Kind::Usint | Kind::Byte => value as u8 as i64,
        Kind::Uint | Kind::Word => value as u16 as i64,
        Kind::Udint | Kind::Dword => value as u32 as i64,
    }
}

// What an operator gives; a zero divisor gives 0 and a fault. Operands have at most 32 bits.
fn apply(operator: Operator, kind: Kind, left: i64, right: i64, fault: &mut bool) -> i64 {
    match operator {
        Operator::Or => left | right,
        Operator::Xor => left ^ right,
        Operator::And => left & right,
        Operator::Equal => (left == right) as i64,
        Operator::NotEqual => (left != right) as i64,
        Operator::Less => (left < right) as i64,
        Operator::Greater => (left > right) as i64,
        Operator::LessEqual => (left <= right) as i64,
        Operator::GreaterEqual => (left >= right) as i64,
        Operator::Plus => wrap(kind, left + right),
        Operator::Minus => wrap(kind, left - right),
        Operator::Times => wrap(kind, left.wrapping_mul(right)),
        Operator::Divide | Operator::Mod if right == 0 => {
            *fault = true;
            0
        }
        Operator::Divide => wrap(kind, left / right),
        Operator::Mod => wrap(kind, left % right),
    }
}

fn evaluate(expr: &Expr, state: &[i64], fault: &mut bool) -> i64 {
    match expr {
        Expr::Number(value) => *value,
        Expr::Cell(place) => state[*place],
        Expr::Unary(operator, kind, inner) => {
            let value = evaluate(inner, state, fault);
            match operator {
                UnaryOperator::Minus => wrap(*kind, -value),
                UnaryOperator::Not => wrap(*kind, !value),
            }
        }
        Expr::Chain(first, operands) => {
            let mut value = evaluate(first, state, fault);
            for operand in operands {
                let right = evaluate(&operand.right, state, fault);
                value = apply(operand.operator, operand.kind, value, right, fault);
            }
            value
        }
    }
}

// The value of an expression; a fault is noted in FAULT, the first cell.
fn value_of(expr: &Expr, state: &mut [i64]) -> i64 {
    let mut fault = false;
    let value = evaluate(expr, state, &mut fault);
    if fault {
        state[0] = 1;
    }
    value
}

fn store(cells: &[Cell], target: usize, value: i64, state: &mut [i64]) {
    if cells[target].range.contains(value) {
        state[target] = value;
    } else {
        state[0] = 1;
    }
}

fn run_all(list: &[Stmt], cells: &[Cell], state: &mut [i64]) {
    for stmt in list {
        run(stmt, cells, state);
    }
}

fn run(stmt: &Stmt, cells: &[Cell], state: &mut [i64]) {
    match stmt {
        Stmt::Assign(target, expr) => {
            let value = value_of(expr, state);
            store(cells, *target, value, state);
        }
        Stmt::If(arms, other) => {
            for arm in arms {
                if value_of(&arm.condition, state) == 1 {
                    return run_all(&arm.body, cells, state);
                }
            }
            run_all(other, cells, state);
        }
        Stmt::Case(selector, entries, other) => {
            let value = value_of(selector, state);
            for entry in entries {
                if entry.labels.iter().any(|label| label.contains(value)) {
                    return run_all(&entry.body, cells, state);
                }
            }
            run_all(other, cells, state);
        }
        Stmt::For(turns, body) => {
            let mut value = turns.first;
            for _ in 0..turns.count {
                store(cells, turns.control, value, state);
                run_all(body, cells, state);
                value += turns.step;
            }
            store(cells, turns.control, value, state);
        }
    }
}

fn scan(program: &Program, state: &mut [i64]) {
    state[0] = 0;
    run_all(&program.body, &program.cells, state);
}

// The cells of both programs, by their places.
const A: usize = 1;
const Q: usize = 2;
const I: usize = 3;
const J: usize = 4;

fn cell(range: Range) -> Cell {
    Cell { range, initial: 0 }
}

// FAULT, and a, q, i and j, of INT.
fn program(body: Vec<Stmt>) -> Program {
    let int = Range {
        low: -32768,
        high: 32767,
    };
    let mut cells = vec![cell(Range { low: 0, high: 1 })];
    cells.extend([A, Q, I, J].map(|_| cell(int)));
    Program { cells, body }
}

fn binary(left: Expr, operator: Operator, right: Expr) -> Expr {
    Expr::Chain(
        Box::new(left),
        vec![Operand {
            operator,
            kind: Kind::Int,
            right,
        }],
    )
}

// FOR control := first TO first + count - 1 DO body END_FOR
fn repeated(control: usize, first: i64, count: u16, body: Vec<Stmt>) -> Stmt {
    Stmt::For(
        Turns {
            count,
            control,
            first,
            step: 1,
        },
        body,
    )
}

// 16 times 4,096 turns of q := q + j
fn nested_loops() -> Program {
    let sum = Stmt::Assign(Q, binary(Expr::Cell(Q), Operator::Plus, Expr::Cell(J)));
    program(vec![repeated(
        I,
        1,
        16,
        vec![repeated(J, 1, 4096, vec![sum])],
    )])
}

// 1,000 turns of a CASE whose entry n of 1,000 is q := q + n * a, ELSE q := 0
fn many_labels() -> Program {
    let entry = |n: i64| Entry {
        labels: vec![Range { low: n, high: n }],
        body: vec![Stmt::Assign(
            Q,
            binary(
                Expr::Cell(Q),
                Operator::Plus,
                binary(Expr::Number(n), Operator::Times, Expr::Cell(A)),
            ),
        )],
    };
    let other = vec![Stmt::Assign(Q, Expr::Number(0))];
    let choice = Stmt::Case(Expr::Cell(I), (0..1000).map(entry).collect(), other);
    program(vec![repeated(I, 0, 1000, vec![choice])])
}

// Rows 0 and 1 by turns, loaded into a of both; FAULT and q of both have to agree after each.
fn replay(old: &Program, new: &Program, rows: i64, out: &mut impl Write) -> io::Result<()> {
    let start = |program: &Program| program.cells.iter().map(|cell| cell.initial).collect();
    let (mut of_old, mut of_new): (Vec<i64>, Vec<i64>) = (start(old), start(new));
    for row in 0..rows {
        of_old[A] = row % 2;
        of_new[A] = row % 2;
        scan(old, &mut of_old);
        scan(new, &mut of_new);
        writeln!(
            out,
            "SCAN {} OLD {} {} NEW {} {}",
            row + 1,
            of_old[0],
            of_old[Q],
            of_new[0],
            of_new[Q]
        )?;
        if of_old[Q] != of_new[Q] || of_old[0] != of_new[0] {
            return writeln!(out, "REPLAY unrelated at {}", row + 1);
        }
    }
    writeln!(out, "REPLAY scans {rows} related")
}

fn main() -> io::Result<()> {
    let words: Vec<String> = std::env::args().collect();
    let (build, rows) = match words.as_slice() {
        [_, name, rows] => (
            if name == "for" {
                nested_loops
            } else {
                many_labels
            },
            rows.parse().unwrap_or(0),
        ),
        _ => (nested_loops as fn() -> Program, 0),
    };
    let mut out = BufWriter::new(io::stdout().lock());
    replay(&build(), &build(), rows, &mut out)?;
    out.flush()
}
