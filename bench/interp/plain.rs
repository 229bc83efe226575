// The same tree, walked by a plain loop in Rust: the comparison for the block interpreter.
use std::hint::black_box;

enum Data { Whole(i64), #[allow(dead_code)] Flag(bool), Text(String) }
#[derive(Clone, Copy)]
enum Operator { Add, #[allow(dead_code)] Subtract, #[allow(dead_code)] Multiply }
enum Expr { Literal(Data), Name(String), Chain(Operator, Box<Expr>, Vec<Expr>) }
enum Form { Assign(String, Expr), Repeat(Expr, Vec<Stmt>), #[allow(dead_code)] Print(Expr) }
struct Stmt { #[allow(dead_code)] row: u32, form: Form }
struct Binding { name: String, value: Data }
struct Run { names: Vec<Binding>, steps: u32, lines: Vec<String> }

enum Fault { UnknownName, WrongKind, Overflow, OutOfSteps }

fn copy(data: &Data) -> Data {
    match data {
        Data::Whole(n) => Data::Whole(*n),
        Data::Flag(b) => Data::Flag(*b),
        Data::Text(t) => Data::Text(t.clone()),
    }
}

fn value(names: &[Binding], expr: &Expr) -> Result<Data, Fault> {
    match expr {
        Expr::Literal(data) => Ok(copy(data)),
        Expr::Name(name) => match names.iter().find(|b| b.name == *name) {
            Some(binding) => Ok(copy(&binding.value)),
            None => Err(Fault::UnknownName),
        },
        Expr::Chain(operator, first, rest) => {
            let mut sum = value(names, first)?;
            for operand in rest {
                let (Data::Whole(x), Data::Whole(y)) = (&sum, value(names, operand)?) else {
                    return Err(Fault::WrongKind);
                };
                let z = match operator {
                    Operator::Add => x.checked_add(y),
                    Operator::Subtract => x.checked_sub(y),
                    Operator::Multiply => x.checked_mul(y),
                };
                sum = Data::Whole(z.ok_or(Fault::Overflow)?);
            }
            Ok(sum)
        }
    }
}

impl Run {
    fn take_step(&mut self) -> Result<(), Fault> {
        if self.steps == 0 { return Err(Fault::OutOfSteps); }
        self.steps -= 1;
        Ok(())
    }

    fn body(&mut self, body: &[Stmt]) -> Result<(), Fault> {
        for statement in body {
            self.take_step()?;
            match &statement.form {
                Form::Assign(name, expr) => {
                    let value = value(&self.names, expr)?;
                    let binding = self.names.iter_mut().find(|b| b.name == *name);
                    binding.ok_or(Fault::UnknownName)?.value = value;
                }
                Form::Repeat(count, body) => {
                    let Data::Whole(turns) = value(&self.names, count)? else { return Err(Fault::WrongKind) };
                    for _ in 0..turns {
                        self.take_step()?;
                        self.body(body)?;
                    }
                }
                Form::Print(expr) => match value(&self.names, expr)? {
                    Data::Text(text) => self.lines.push(text),
                    _ => return Err(Fault::WrongKind),
                },
            }
        }
        Ok(())
    }
}

fn main() {
    let numbers: Vec<i64> = std::env::args().skip(1).filter_map(|w| w.parse().ok()).collect();
    let (runs, turns) = (numbers[0], numbers[1]);
    let n = || "n".to_string();
    let sum = Expr::Chain(Operator::Add, Box::new(Expr::Name(n())), vec![Expr::Literal(Data::Whole(1))]);
    let step = Stmt { row: 1, form: Form::Assign(n(), sum) };
    let block = vec![Stmt { row: 1, form: Form::Repeat(Expr::Literal(Data::Whole(turns)), vec![step]) }];
    let mut left = 0;
    for _ in 0..runs {
        let names = vec![Binding { name: n(), value: Data::Whole(0) }];
        let mut run = Run { names, steps: 10_000, lines: vec![] };
        let _ = black_box(run.body(black_box(&block)));
        left = run.steps;
    }
    println!("{runs} runs, {left} steps left of each");
}
