//! Prints a header for each expression of tests/cases/built.cases, made by the builder of this package. The
//! plan of each gives the answer that the header has.

use tensor::{evaluate, Expr, Fault, Plan};

const VALUES: [[i64; 6]; 3] = [[7, -7, i64::MIN, i64::MAX, 0, 3], [2, 0, -1, 1, 5, 7], [1, -2, 3, -4, 5, -6]];

/// The sum of two inputs eight times, by sums of sums: too many nodes to be written twice.
fn eight(a: &Expr, b: &Expr) -> Expr {
    let once = a + b;
    let twice = &once + &once;
    let four = &twice + &twice;
    &four + &four
}

fn place_by_place(a: &Expr, b: &Expr, c: &Expr) -> Vec<Expr> {
    vec![
        -a, a.is_zero(), !a, a.bit_count(), a.abs(), a.square(),
        a + b, a - b, a * b, a / b, a % b,
        a.lt(b), a.le(b), a.eq(b), a.ne(b), a.gt(b), a.ge(b),
        a.and(b), a.or(b), a & b, a | b, a ^ b, a << b, a >> b,
        a.cwise_max(b), a.cwise_min(b),
        a * 3 + b, 7 - c, -9 >> &b.abs(), b.constant(i64::MIN), a.lt(b).select(a, 0),
    ]
}

fn others(a: &Expr, b: &Expr, c: &Expr) -> Vec<Expr> {
    let (sums, product, times) = (a.sum(&[1]), a.matmul(c), eight(a, b));
    let less = &product * &product - &product;
    vec![
        a.broadcast(&[2, 1]), a.slice(&[0, 1], &[2, 2]), a.shuffle(&[1, 0]), a.reshape(&[6]), a.stride(&[1, 2]),
        a.pad(&[[1, 0], [0, 2]]), a.chip(1, 0), a.reverse(&[true, false]), a.concat(b, 1),
        a.sum(&[0]), a.prod(&[0, 1]), a.maximum(&[1]), a.minimum(&[1]), a.all(&[]), b.any(&[0]),
        a.cumsum(1), a.cumprod(0), a.argmax(1), b.argmin(0),
        a.contract(b, &[[0, 0], [1, 1]]), product, a.convolve(&c.slice(&[0, 0], &[2, 2]), &[0, 1]),
        a.take(&c.chip(0, 1).and(1), 0),
        &sums + 1, less.contract(&less, &[[1, 0]]), &times * &times,
    ]
}

/// Prints the header, once the plan has given the same answer, as a whole and from the last place on.
fn print(it: &Expr) -> Result<(), Fault> {
    let header = it.header();
    let has = |number: &usize| header.text.contains(&format!(r#""{number:010}":{{"#));
    let arrays: Vec<&[i64]> = (0..3).filter(has).map(|it| VALUES[it].as_slice()).collect();
    let plan = Plan::of(&header, &vec![6; arrays.len()])?;
    let (whole, mut last) = (evaluate(&header, &arrays, 1)?, [0]);
    assert_eq!(plan.run(&arrays)?, whole);
    plan.run_part(&arrays, whole.values.len() as u64 - 1, &mut last)?;
    assert_eq!(last[..], whole.values[whole.values.len() - 1..]);
    assert_eq!(plan.run(&[&[1]]), Err(Fault { number: 7 }));
    println!("{}", header.text);
    Ok(())
}

fn main() -> Result<(), Fault> {
    let [a, b, c] = [(0, [2, 3]), (1, [2, 3]), (2, [3, 2])].map(|(it, dims)| Expr::input(it, &dims));
    let mut all = place_by_place(&a, &b, &c);
    all.extend(others(&a, &b, &c));
    all.iter().try_for_each(print)
}
