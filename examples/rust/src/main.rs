//! Adds two arrays, and asks for dims that don't fit: `cargo run` in examples/rust, once ./build/library has
//! made the library at the top of the repository.

use tensor::{evaluate, Expr, Fault, Plan};

fn main() -> Result<(), Fault> {
    let (a, b) = (Expr::input(0, &[3]), Expr::input(1, &[3]));
    let arrays: [&[i64]; 2] = [&[1, 2, 3], &[10, 20, 30]];
    for expr in [&a + &b, &a + &b.slice(&[0], &[2])] {
        match evaluate(&expr.header(), &arrays, 2) {
            Ok(tensor) => println!("{:?} of dims {:?}", tensor.values, tensor.dims),
            Err(fault) => println!("fault {fault}"),
        }
    }
    // Read once, and evaluated over other arrays.
    let plan = Plan::of(&(&a * 2 - &b).sum(&[0]).header(), &[3, 3])?;
    for more in [arrays, [&[4, 5, 6], &[1, 1, 1]]] {
        println!("{:?}", plan.run(&more)?.values);
    }
    Ok(())
}
