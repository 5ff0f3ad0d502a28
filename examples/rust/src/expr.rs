//! Expressions that make headers, by the operations of docs/REQUEST.md and docs/FRAMES.md under their
//! names:
//!
//! ```
//! use tensor::Expr;
//! let (x, y) = (Expr::input(0, &[2, 3]), Expr::input(1, &[2, 3]));
//! let header = (&x * 3 + y).sum(&[0]).header();
//! ```

use crate::Header;
use std::collections::{BTreeMap, HashMap};
use std::ops::{Add, BitAnd, BitOr, BitXor, Div, Mul, Neg, Not, Rem, Shl, Shr, Sub};
use std::rc::Rc;

/// From so many nodes on, what stands in several places is bound by `let`.
const MANY: usize = 16;

/// An operation, its operands, and the text of its arguments; or an input and the text of its dims.
struct Node {
    name: String,
    arguments: String,
    operands: Vec<Expr>,
    /// Whether it combines many values, or something below it does; and how many nodes it is written as.
    combines: bool,
    nodes: usize,
    /// An input of the same dims, if one is known.
    input: Option<Expr>,
}

/// An expression. An operator takes two of equal dims, or one and a number; `/` and `%` round down. The
/// calls check dims and arguments, and return the fault. A header nests up to 120 operations.
#[derive(Clone)]
pub struct Expr(Rc<Node>);

/// What stands beside an expression: another one, or a number that stands at each place.
pub trait Operand {
    fn beside(self, other: &Expr) -> Expr;
}

impl Operand for Expr {
    fn beside(self, _: &Expr) -> Expr {
        self
    }
}

impl Operand for &Expr {
    fn beside(self, _: &Expr) -> Expr {
        self.clone()
    }
}

impl Operand for i64 {
    fn beside(self, other: &Expr) -> Expr {
        other.constant(self)
    }
}

/// Methods of one form: each is the operation of its name.
macro_rules! methods {
    ($combines:literal, $arguments:ident: $kind:ty, $($name:ident)*) => {$(
        pub fn $name(&self, $arguments: $kind) -> Expr {
            self.over(stringify!($name), &[], format!("{:?}", $arguments), $combines)
        }
    )*};
}

/// Methods that take nothing more.
macro_rules! alone {
    ($($name:ident)*) => {$(
        pub fn $name(&self) -> Expr {
            self.each(stringify!($name), &[])
        }
    )*};
}

/// Methods that take what stands beside the expression.
macro_rules! pairwise {
    ($($name:ident)*) => {$(
        pub fn $name(&self, other: impl Operand) -> Expr {
            self.each(stringify!($name), &[other.beside(self)])
        }
    )*};
}

impl Expr {
    /// The input of a number, of these dims. The arrays come in the order of the numbers. An input that
    /// an expression doesn't have has no array.
    pub fn input(number: u32, dims: &[u64]) -> Self {
        let (name, arguments) = (format!("{number:010}"), format!("{dims:?}"));
        let (operands, combines, nodes, input) = (vec![], false, 1, None);
        Expr(Rc::new(Node { name, arguments, operands, combines, nodes, input }))
    }

    pub fn header(&self) -> Header {
        Writing::default().header(self)
    }

    methods!(false, sizes: &[u64], broadcast shuffle reshape stride);
    methods!(false, pairs: &[[u64; 2]], pad);
    methods!(false, flags: &[bool], reverse);
    methods!(true, axes: &[u64], sum prod maximum minimum all any);
    methods!(true, axis: u64, cumsum cumprod argmax argmin);
    alone!(abs square bit_count);
    pairwise!(lt le eq ne gt ge and or cwise_max cwise_min);

    /// 1 where a value is 0, else 0. The operator `!` turns each bit.
    pub fn is_zero(&self) -> Expr {
        self.each("not", &[])
    }

    pub fn constant(&self, value: i64) -> Expr {
        let beside = self.input_alike().unwrap_or(self.clone());
        beside.made("constant", &[], value.to_string(), false, self.input_alike())
    }

    /// `x` where this isn't 0, else `y`.
    pub fn select(&self, x: impl Operand, y: impl Operand) -> Expr {
        self.each("select", &[x.beside(self), y.beside(self)])
    }

    pub fn slice(&self, offsets: &[u64], extents: &[u64]) -> Expr {
        self.over("slice", &[], format!("{offsets:?},{extents:?}"), false)
    }

    pub fn chip(&self, offset: u64, axis: u64) -> Expr {
        self.over("chip", &[], format!("{offset},{axis}"), false)
    }

    pub fn concat(&self, other: &Expr, axis: u64) -> Expr {
        self.over("concat", &[other.clone()], axis.to_string(), false)
    }

    pub fn contract(&self, other: &Expr, axes: &[[u64; 2]]) -> Expr {
        self.over("contract", &[other.clone()], format!("{axes:?}"), true)
    }

    /// The product of a matrix with a matrix or a list.
    pub fn matmul(&self, other: &Expr) -> Expr {
        self.contract(other, &[[1, 0]])
    }

    pub fn convolve(&self, kernel: &Expr, axes: &[u64]) -> Expr {
        self.over("convolve", &[kernel.clone()], format!("{axes:?}"), true)
    }

    pub fn take(&self, offsets: &Expr, axis: u64) -> Expr {
        self.over("take", &[offsets.clone()], axis.to_string(), true)
    }

    /// An operation on this and on operands of equal dims, place by place.
    fn each(&self, name: &str, others: &[Expr]) -> Expr {
        self.made(name, others, String::new(), false, self.input_alike())
    }

    /// An operation on this and on other operands, whose dims may be others than this has.
    fn over(&self, name: &str, others: &[Expr], arguments: String, combines: bool) -> Expr {
        self.made(name, others, arguments, combines, None)
    }

    #[rustfmt::skip]
    fn made(&self, name: &str, others: &[Expr], arguments: String, combines: bool, input: Option<Expr>)
        -> Expr
    {
        let operands: Vec<Expr> = [self].into_iter().chain(others).cloned().collect();
        let combines = combines || operands.iter().any(|it| it.0.combines);
        let nodes = operands.iter().fold(1, |all: usize, it| MANY.min(all + it.0.nodes));
        Expr(Rc::new(Node { name: name.into(), arguments, operands, combines, nodes, input }))
    }

    fn input_alike(&self) -> Option<Expr> {
        if self.0.operands.is_empty() {
            return Some(self.clone());
        }
        self.0.input.clone()
    }
}

impl Neg for &Expr {
    type Output = Expr;
    fn neg(self) -> Expr {
        self.each("neg", &[])
    }
}

impl Not for &Expr {
    type Output = Expr;
    fn not(self) -> Expr {
        self.each("bit_not", &[])
    }
}

macro_rules! operators {
    ($($operator:ident $method:ident $name:literal)*) => {$(
        impl<It: Operand> $operator<It> for &Expr {
            type Output = Expr;
            fn $method(self, other: It) -> Expr {
                self.each($name, &[other.beside(self)])
            }
        }
        impl<It: Operand> $operator<It> for Expr {
            type Output = Expr;
            fn $method(self, other: It) -> Expr {
                (&self).$method(other)
            }
        }
        impl $operator<&Expr> for i64 {
            type Output = Expr;
            fn $method(self, other: &Expr) -> Expr {
                other.constant(self).$method(other)
            }
        }
    )*};
}

operators! {
    Add add "add" Sub sub "sub" Mul mul "mul" Div div "floor_divide" Rem rem "remainder"
    BitAnd bitand "bit_and" BitOr bitor "bit_or" BitXor bitxor "bit_xor"
    Shl shl "shift_left" Shr shr "shift_right"
}

/// A header that is being written. What stands in several places is bound by `let`, and so computed
/// once, if it combines values or has many nodes.
#[derive(Default)]
struct Writing {
    places: HashMap<*const Node, usize>,
    bound: HashMap<*const Node, String>,
    inputs: BTreeMap<String, String>,
    lets: String,
}

impl Writing {
    fn header(mut self, whole: &Expr) -> Header {
        self.count(whole);
        let expr = self.text(whole);
        let tensor = |(name, dims): (&String, &String)| format!(r#""{name}":{{"dims":{dims}}}"#);
        let inputs = self.inputs.iter().map(tensor).collect::<Vec<_>>().join(",");
        let (fields, ends) = (r#""version":3,"workers":1,"block":4096"#, "]".repeat(self.bound.len()));
        let text = format!(r#"{{{fields},"inputs":{{{inputs}}},"expr":{}{expr}{ends}}}"#, self.lets);
        Header { text }
    }

    fn count(&mut self, it: &Expr) {
        let places = self.places.entry(Rc::as_ptr(&it.0)).or_default();
        *places += 1;
        if *places > 1 {
            return;
        }
        if it.0.operands.is_empty() {
            self.inputs.insert(it.0.name.clone(), it.0.arguments.clone());
        }
        it.0.operands.iter().for_each(|operand| self.count(operand));
    }

    fn text(&mut self, it: &Expr) -> String {
        let (node, place) = (&it.0, Rc::as_ptr(&it.0));
        if let Some(name) = self.bound.get(&place) {
            return name.clone();
        }
        let name = format!(r#""{}""#, node.name);
        if node.operands.is_empty() {
            return name;
        }
        let mut parts = vec![name];
        parts.extend(node.operands.iter().map(|operand| self.text(operand)));
        parts.extend((!node.arguments.is_empty()).then(|| node.arguments.clone()));
        let text = format!("[{}]", parts.join(","));
        if self.places[&place] == 1 || !(node.combines || node.nodes >= MANY) {
            return text;
        }
        let name = format!(r#""t{}""#, self.bound.len());
        self.lets += &format!(r#"["let",{name},{text},"#);
        self.bound.insert(place, name.clone());
        name
    }
}
