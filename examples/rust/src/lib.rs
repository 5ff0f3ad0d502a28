//! Tensor expressions over wrapping 64-bit integers: arrays in, arrays out, in this process.

mod expr;
mod plan;

pub use expr::{Expr, Operand};
pub use plan::Plan;
use std::{fmt, ptr, sync::OnceLock, thread};

/// The most numbers that dims are written with: a rank, and up to 8 dims.
const DIMS_ROOM: usize = 9;

/// Where an array's values lie, and how many there are.
#[repr(C)]
struct Array {
    values: *const i64,
    length: usize,
}

// The library's calls, as include/tensor.h has them: a slice is a pointer and a length.
#[rustfmt::skip]
extern "C" {
    fn tensor_pool_open(workers: usize) -> *mut Opened;
    fn tensor_pool_evaluate_arrays(pool: *mut Opened, header: *const u8, header_length: usize,
        arrays: *const Array, arrays_length: usize,
        first: u64, out: *mut i64, out_length: usize, parts: usize) -> i64;
    fn tensor_evaluate(header: *const u8, header_length: usize,
        values: *const i64, values_length: usize, out: *mut i64, out_length: usize,
        dims: *mut u64, dims_length: usize) -> i64;
    fn tensor_dims_of_arrays(header: *const u8, header_length: usize,
        arrays: *const Array, arrays_length: usize, dims: *mut u64, dims_length: usize) -> i64;
    fn tensor_dims(header: *const u8, header_length: usize, count: u64,
        dims: *mut u64, dims_length: usize) -> i64;
    fn tensor_fault_name(number: u32, name: *mut u8, name_length: usize) -> i64;
    fn tensor_version() -> i64;
}

/// The version of the library, as its file VERSION has it.
pub fn version() -> String {
    // SAFETY: the call takes no pointer.
    let number = unsafe { tensor_version() };
    format!("{}.{}.{}", number / 1_000_000, number / 1_000 % 1_000, number % 1_000)
}

/// A request text in which each tensor is its dims alone.
pub struct Header {
    pub text: String,
}

/// Dims and values, the first index the fastest.
#[derive(Debug, PartialEq, Eq)]
pub struct Tensor {
    pub dims: Vec<u64>,
    pub values: Vec<i64>,
}

/// Why there is no tensor: the number of a fault.
#[derive(Clone, Copy, Debug, PartialEq, Eq)]
pub struct Fault {
    pub number: u32,
}

/// A pool of the library's threads, which the library owns.
#[repr(C)]
struct Opened {
    _private: [u8; 0],
}

/// The pool of this program, which is opened when it is first needed and stays open.
struct Pool(*mut Opened);

// SAFETY: any number of threads may call on a pool at once.
unsafe impl Send for Pool {}
unsafe impl Sync for Pool {}

fn pool() -> *mut Opened {
    static POOL: OnceLock<Pool> = OnceLock::new();
    let workers = thread::available_parallelism().map_or(1, |it| it.get());
    // SAFETY: the call takes no pointer.
    POOL.get_or_init(|| Pool(unsafe { tensor_pool_open(workers) })).0
}

/// The tensor that a header asks for, over the values of each tensor, in the order of their names. It is
/// evaluated in at most this many parts, by the threads of a pool and by this one.
pub fn evaluate(header: &Header, arrays: &[&[i64]], parts: usize) -> Result<Tensor, Fault> {
    let (mut dims, text) = ([0; DIMS_ROOM], header.text.as_bytes());
    let lying = lying(arrays);
    // SAFETY: each pointer is to a slice of the length behind it, and what is written is borrowed here
    // alone. That the processor has what the library is built for is for who links it to see.
    let size = answered(unsafe {
        tensor_dims_of_arrays(text.as_ptr(), text.len(), lying.as_ptr(), lying.len(),
            dims.as_mut_ptr(), dims.len())
    })?;
    let mut values = vec![0; size];
    let (pool, parts) = if parts > 1 { (pool(), parts) } else { (ptr::null_mut(), 1) };
    // SAFETY: as above.
    answered(unsafe {
        tensor_pool_evaluate_arrays(pool, text.as_ptr(), text.len(), lying.as_ptr(), lying.len(), 0,
            values.as_mut_ptr(), values.len(), parts)
    })?;
    Ok(Tensor { dims: dims[1..][..dims[0] as usize].to_vec(), values })
}

/// The tensor of a header over all values in one slice, one tensor's values after the other's.
pub fn evaluate_joined(header: &Header, values: &[i64]) -> Result<Tensor, Fault> {
    let (mut dims, text) = ([0; DIMS_ROOM], header.text.as_bytes());
    // SAFETY: as above.
    let size = answered(unsafe {
        tensor_dims(text.as_ptr(), text.len(), values.len() as u64, dims.as_mut_ptr(), dims.len())
    })?;
    let mut found = vec![0; size];
    // SAFETY: as above.
    answered(unsafe {
        tensor_evaluate(text.as_ptr(), text.len(), values.as_ptr(), values.len(),
            found.as_mut_ptr(), found.len(), dims.as_mut_ptr(), dims.len())
    })?;
    Ok(Tensor { dims: dims[1..][..dims[0] as usize].to_vec(), values: found })
}

/// Where arrays lie, which have to stay as long as these are used.
fn lying(arrays: &[&[i64]]) -> Vec<Array> {
    arrays.iter().map(|it| Array { values: it.as_ptr(), length: it.len() }).collect()
}

/// The number of values that a call returns, or its fault.
fn answered(result: i64) -> Result<usize, Fault> {
    usize::try_from(result).map_err(|_| Fault { number: result.unsigned_abs() as u32 })
}

impl fmt::Display for Fault {
    fn fmt(&self, f: &mut fmt::Formatter<'_>) -> fmt::Result {
        let mut name = [0; 16];
        // SAFETY: as above.
        let length = unsafe { tensor_fault_name(self.number, name.as_mut_ptr(), name.len()) };
        write!(f, "{} {}", self.number, String::from_utf8_lossy(&name[..length.max(0) as usize]))
    }
}

impl std::error::Error for Fault {}
