//! Expressions that are read and checked once, and evaluated over any arrays of their tensors' dims.

use crate::{answered, lying, tensor_dims, Array, Fault, Header, Tensor, DIMS_ROOM};

#[rustfmt::skip]
extern "C" {
    fn tensor_prepare(header: *const u8, header_length: usize, count: u64,
        plan: *mut u64, plan_length: usize) -> i64;
    fn tensor_run(plan: *const u64, plan_length: usize,
        arrays: *const Array, arrays_length: usize,
        first: u64, out: *mut i64, out_length: usize) -> i64;
}

/// The plan of a header, which any number of threads may run.
pub struct Plan {
    numbers: Vec<u64>,
    dims: Vec<u64>,
}

impl Plan {
    /// The plan of a header for arrays of these lengths.
    pub fn of(header: &Header, lengths: &[usize]) -> Result<Self, Fault> {
        let (text, mut dims) = (header.text.as_bytes(), [0; DIMS_ROOM]);
        let count = lengths.iter().map(|it| *it as u64).sum();
        let mut numbers = vec![0; 190_004 + 9 * lengths.len()];
        // SAFETY: each pointer is to a slice of the length behind it, and what is written is borrowed
        // here alone. That the processor has what the library is built for is for who links it to see.
        let length = answered(unsafe {
            tensor_prepare(text.as_ptr(), text.len(), count, numbers.as_mut_ptr(), numbers.len())
        })?;
        // SAFETY: as above.
        answered(unsafe {
            tensor_dims(text.as_ptr(), text.len(), count, dims.as_mut_ptr(), dims.len())
        })?;
        numbers.truncate(length);
        numbers.shrink_to_fit();
        Ok(Self { numbers, dims: dims[1..][..dims[0] as usize].to_vec() })
    }

    /// Writes the values of the answer from place `first` on, as many as there are and as fit, and
    /// returns how many these are.
    pub fn run_part(&self, arrays: &[&[i64]], first: u64, out: &mut [i64]) -> Result<usize, Fault> {
        let (plan, arrays) = (&self.numbers, lying(arrays));
        // SAFETY: as above; a plan has no other numbers than the library wrote.
        answered(unsafe {
            tensor_run(plan.as_ptr(), plan.len(), arrays.as_ptr(), arrays.len(), first,
                out.as_mut_ptr(), out.len())
        })
    }

    /// The tensor of the answer, on this thread.
    pub fn run(&self, arrays: &[&[i64]]) -> Result<Tensor, Fault> {
        let mut values = vec![0; self.dims.iter().product::<u64>() as usize];
        self.run_part(arrays, 0, &mut values)?;
        Ok(Tensor { dims: self.dims.clone(), values })
    }
}
