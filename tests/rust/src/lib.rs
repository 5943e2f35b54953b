//! An independent implementation of the separation kernel, written from the scope document and the change requests alone, and what holds the proved
//! kernel to it: generators of texts, records, programs and call lists, the comparison, and the test of separation over whole runs.

#[cfg(feature = "before")]
pub mod before;
pub mod compare;
pub mod generate;
pub mod kernel;
pub mod leaky;
pub mod misled;
pub mod pairs;
#[cfg(feature = "archive")]
pub mod proved;
pub mod random;
pub mod reference;
pub mod show;
pub mod shrink;
pub mod tuned;

use kernel::{Kernel, Policy, ReadResult};

/// The kernels that are held to the reference: the tuned one, and the proved one where it is linked.
pub fn kernels() -> Vec<Box<dyn Kernel>> {
    vec![
        Box::new(tuned::Tuned),
        #[cfg(feature = "archive")]
        Box::new(proved::Archive),
    ]
}

/// A test on the reference and on each kernel.
pub fn each(test: impl Fn(&dyn Kernel)) {
    test(&reference::Reference);
    for kernel in kernels() {
        test(&*kernel);
    }
}

/// What Read answers on a text that is refused.
pub fn refused(number: u32, line: u32) -> ReadResult {
    ReadResult { number, line, policy: Policy::ZERO }
}

/// What Read answers on a text that gives this record.
pub fn accepted(policy: Policy) -> ReadResult {
    ReadResult { number: 0, line: 0, policy }
}

/// The demonstration policy's record.
pub fn demonstration() -> Policy {
    reference::Reference.read(generate::policies::DEMONSTRATION.as_bytes()).policy
}
