//! The same as in `crate::low::made`, for tests that end where memory runs out.
use cc2_base::machine::Machine;
use std::alloc::Global;
use std::process::Abort;

// The value, where there is one.
pub fn must<T, E: Drop>(rt: &impl Abort, outcome: Result<T, E>) -> T {
    match outcome {
        Ok(value) => value,
        Err(_) => panic!(rt; "refused"),
    }
}

pub fn text(rt: &impl Abort, alloc: Global, text: &str) -> String {
    must(rt, String::from_str(alloc, text))
}

pub fn bytes(rt: &impl Abort, alloc: Global, bytes: &[u8]) -> Vec<u8> {
    must(rt, Vec::from_slice(alloc, bytes))
}

pub fn texts(rt: &impl Abort, alloc: Global, words: &[&str]) -> Vec<String> {
    must(rt, crate::low::made::texts(alloc, words))
}

// A machine in the directory `/q` that has this home and one variable.
pub fn machine(
    rt: &impl Abort,
    alloc: Global,
    variable: (&str, &[u8]),
    home: Option<&str>,
) -> Machine {
    must(
        rt,
        crate::low::made::machine(alloc, "/q", &[variable], home),
    )
}
