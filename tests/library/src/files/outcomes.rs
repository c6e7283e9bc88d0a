//! What becomes of a value and what is shown of it, from the outcome of the call before. These functions are generic,
//! since a configuration that is alive at a `?` is dear to prove: each of its fields is dropped there.
use cc2_error::error::Error;
use cc2_leaf::{Merge, SetPath, TryClone};
use serde::Serialize;
use std::alloc::Global;
use std::fmt::Debug;
use std::result::Result;
use std::test::Fail;

/// A copy.
pub fn copied<T: TryClone>(alloc: Global, outcome: Result<T, Error>) -> Result<T, Error> {
    let value = outcome?;
    TryClone::try_clone(&value, alloc)
}

/// The value when its definitions have got a path.
pub fn moved<T: SetPath>(alloc: Global, outcome: Result<T, Error>, path: &str) -> Result<T, Error> {
    let mut value = outcome?;
    value.set_path(alloc, path)?;
    Ok(value)
}

/// The first value merged with the second, weaker one.
pub fn merged<T: Merge>(
    alloc: Global,
    near: Result<T, Error>,
    far: Result<T, Error>,
) -> Result<T, Error> {
    near?.merge(alloc, far?)
}

/// Puts the value after a list.
pub fn push<T: Drop>(list: &mut Vec<T>, outcome: Result<T, Error>) -> Result<(), Error> {
    list.push(outcome?)?;
    Ok(())
}

/// The debug form of a value.
pub fn shown<T: Debug + Drop, E: Debug + Drop>(
    alloc: Global,
    outcome: Result<T, E>,
) -> Result<String, Fail> {
    let value = outcome?;
    Ok(format!(in alloc; "{value:?}")?)
}

/// What is printed of a value as TOML; of a refusal its lines.
pub fn printed<T: Serialize + Drop>(
    alloc: Global,
    outcome: Result<T, Error>,
) -> Result<String, Fail> {
    match outcome {
        Ok(value) => Ok(toml::to_string(alloc, &value)?),
        Err(error) => lines(alloc, &error),
    }
}

/// The lines of a refusal; none of a value.
pub fn refusal<T: Drop>(alloc: Global, outcome: Result<T, Error>) -> Result<String, Fail> {
    match outcome {
        Ok(_) => Ok(String::new(alloc)),
        Err(error) => lines(alloc, &error),
    }
}

/// The line of a refusal, and that of its cause where a context is before it.
pub fn lines(alloc: Global, error: &Error) -> Result<String, Fail> {
    match error.cause() {
        Some(cause) => Ok(format!(in alloc; "{error}\n{cause}")?),
        None => Ok(format!(in alloc; "{error}")?),
    }
}
