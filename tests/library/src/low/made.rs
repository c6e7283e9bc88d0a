//! What tests of several folders are run on, and what they show of a value.
use cc2_base::machine::Machine;
use cc2_error::error::{Error, NoMemory};
use serde::Serialize;
use std::alloc::Global;
use std::collections::BTreeMap;
use std::fmt::Debug;
use std::result::Result;
use std::test::Fail;

/// A list of these texts.
pub fn texts(alloc: Global, words: &[&str]) -> Result<Vec<String>, NoMemory> {
    let mut all = Vec::new(alloc);
    for word in words {
        all.push(String::from_str(alloc, word)?)?;
    }
    Ok(all)
}

/// The variables with these values.
pub fn variables(
    alloc: Global,
    entries: &[(&str, &[u8])],
) -> Result<Vec<(String, Vec<u8>)>, NoMemory> {
    let mut env = Vec::new(alloc);
    for (name, value) in entries {
        let value = Vec::from_slice(alloc, value)?;
        env.push((String::from_str(alloc, name)?, value))?;
    }
    Ok(env)
}

/// A machine in the directory that has these variables and this home.
pub fn machine(
    alloc: Global,
    directory: &str,
    entries: &[(&str, &[u8])],
    home: Option<&str>,
) -> Result<Machine, NoMemory> {
    let env = variables(alloc, entries)?;
    let home = match home {
        Some(home) => Some(String::from_str(alloc, home)?),
        None => None,
    };
    Ok(Machine {
        current_dir: String::from_str(alloc, directory)?,
        env,
        home,
    })
}

/// The debug form of a value. It is generic, since a table that is alive at a `?` is dear to prove.
pub fn shown<T: Debug + Drop>(alloc: Global, outcome: Result<T, Error>) -> Result<String, Fail> {
    let value = outcome?;
    Ok(format!(in alloc; "{value:?}")?)
}

/// What is printed as TOML of a value at the key `k`.
pub fn printed<T: Serialize + Drop>(alloc: Global, value: T) -> Result<String, Fail> {
    let mut document: BTreeMap<String, T> = BTreeMap::new(alloc);
    document.insert(String::from_str(alloc, "k")?, value)?;
    Ok(toml::to_string(alloc, &document)?)
}
