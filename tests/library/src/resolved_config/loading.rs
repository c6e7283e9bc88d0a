//! A configuration of a small tree of files.
use cargo_config2::{Config, Error, FileTable, Machine, NoMemory};
use std::alloc::Global;
use std::result::Result;

/// The files of a row, none where its text is empty, and its variable, none where its name is.
#[derive(Clone, Copy)]
pub struct Tree {
    /// `/p/.cargo/config.toml`.
    pub far: &'static str,
    /// `/config.toml`, which is read where `CARGO_HOME` is `/`.
    pub root: &'static str,
    /// A variable's name and value.
    pub variable: (&'static str, &'static str),
}

fn put(alloc: Global, files: &mut FileTable, path: &str, text: &str) -> Result<(), NoMemory> {
    let path = String::from_str(alloc, path)?;
    files.put(path, Some(Vec::from_slice(alloc, text.as_bytes())?))?;
    Ok(())
}

// Puts a file where it has a text.
fn put_text(alloc: Global, files: &mut FileTable, path: &str, text: &str) -> Result<(), NoMemory> {
    if text.is_empty() {
        return Ok(());
    }
    put(alloc, files, path, text)
}

fn files(alloc: Global, tree: &Tree) -> Result<FileTable, NoMemory> {
    let mut files = FileTable::new(alloc);
    put_text(alloc, &mut files, "/p/.cargo/config.toml", tree.far)?;
    put_text(alloc, &mut files, "/config.toml", tree.root)?;
    Ok(files)
}

// Sets a variable where it has a name.
fn set(
    alloc: Global,
    env: &mut Vec<(String, Vec<u8>)>,
    name: &str,
    value: &str,
) -> Result<(), NoMemory> {
    if name.is_empty() {
        return Ok(());
    }
    let value = Vec::from_slice(alloc, value.as_bytes())?;
    env.push((String::from_str(alloc, name)?, value))?;
    Ok(())
}

fn variables(alloc: Global, tree: &Tree) -> Result<Vec<(String, Vec<u8>)>, NoMemory> {
    let mut env = Vec::new(alloc);
    set(alloc, &mut env, tree.variable.0, tree.variable.1)?;
    if !tree.root.is_empty() {
        set(alloc, &mut env, "CARGO_HOME", "/")?;
    }
    Ok(env)
}

/// A machine in the directory `/p/q` that has these variables and no home.
pub fn machine(alloc: Global, env: Vec<(String, Vec<u8>)>) -> Result<Machine, NoMemory> {
    Ok(Machine {
        current_dir: String::from_str(alloc, "/p/q")?,
        env,
        home: None,
    })
}

/// The load of `/p/q`.
pub fn load(alloc: Global, tree: &Tree) -> Result<Config, Error> {
    let files = files(alloc, tree)?;
    let machine = machine(alloc, variables(alloc, tree)?)?;
    Config::load(alloc, &machine, &files)
}

/// The load of `/p/q` where this text is the file `/p/.cargo/config.toml`, also an empty one.
pub fn load_text(alloc: Global, text: &str) -> Result<Config, Error> {
    let mut files = FileTable::new(alloc);
    put(alloc, &mut files, "/p/.cargo/config.toml", text)?;
    let machine = machine(alloc, Vec::new(alloc))?;
    Config::load(alloc, &machine, &files)
}
