//! What tests of several files are run on: files, a machine, configurations of texts.
use cc2_base::files::FileTable;
use cc2_base::machine::Machine;
use cc2_de::Config;
use cc2_error::error::{Error, ErrorKind, NoMemory, ParseCause};
use std::alloc::Global;
use std::result::Result;

/// Files of these paths with these texts.
pub fn files(alloc: Global, entries: &[(&str, &str)]) -> Result<FileTable, NoMemory> {
    let mut files = FileTable::new(alloc);
    for (path, text) in entries {
        let bytes = Vec::from_slice(alloc, text.as_bytes())?;
        files.put(String::from_str(alloc, path)?, Some(bytes))?;
    }
    Ok(files)
}

/// A machine in the directory, without variables and without a home.
pub fn machine(alloc: Global, directory: &str) -> Result<Machine, NoMemory> {
    Ok(Machine {
        current_dir: String::from_str(alloc, directory)?,
        env: Vec::new(alloc),
        home: None,
    })
}

/// The configuration of a text that is in no file.
pub fn of_text(alloc: Global, text: &str) -> Result<Config, Error> {
    match toml::table_from_str(alloc, text) {
        Ok(table) => Config::from_table(alloc, &table),
        Err(error) => {
            let text = format!(in alloc; "{error}")?;
            Err(Error::new(ErrorKind::ParseFile(ParseCause::Refused { text })))
        }
    }
}
