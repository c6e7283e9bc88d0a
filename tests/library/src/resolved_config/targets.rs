//! Questions for the settings of a target, answered as texts; `none` where there is no setting. Targets and texts in a line.
use cargo_config2::{
    Config, Error, FileTable, Flags, PathAndArgs, ProgramTable, TargetTriple, TargetTripleRef,
};
use std::alloc::Global;
use std::result::Result;

/// The answer to a question for this setting of the target of this name.
pub fn setting(
    alloc: Global,
    config: &mut Config,
    setting: &str,
    name: &str,
    files: &FileTable,
    programs: &mut ProgramTable,
) -> Result<String, Error> {
    let target = TargetTripleRef::new(name)?;
    match setting {
        "linker" => text_or_none(alloc, config.linker(alloc, &target, files, programs)?),
        "runner" => program_of(alloc, config.runner(alloc, &target, files, programs)?),
        "rustflags" => flags_of(alloc, config.rustflags(alloc, &target, files, programs)?),
        "rustdocflags" => flags_of(alloc, config.rustdocflags(alloc, &target, files, programs)?),
        _ => text_or_none(
            alloc,
            config.target(alloc, &target, files, programs)?.linker,
        ),
    }
}

fn text_or_none(alloc: Global, text: Option<String>) -> Result<String, Error> {
    match text {
        Some(text) => Ok(text),
        None => Ok(String::from_str(alloc, "none")?),
    }
}

fn program_of(alloc: Global, command: Option<PathAndArgs>) -> Result<String, Error> {
    match command {
        Some(command) => Ok(command.path),
        None => Ok(String::from_str(alloc, "none")?),
    }
}

fn flags_of(alloc: Global, flags: Option<Flags>) -> Result<String, Error> {
    match flags {
        Some(flags) => flags.encode_space_separated(alloc),
        None => Ok(String::from_str(alloc, "none")?),
    }
}

/// Targets as Cargo takes them, each after a space.
pub fn listed(alloc: Global, targets: &[TargetTriple]) -> Result<String, Error> {
    let mut all = String::new(alloc);
    for target in targets {
        all.push(' ')?;
        all.push_str(target.as_command_text())?;
    }
    Ok(all)
}

/// Texts, each after a space.
pub fn behind_spaces(alloc: Global, texts: &[String]) -> Result<String, Error> {
    let mut all = String::new(alloc);
    for text in texts {
        all.push(' ')?;
        all.push_str(text.as_str())?;
    }
    Ok(all)
}
