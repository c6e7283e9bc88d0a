//! Questions to one configuration, in turn, over tables of files and programs: the answers, and how often a program
//! ran.
use crate::resolved_config::loading::{Tree, load};
use crate::resolved_config::names::{System, X};
use crate::resolved_config::targets::{behind_spaces, listed, setting};
use cargo_config2::{
    Config, Error, FileTable, ProgramTable, RunAnswer, StringList, TargetTripleRef,
};
use std::alloc::Global;
use std::process::Abort;
use std::result::Result;
use std::test::Fail;

/// A configuration: its files, its variable, and what programs say to commands.
pub struct Row {
    pub far: &'static str,
    pub root: &'static str,
    pub variable: (&'static str, &'static str),
    pub said: &'static [(&'static str, &'static str)],
    /// Questions, what is answered, and how many runs there were.
    pub asks: &'static [(&'static str, &'static str, u64)],
}

// The programs that say so.
fn programs(alloc: Global, said: &[(&str, &str)]) -> Result<ProgramTable, Fail> {
    let mut programs = ProgramTable::new(alloc);
    for (command, stdout) in said {
        let mut words = StringList::from_text(alloc, *command)?.list;
        if words.is_empty() {
            continue;
        }
        let program = words.remove(0);
        let answer = RunAnswer::Done {
            code: Some(0),
            stdout: Vec::from_slice(alloc, stdout.as_bytes())?,
            stderr: Vec::new(alloc),
        };
        programs.put(program, words, answer)?;
    }
    Ok(programs)
}

// The answer to a question; a name of a setting comes before that of a target, and one without is a
// target whose system is asked for.
fn answered(
    alloc: Global,
    config: &mut Config,
    question: &str,
    files: &FileTable,
    programs: &mut ProgramTable,
) -> Result<String, Error> {
    match question {
        "host" => {
            let host = config.host_triple(alloc, files, programs)?;
            Ok(String::from_str(alloc, host.as_str())?)
        }
        "cargo" => {
            let version = config.cargo_version(alloc, files, programs)?;
            Ok(format!(in alloc; "{version:?}")?)
        }
        "rustc" => {
            let version = config.rustc_version(alloc, files, programs)?;
            Ok(format!(in alloc; "{version:?}")?)
        }
        "targets" => {
            let targets = config.build_target_for_config(alloc, &[], files, programs)?;
            listed(alloc, targets.as_slice())
        }
        "command line" => {
            let texts = config.build_target_for_cli(alloc, &[])?;
            behind_spaces(alloc, texts.as_slice())
        }
        "given targets" => {
            let given = [
                TargetTripleRef::new("y")?,
                TargetTripleRef::new("d/z.json")?,
            ];
            let targets = config.build_target_for_config(alloc, &given, files, programs)?;
            listed(alloc, targets.as_slice())
        }
        "given on the command line" => {
            let texts = config.build_target_for_cli(alloc, &["y", "./"])?;
            behind_spaces(alloc, texts.as_slice())
        }
        "copy" => {
            *config = config.try_clone(alloc)?;
            Ok(String::new(alloc))
        }
        name => match name.split_once(' ') {
            Some(("value", name)) => {
                let target = TargetTripleRef::new(name)?;
                let value = config.cfg::<X, _, _>(alloc, &target, files, programs)?;
                Ok(format!(in alloc; "{value:?}")?)
            }
            Some(("found", name)) => {
                let target = TargetTripleRef::new(name)?;
                config.find_cfg_set(alloc, &target, files, programs)?;
                known(alloc, config, &target)
            }
            Some(("known", name)) => known(alloc, config, &TargetTripleRef::new(name)?),
            Some((what, name)) => setting(alloc, config, what, name, files, programs),
            None => {
                let target = TargetTripleRef::new(name)?;
                config.cfg::<System, _, _>(alloc, &target, files, programs)
            }
        },
    }
}

// The values of `target_os` in the list that is kept for a target; `none` where none is.
fn known(alloc: Global, config: &Config, target: &TargetTripleRef<'_>) -> Result<String, Error> {
    match config.known_cfg_set(target) {
        Some(set) => behind_spaces(alloc, set.values(alloc, "target_os")?.as_slice()),
        None => Ok(String::from_str(alloc, "none")?),
    }
}

// What is shown for a question: the configuration as it is printed, or the answer's text.
fn shown(
    alloc: Global,
    config: &mut Config,
    question: &str,
    files: &FileTable,
    programs: &mut ProgramTable,
) -> Result<String, Fail> {
    match question {
        "printed" => Ok(toml::to_string(alloc, config)?),
        question => text(alloc, answered(alloc, config, question, files, programs)),
    }
}

// The answer's text, or the refusal's.
fn text(alloc: Global, answer: Result<String, Error>) -> Result<String, Fail> {
    match answer {
        Ok(text) => Ok(text),
        Err(error) => Ok(format!(in alloc; "{error}")?),
    }
}

// Checks what one configuration answers in turn, and how often a program ran.
fn expect_answered(
    rt: &impl Abort,
    alloc: Global,
    config: &mut Config,
    row: &Row,
) -> Result<(), Fail> {
    let files = FileTable::new(alloc);
    let mut programs = programs(alloc, row.said)?;
    for (question, expected, runs) in row.asks {
        let shown = shown(alloc, config, *question, &files, &mut programs)?;
        assert_eq!(rt; shown.as_str(), *expected);
        assert_eq!(rt; programs.runs(), *runs);
    }
    Ok(())
}

// The same of the configuration that is loaded from a row's files.
fn expect_row(rt: &impl Abort, alloc: Global, row: &Row) -> Result<(), Fail> {
    let tree = Tree {
        far: row.far,
        root: row.root,
        variable: row.variable,
    };
    let mut config = load(alloc, &tree)?;
    let answered = expect_answered(rt, alloc, &mut config, row);
    drop(config);
    answered
}

/// Checks what is answered in each row, and how often a program ran.
pub fn expect_answers(rt: &impl Abort, alloc: Global, rows: &[Row]) -> Result<(), Fail> {
    for row in rows {
        expect_row(rt, alloc, row)?;
    }
    Ok(())
}
