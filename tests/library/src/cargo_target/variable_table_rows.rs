//! A command whose answer depends on variables.
use cc2_base::programs::{ProgramTable, Programs, RunAnswer};
use cc2_cargo_target::{VariableTable, WithVariables};
use std::alloc::Global;
use std::test::Fail;

// A table in which `p` writes this text.
fn programs(alloc: Global, text: &str) -> Result<ProgramTable, Fail> {
    let mut programs = ProgramTable::new(alloc);
    let answer = RunAnswer::Done {
        code: Some(0),
        stdout: String::from_str(alloc, text)?.into_bytes(),
        stderr: Vec::new(alloc),
    };
    programs.put(String::from_str(alloc, "p")?, Vec::new(alloc), answer)?;
    Ok(programs)
}

fn variables(alloc: Global, pairs: &[(&str, &str)]) -> Result<Vec<(String, String)>, Fail> {
    let mut all = Vec::new(alloc);
    for (name, text) in pairs {
        let name = String::from_str(alloc, name)?;
        all.push((name, String::from_str(alloc, text)?))?;
    }
    Ok(all)
}

// What `p` writes.
fn written<P: Programs>(alloc: Global, programs: &mut P) -> Result<String, Fail> {
    match programs.run(alloc, "p", &[])? {
        RunAnswer::NotRun => Ok(String::from_str(alloc, "not run")?),
        RunAnswer::Done { stdout, .. } => Ok(String::from_utf8(stdout)?),
    }
}

// What `p` writes once these variables are set.
fn written_under<P: WithVariables>(
    alloc: Global,
    programs: &mut P,
    pairs: &[(&str, &str)],
) -> Result<String, Fail> {
    programs.set_variables(variables(alloc, pairs)?);
    written(alloc, programs)
}

#[test]
fn answers_go_by_variables(rt: HostRuntime) -> Result<(), Fail> {
    let alloc = rt.alloc();
    let pairs = [("A", "a"), ("B", "b")];
    let mut table = VariableTable::new(alloc, programs(alloc, "others")?);
    table.add(variables(alloc, &pairs)?, programs(alloc, "first")?)?;
    table.add(variables(alloc, &pairs)?, programs(alloc, "second")?)?;
    let found = written(alloc, &mut table)?;
    assert_eq!(rt; found.as_str(), "others");
    let found = written_under(alloc, &mut table, &pairs)?;
    assert_eq!(rt; found.as_str(), "first");
    let found = written_under(alloc, &mut table, &[("B", "b"), ("A", "a")])?;
    assert_eq!(rt; found.as_str(), "others");
    let found = written_under(alloc, &mut table, &[("A", "a")])?;
    assert_eq!(rt; found.as_str(), "others");
    let found = written_under(alloc, &mut table, &pairs)?;
    assert_eq!(rt; found.as_str(), "first");
    assert_eq!(rt; table.runs(), 5);
    Ok(())
}

#[test]
fn added_programs_answer_at_once(rt: HostRuntime) -> Result<(), Fail> {
    let alloc = rt.alloc();
    let mut table = VariableTable::new(alloc, programs(alloc, "others")?);
    table.add(Vec::new(alloc), programs(alloc, "none are set")?)?;
    let found = written(alloc, &mut table)?;
    assert_eq!(rt; found.as_str(), "none are set");
    Ok(())
}
