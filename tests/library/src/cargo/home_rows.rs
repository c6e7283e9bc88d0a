//! Cargo homes that Cargo 1.95 read, or read no second time.
use cc2_cargo::{RealPathTable, RealPaths, home_beside};
use cc2_error::error::NoMemory;
use std::alloc::Global;
use std::process::Abort;
use std::test::Fail;

// The machine's real paths, where `/l` is a link to `/p`, and `/s/.cargo` one to `/p/.cargo`.
fn linked(alloc: Global) -> Result<RealPathTable, Fail> {
    let mut reals = RealPathTable::new(alloc);
    for (path, real) in &[
        ("/p/.cargo", "/p/.cargo"),
        ("/p/q/.cargo", "/p/q/.cargo"),
        ("/l/.cargo", "/p/.cargo"),
        ("/l/q/.cargo", "/p/q/.cargo"),
        ("/s/.cargo", "/p/.cargo"),
    ] {
        reals.put(
            String::from_str(alloc, path)?,
            String::from_str(alloc, real)?,
        )?;
    }
    Ok(reals)
}

// Whether the home is beside the folders of a directory and of those above it.
fn is_beside<L: RealPaths>(
    alloc: Global,
    dir: &str,
    home: &str,
    reals: &L,
) -> Result<bool, NoMemory> {
    let home = String::from_str(alloc, home)?;
    Ok(home_beside(alloc, dir, Some(home), reals)?.is_some())
}

fn expect(rt: &impl Abort, alloc: Global, dir: &str, home: &str, beside: bool) -> Result<(), Fail> {
    let found = is_beside(alloc, dir, home, &linked(alloc)?)?;
    assert_eq!(rt; found, beside, "{home} beside {dir}");
    Ok(())
}

#[test]
fn a_home_that_a_link_leads_to_is_no_other(rt: HostRuntime) -> Result<(), Fail> {
    let alloc = rt.alloc();
    expect(&rt, alloc, "/p/q", "/l/.cargo", false)?;
    expect(&rt, alloc, "/l/q", "/p/.cargo", false)?;
    expect(&rt, alloc, "/l/q", "/l/.cargo", false)?;
    expect(&rt, alloc, "/p", "/l/q/.cargo", true)
}

#[test]
fn a_folder_of_configuration_may_be_a_link(rt: HostRuntime) -> Result<(), Fail> {
    let alloc = rt.alloc();
    expect(&rt, alloc, "/s/q", "/p/.cargo", false)?;
    expect(&rt, alloc, "/s/q", "/l/.cargo", false)?;
    expect(&rt, alloc, "/p/q", "/s/.cargo", false)?;
    expect(&rt, alloc, "/s/q", "/l/q/.cargo", true)
}

#[test]
fn a_home_without_a_real_path_counts_by_its_own(rt: HostRuntime) -> Result<(), Fail> {
    let alloc = rt.alloc();
    expect(&rt, alloc, "/a/b", "/a//.cargo/", false)?;
    expect(&rt, alloc, "/a/b", "/c/.cargo", true)?;
    expect(&rt, alloc, "/a/b", "/a/cargo", true)
}

#[test]
fn without_a_home_there_is_none(rt: HostRuntime) -> Result<(), Fail> {
    let alloc = rt.alloc();
    let found = home_beside(alloc, "/p", None, &linked(alloc)?)?;
    assert!(rt; found.is_none());
    Ok(())
}
