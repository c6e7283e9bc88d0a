//! What Cargo 1.95 gave to build scripts and procedural macros.
use cc2_base::files::FileTable;
use cc2_base::machine::Machine;
use cc2_base::programs::{ProgramTable, RunAnswer};
use cc2_cargo::{LoadFault, Raw, load_with};
use cc2_cargo_settings::Sources;
use cc2_cargo_target::host_artifacts_by_cargo;
use cc2_error::path_and_args::PathAndArgs;
use cc2_resolved::flags::Flags;
use cc2_resolved::target_config::TargetConfig;
use std::alloc::Global;
use std::collections::BTreeMap;
use std::process::Abort;
use std::test::Fail;

const FILE: &str = "/p/.cargo/config.toml";

const HOST: &str = "x86_64-unknown-linux-gnu";

const FOREIGN: &str = "wasm32-unknown-unknown";

const CFG: &str = "unix\ntarget_os=\"linux\"\n";

fn owned(alloc: Global, texts: &[&str]) -> Result<Vec<String>, Fail> {
    let mut all = Vec::new(alloc);
    for text in texts {
        all.push(String::from_str(alloc, *text)?)?;
    }
    Ok(all)
}

// The variables of the process.
fn machine(alloc: Global, variables: &[(&str, &str)]) -> Result<Machine, Fail> {
    let mut env = Vec::new(alloc);
    for (name, text) in variables {
        let name = String::from_str(alloc, name)?;
        env.push((name, String::from_str(alloc, text)?.into_bytes()))?;
    }
    Ok(Machine {
        current_dir: String::from_str(alloc, "/p")?,
        env,
        home: None,
    })
}

// What a file has.
fn settings(alloc: Global, file: &str) -> Result<Result<BTreeMap<String, Raw>, LoadFault>, Fail> {
    let mut files = FileTable::new(alloc);
    let content = String::from_str(alloc, file)?.into_bytes();
    files.put(String::from_str(alloc, FILE)?, Some(content))?;
    let paths = owned(alloc, &[FILE])?;
    Ok(load_with(alloc, "/p", paths.as_slice(), &[], &files))
}

// Lets rustc write a text.
fn put(alloc: Global, programs: &mut ProgramTable, args: &[&str], text: &str) -> Result<(), Fail> {
    let answer = RunAnswer::Done {
        code: Some(0),
        stdout: String::from_str(alloc, text)?.into_bytes(),
        stderr: Vec::new(alloc),
    };
    programs.put(
        String::from_str(alloc, "rustc")?,
        owned(alloc, args)?,
        answer,
    )?;
    Ok(())
}

// A rustc for which `x` and `k` hold by flags.
fn programs(alloc: Global) -> Result<ProgramTable, Fail> {
    let mut programs = ProgramTable::new(alloc);
    let version = "release: 1.95.0\nhost: x86_64-unknown-linux-gnu\n";
    put(alloc, &mut programs, &["-vV"], version)?;
    let question = &["--print", "cfg", "--target", HOST];
    put(alloc, &mut programs, question, CFG)?;
    for name in ["x", "k"] {
        let flag = format!(in alloc; "--cfg={name}")?;
        let args = &[flag.as_str(), "--print", "cfg", "--target", HOST];
        let text = format!(in alloc; "{CFG}{name}\n")?;
        put(alloc, &mut programs, args, text.as_str())?;
    }
    Ok(programs)
}

// The words of flags.
fn words(flags: &Option<Flags>) -> &[String] {
    match flags {
        Some(flags) => flags.flags.as_slice(),
        None => &[],
    }
}

// The linker, the flags for rustc and those for rustdoc.
fn shown_settings(alloc: Global, settings: &TargetConfig) -> Result<String, Fail> {
    if settings.runner.is_some() {
        return Ok(String::from_str(alloc, "a runner")?);
    }
    let linker = match &settings.linker {
        Some(linker) => linker.as_str(),
        None => "-",
    };
    let flags = words(&settings.rustflags);
    let doc_flags = words(&settings.rustdocflags);
    Ok(format!(in alloc; "{linker} {flags:?} {doc_flags:?}")?)
}

// Those for these variables and targets, or the error, as it is shown.
fn shown(
    alloc: Global,
    file: &str,
    variables: &[(&str, &str)],
    targets: &[&str],
) -> Result<String, Fail> {
    let machine = machine(alloc, variables)?;
    let rustc = PathAndArgs::new(alloc, String::from_str(alloc, "rustc")?);
    let mut programs = programs(alloc)?;
    match settings(alloc, file)? {
        Ok(settings) => {
            let sources = Sources {
                settings: &settings,
                machine: &machine,
            };
            match host_artifacts_by_cargo(alloc, sources, "/p", &rustc, targets, &mut programs) {
                Ok(found) => shown_settings(alloc, &found.settings),
                Err(error) => Ok(format!(in alloc; "{error}")?),
            }
        }
        Err(fault) => Ok(format!(in alloc; "{fault:?}")?),
    }
}

// What is shown without targets, and where the host or another target is asked for.
fn expect(
    rt: &impl Abort,
    alloc: Global,
    file: &str,
    variables: &[(&str, &str)],
    expected: (&str, &str),
) -> Result<(), Fail> {
    let (as_such, with_targets) = expected;
    let found = shown(alloc, file, variables, &[])?;
    assert_eq!(rt; found.as_str(), as_such, "{file} with {variables:?}");
    for target in [HOST, "host-tuple", FOREIGN] {
        let found = shown(alloc, file, variables, &[target])?;
        assert_eq!(rt;
            found.as_str(),
            with_targets,
            "{file} with {variables:?} for {target}"
        );
    }
    Ok(())
}

// What is shown where no target is asked for.
fn expect_set(
    rt: &impl Abort,
    alloc: Global,
    file: &str,
    variables: &[(&str, &str)],
    expected: &str,
) -> Result<(), Fail> {
    let found = shown(alloc, file, variables, &[])?;
    assert_eq!(rt; found.as_str(), expected, "{file} with {variables:?}");
    Ok(())
}

// That the error has a text, whatever is asked for.
fn expect_error(rt: &impl Abort, alloc: Global, file: &str, expected: &str) -> Result<(), Fail> {
    let found = shown(alloc, file, &[], &[])?;
    assert!(rt; found.as_str().contains(expected), "{file}: {found}");
    for target in [HOST, FOREIGN] {
        let found = shown(alloc, file, &[], &[target])?;
        assert!(rt;
            found.as_str().contains(expected),
            "{file} for {target}: {found}"
        );
    }
    Ok(())
}

#[test]
fn flags_are_for_the_host_as_such(rt: HostRuntime) -> Result<(), Fail> {
    let alloc = rt.alloc();
    expect(&rt, alloc, "", &[], ("- [] []", "- [] []"))?;
    let file = "build.rustflags = ['--cfg=b']\nbuild.rustdocflags = ['--cfg=d']\n\
        [target.x86_64-unknown-linux-gnu]\nlinker = '/l'\nrunner = '/r'";
    let expected = ("/l [\"--cfg=b\"] [\"--cfg=d\"]", "/l [] []");
    expect(&rt, alloc, file, &[], expected)?;
    let variables = &[("RUSTFLAGS", "--cfg=e"), ("RUSTDOCFLAGS", "--cfg=f")];
    let expected = ("/l [\"--cfg=e\"] [\"--cfg=f\"]", "/l [] []");
    expect(&rt, alloc, file, variables, expected)?;
    let linker = ("CARGO_TARGET_X86_64_UNKNOWN_LINUX_GNU_LINKER", "/v");
    expect(&rt, alloc, "", &[linker], ("/v [] []", "/v [] []"))
}

#[test]
fn set_targets_are_given(rt: HostRuntime) -> Result<(), Fail> {
    let alloc = rt.alloc();
    let flags = "build.rustflags = ['--cfg=b']";
    expect_set(&rt, alloc, flags, &[], "- [\"--cfg=b\"] []")?;
    for target in [
        "'host-tuple'",
        "'x86_64-unknown-linux-gnu'",
        "['a', 'b']",
        "[]",
    ] {
        let file = format!(in alloc; "{flags}\nbuild.target = {target}")?;
        expect_set(&rt, alloc, file.as_str(), &[], "- [] []")?;
    }
    expect_set(
        &rt,
        alloc,
        flags,
        &[("CARGO_BUILD_TARGET", HOST)],
        "- [] []",
    )
}

#[test]
fn keys_match_without_flags(rt: HostRuntime) -> Result<(), Fail> {
    let alloc = rt.alloc();
    let flags = &[("RUSTFLAGS", "--cfg=x")];
    let by_flags = "target.'cfg(x)'.linker = '/x'";
    expect(
        &rt,
        alloc,
        by_flags,
        flags,
        ("/x [\"--cfg=x\"] []", "- [] []"),
    )?;
    let unix = "target.'cfg(unix)' = { linker = '/u', rustflags = ['--cfg=k'] }";
    expect(&rt, alloc, unix, &[], ("/u [\"--cfg=k\"] []", "/u [] []"))?;
    let both = "target.'cfg(unix)'.linker = '/u'\ntarget.'cfg(x)'.linker = '/x'";
    let found = shown(alloc, both, flags, &[FOREIGN])?;
    assert_eq!(rt; found.as_str(), "/u [] []");
    let two = "target.'cfg(unix)'.linker = '/u'\n\
        target.'cfg(target_os = \"linux\")'.linker = '/o'\n\
        target.x86_64-unknown-linux-gnu.linker = '/l'";
    expect(&rt, alloc, two, &[], ("/l [] []", "/l [] []"))
}

#[test]
fn what_is_refused(rt: HostRuntime) -> Result<(), Fail> {
    let alloc = rt.alloc();
    for what in ["linker", "runner"] {
        let two = format!(in alloc;
            "target.'cfg(unix)'.{what} = '/u'\n\
            target.'cfg(target_os = \"linux\")'.{what} = '/o'"
        )?;
        expect_error(&rt, alloc, two.as_str(), "several matching instances")?;
    }
    for what in ["linker", "runner", "rustflags", "rustdocflags"] {
        let typed = format!(in alloc; "target.x86_64-unknown-linux-gnu.{what} = 1")?;
        expect_error(&rt, alloc, typed.as_str(), what)?;
    }
    expect_error(&rt, alloc, "build.target = 1", "build.target")?;
    let empty = shown(alloc, "build.target = ''", &[], &[])?;
    assert!(rt; empty.as_str().contains("target was empty"));
    let kept = shown(alloc, "build.target = ''", &[], &[HOST])?;
    assert_eq!(rt; kept.as_str(), "- [] []");
    Ok(())
}
