//! Files and programs without a known world, which fail once: what a caller gets, and what the same query gives afterwards.
use crate::resolved_config::loading::{Tree, load, machine};
use cargo_config2::{
    Config, Error, ErrorKind, FileTable, Files, NoMemory, ProgramTable, Programs, ReadFault,
    RunAnswer, TargetTripleRef,
};
use std::alloc::Global;
use std::cell::Cell;
use std::process::Abort;
use std::result::Result;
use std::test::Fail;

// Files of a table, which count their reads and refuse one of them.
#[derive(Drop)]
struct OneUnread {
    table: FileTable,
    unread: u32,
    reads: Cell<u32>,
}

impl Files for OneUnread {
    ghost use Rattle.std.specs.Prelude.{None};

    ghost told = { λ _ _. ⊥ };

    fn exists(&self, path: &str) -> Result<bool, NoMemory> {
        self.table.exists(path)
    }

    fn read(&self, alloc: Global, path: &str) -> Result<Vec<u8>, ReadFault> {
        let reads = self.reads.get().wrapping_add(1);
        self.reads.set(reads);
        if reads == self.unread {
            return Err(ReadFault::Unreadable);
        }
        self.table.read(alloc, path)
    }
}

// How a run is refused.
#[derive(Clone, Copy, Debug, PartialEq, Eq)]
enum Refusal {
    NotRun,
    Memory,
}

// Programs of a table, of which the first run is refused.
#[derive(Drop)]
struct FirstRefused {
    table: ProgramTable,
    refusal: Refusal,
}

impl Programs for FirstRefused {
    ghost use Rattle.std.specs.Prelude.{None};
    ghost use Rattle.cc2_base.specs.ToldPrograms.{runs_of};

    ghost told = { λ _ _. ⊥ };

    ghost runs = { λ p. runs_of p.table };

    fn run(
        &mut self,
        alloc: Global,
        program: &str,
        args: &[String],
    ) -> Result<RunAnswer, NoMemory> {
        let is_first = self.table.runs() == 0;
        let answer = self.table.run(alloc, program, args);
        match self.refusal {
            _ if !is_first => answer,
            Refusal::NotRun => Ok(RunAnswer::NotRun),
            Refusal::Memory => Err(NoMemory),
        }
    }
}

// The error of a call that has to be refused.
fn error_of<T: Drop>(rt: &impl Abort, call: &str, outcome: Result<T, Error>) -> Error {
    match outcome {
        Ok(_) => panic!(rt; "{call} was not refused"),
        Err(error) => error,
    }
}

const PATHS: [&str; 3] = [
    "/p/q/.cargo/config.toml",
    "/p/.cargo/config.toml",
    "/.cargo/config.toml",
];

// Three files, whose read of this number is refused.
fn three_files(alloc: Global, unread: u32) -> Result<OneUnread, Fail> {
    let mut table = FileTable::new(alloc);
    for path in PATHS {
        let text = Vec::from_slice(alloc, b"build.rustflags = [\"a\"]")?;
        table.put(String::from_str(alloc, path)?, Some(text))?;
    }
    Ok(OneUnread {
        table,
        unread,
        reads: Cell::new(0),
    })
}

#[test]
fn each_read_is_refused_in_turn(rt: HostRuntime) -> Result<(), Fail> {
    let alloc = rt.alloc();
    let machine = machine(alloc, Vec::new(alloc))?;
    let whole = three_files(alloc, 0)?;
    drop(Config::load(alloc, &machine, &whole)?);
    assert_eq!(rt; whole.reads.get(), 3);
    for (unread, path) in [(1, PATHS[0]), (2, PATHS[1]), (3, PATHS[2])] {
        let files = three_files(alloc, unread)?;
        let error = error_of(&rt, path, Config::load(alloc, &machine, &files));
        assert!(rt; matches!(error.kind(), ErrorKind::ReadFile(_)));
        let expected = format!(in alloc; "failed to read `{path}`")?;
        let shown = format!(in alloc; "{error}")?;
        assert_eq!(rt; shown.as_str(), expected.as_str());
        assert_eq!(rt; files.reads.get(), unread);
    }
    Ok(())
}

// What rustc and cargo say.
fn programs(alloc: Global, refusal: Refusal) -> Result<FirstRefused, Fail> {
    let mut table = ProgramTable::new(alloc);
    for (program, words, said) in [
        ("rustc", ["--print", "cfg", "--target", "x"], "unix\n"),
        ("rustc", ["-vV", "", "", ""], "release: 1.70.0\nhost: h\n"),
        ("cargo", ["-vV", "", "", ""], "release: 1.70.0\nhost: g\n"),
    ] {
        let mut args = Vec::new(alloc);
        for word in words {
            if !word.is_empty() {
                args.push(String::from_str(alloc, word)?)?;
            }
        }
        let answer = RunAnswer::Done {
            code: Some(0),
            stdout: Vec::from_slice(alloc, said.as_bytes())?,
            stderr: Vec::new(alloc),
        };
        table.put(String::from_str(alloc, program)?, args, answer)?;
    }
    Ok(FirstRefused { table, refusal })
}

// The flags of a target, one after another.
fn flags(alloc: Global, config: &mut Config, programs: &mut FirstRefused) -> Result<String, Error> {
    let target = TargetTripleRef::new("x")?;
    match config.rustflags(alloc, &target, &FileTable::new(alloc), programs)? {
        Some(flags) => flags.encode_space_separated(alloc),
        None => Ok(String::new(alloc)),
    }
}

#[test]
fn a_program_that_is_not_started_refuses_one_query(rt: HostRuntime) -> Result<(), Fail> {
    let alloc = rt.alloc();
    let tree = Tree {
        far: "build.rustflags = [\"z\"]\ntarget.x.rustflags = [\"a\"]\ntarget.'cfg(all())'.rustflags = [\"c\"]",
        root: "",
        variable: ("CARGO_TARGET_X_RUSTFLAGS", "b"),
    };
    let mut config = load(alloc, &tree)?;
    let mut programs = programs(alloc, Refusal::NotRun)?;
    match flags(alloc, &mut config, &mut programs) {
        Ok(_) => panic!(rt; "rustc was run"),
        Err(error) => {
            let shown = format!(in alloc; "{error}")?;
            assert_eq!(rt;
                shown.as_str(),
                "could not execute process `rustc --print cfg --target x` (never executed)"
            );
        }
    }
    let shown = flags(alloc, &mut config, &mut programs)?;
    assert_eq!(rt; shown.as_str(), "a b c");
    assert_eq!(rt; programs.table.runs(), 2);
    Ok(())
}

#[test]
fn want_of_memory_at_cargo_does_not_ask_rustc(rt: HostRuntime) -> Result<(), Fail> {
    let alloc = rt.alloc();
    let tree = Tree {
        far: "",
        root: "",
        variable: ("", ""),
    };
    let files = FileTable::new(alloc);
    let mut config = load(alloc, &tree)?;
    let mut programs = programs(alloc, Refusal::Memory)?;
    match config.host_triple(alloc, &files, &mut programs) {
        Ok(_) => panic!(rt; "cargo was asked"),
        Err(error) => assert!(rt; matches!(error.kind(), ErrorKind::Memory)),
    }
    assert_eq!(rt; programs.table.runs(), 1);
    let host = config.host_triple(alloc, &files, &mut programs)?;
    assert_eq!(rt; host.as_str(), "g");
    Ok(())
}
