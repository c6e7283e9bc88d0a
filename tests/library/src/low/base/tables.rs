//! Tables of files and of programs: what is put is there, the last put of a path or a command alone.
use crate::low::base::made::{bytes, must, text, texts};
use cc2_base::files::{FileTable, Files, ReadFault};
use cc2_base::programs::{ProgramTable, Programs, RunAnswer};

#[test]
fn the_last_put_of_a_path_stands(rt: HostRuntime) {
    let alloc = rt.alloc();
    let mut files = FileTable::new(alloc);
    for content in [b"a".as_slice(), b"bc"] {
        must(
            &rt,
            files.put(text(&rt, alloc, "/f"), Some(bytes(&rt, alloc, content))),
        );
    }
    let read = must(&rt, files.read(alloc, "/f"));
    assert_eq!(rt; read.as_slice(), b"bc".as_slice());
    must(&rt, files.put(text(&rt, alloc, "/f"), None));
    assert_eq!(rt; files.exists("/f"), Ok(true));
    assert_eq!(rt; files.read(alloc, "/f"), Err(ReadFault::Unreadable));
    assert_eq!(rt; files.exists("/g"), Ok(false));
    assert_eq!(rt; files.read(alloc, "/g"), Err(ReadFault::Unreadable));
}

#[test]
fn the_last_put_of_a_command_stands(rt: HostRuntime) {
    let alloc = rt.alloc();
    let mut programs = ProgramTable::new(alloc);
    let failed = RunAnswer::Done {
        code: Some(3),
        stdout: bytes(&rt, alloc, b"out"),
        stderr: bytes(&rt, alloc, b"bad"),
    };
    must(
        &rt,
        programs.put(text(&rt, alloc, "p"), texts(&rt, alloc, &["-V"]), failed),
    );
    let args = texts(&rt, alloc, &["-V"]);
    let answer = must(&rt, programs.run(alloc, "p", args.as_slice()));
    match must(&rt, answer.try_clone(alloc)) {
        RunAnswer::Done {
            code,
            stdout,
            stderr,
        } => {
            assert_eq!(rt; code, Some(3));
            assert_eq!(rt; stdout.as_slice(), b"out".as_slice());
            assert_eq!(rt; stderr.as_slice(), b"bad".as_slice());
        }
        RunAnswer::NotRun => panic!(rt; "not run"),
    }
    must(
        &rt,
        programs.put(
            text(&rt, alloc, "p"),
            texts(&rt, alloc, &["-V"]),
            RunAnswer::NotRun,
        ),
    );
    let answer = must(&rt, programs.run(alloc, "p", args.as_slice()));
    assert!(rt; matches!(must(&rt, answer.try_clone(alloc)), RunAnswer::NotRun));
    let other = must(&rt, programs.run(alloc, "q", args.as_slice()));
    assert!(rt; matches!(other, RunAnswer::NotRun));
    assert_eq!(rt; programs.runs(), 3);
}
