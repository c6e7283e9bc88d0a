//! A program and its arguments.
use crate::low::base::made::{must, text, texts};
use cc2_error::path_and_args::PathAndArgs;

#[test]
fn takes_arguments_in_order(rt: HostRuntime) {
    let alloc = rt.alloc();
    let mut command = PathAndArgs::new(alloc, text(&rt, alloc, "rustc"));
    let more = texts(&rt, alloc, ["cfg", "-"].as_slice());
    let longer = must(&rt, command.arg(text(&rt, alloc, "--print")));
    must(&rt, longer.args(more));
    assert_eq!(rt; command.path.as_str(), "rustc");
    assert_eq!(rt; command.args.len(), 3);
    assert_eq!(rt; command.args[0].as_str(), "--print");
    assert_eq!(rt; command.args[2].as_str(), "-");
    let copy = must(&rt, command.try_clone(alloc));
    assert!(rt; copy == command);
    must(&rt, command.push_arg(text(&rt, alloc, "-")));
    assert!(rt; copy != command);
    must(&rt, command.push_args(Vec::new(alloc)));
    assert_eq!(rt; command.args.len(), 4);
}
