//! Which files there are.
use crate::tree::Tree;
use crate::Outcome;
use cargo_config2::{cargo_home_with_cwd, home_dir, rustup_home_with_cwd, Walk};
use std::env;
use std::path::Path;

pub fn list_files(tree: &Tree) -> Outcome {
    let below = tree.path("work/member/src");
    for home in [Some(tree.path("home/.cargo")), Some(tree.path("work/.cargo")), Some(tree.path("none")), None] {
        let label = format!("{:?}", home.as_ref().and_then(|home| home.file_name()));
        tree.say(&label, Walk::with_cargo_home(&below, home).collect::<Vec<_>>());
    }
    Ok(())
}

pub fn list_files_of_process(tree: &Tree) -> Outcome {
    let current = env::current_dir()?;
    let mut walk = Walk::new(&current);
    tree.say("nearest", walk.next());
    tree.say("others", walk.filter(|file| file.starts_with(tree.path(""))).collect::<Vec<_>>());
    tree.say("relative", Walk::with_cargo_home(Path::new("src"), None).collect::<Vec<_>>());
    Ok(())
}

pub fn find_homes(tree: &Tree) -> Outcome {
    let below = tree.path("work");
    tree.say("home", home_dir());
    tree.say("default", (cargo_home_with_cwd(&below), rustup_home_with_cwd(&below)));
    env::set_var("CARGO_HOME", "relative");
    env::set_var("RUSTUP_HOME", tree.path("absolute"));
    tree.say("by variables", (cargo_home_with_cwd(&below), rustup_home_with_cwd(&below)));
    env::set_var("CARGO_HOME", "");
    env::remove_var("RUSTUP_HOME");
    tree.say("empty", (cargo_home_with_cwd(&below), rustup_home_with_cwd(&below)));
    env::remove_var("CARGO_HOME");
    Ok(())
}
