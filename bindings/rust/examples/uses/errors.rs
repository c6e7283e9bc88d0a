//! Errors, and how a client passes them on.
use crate::tree::{Tree, HOST};
use crate::Outcome;
use cargo_config2::{de, Config, Error, ResolveOptions};
use std::env::VarError;
use std::error::Error as StdError;
use std::io;

// The first line of an error, and whether it has a cause. The texts of causes are the system's or a parser's.
fn say_error(tree: &Tree, label: &str, error: &Error) {
    let text = error.to_string();
    tree.say(label, (text.lines().next(), error.source().is_some()));
}

fn load_text(tree: &Tree, text: &str) -> Result<Config, Box<dyn StdError>> {
    tree.put("bad/.cargo/config.toml", text)?;
    Ok(Config::load_with_options(tree.path("bad"), ResolveOptions::default().cargo_home(None))?)
}

pub fn report_missing_file(tree: &Tree) -> Outcome {
    if let Err(error) = de::Config::load_file(tree.path("none.toml")) {
        say_error(tree, "one file", &error);
    }
    let missing = Config::load_with_options(tree.path("no/such/folder"), ResolveOptions::default().cargo_home(None));
    tree.say("a missing folder has no files", missing.map(|config| config.build.jobs).ok());
    Ok(())
}

pub fn report_wrong_type(tree: &Tree) -> Outcome {
    for text in ["build.jobs = 'many'", "build = 3", "= 1", "term.color = 'blue'", "net.retry = -1"] {
        match load_text(tree, text) {
            Ok(_) => tree.say(text, "taken"),
            Err(error) => tree.say(text, (error.to_string().lines().next(), error.source().is_some())),
        }
    }
    let options = ResolveOptions::default().env([("CARGO_BUILD_JOBS", "many")]);
    if let Err(error) = Config::load_with_options(tree.path("work"), options) {
        say_error(tree, "variable", &error);
    }
    Ok(())
}

pub fn report_mixed_merge(tree: &Tree) -> Outcome {
    tree.put("mixed/.cargo/config.toml", "alias.t = 'test'\n")?;
    tree.put("mixed/below/.cargo/config.toml", "alias.t = ['test', '--all']\n")?;
    let Err(error) = de::Config::load_with_options(tree.path("mixed/below"), None) else {
        return Err("a text and a list were merged".into());
    };
    tree.say("error", error.to_string());
    let mut root: &dyn StdError = &error;
    while let Some(cause) = root.source() {
        root = cause;
    }
    tree.say("root cause", root.to_string());
    Ok(())
}

pub fn report_mixed_tables(tree: &Tree) -> Outcome {
    for (label, near, far) in [
        ("a text and a table", "env.A = 'a'", "env.A = { value = 'b' }"),
        ("a text and a list", "build.target = 'a'", "build.target = ['b']"),
        ("flags of both forms", "build.rustflags = 'a'", "build.rustflags = ['b']"),
        ("commands of both forms", "doc.browser = 'a'", "doc.browser = ['b']"),
        ("a table and a value", "term = 'a'", "term.quiet = true"),
    ] {
        tree.put("forms/.cargo/config.toml", far)?;
        tree.put("forms/below/.cargo/config.toml", near)?;
        let options = ResolveOptions::default().cargo_home(None);
        let loaded = Config::load_with_options(tree.path("forms/below"), options);
        tree.say(label, loaded.err().map(|error| error.to_string()));
    }
    Ok(())
}

pub fn report_bad_cfg(tree: &Tree) -> Outcome {
    let config = load_text(tree, "[target.'cfg(all(unix)']\nlinker = 'l'\n")?;
    tree.say("refused by a question alone", config.linker(HOST).is_err());
    let config = Config::load_with_cwd(tree.path("work"))?;
    if let Err(error) = config.linker("cfg(unix)") {
        say_error(tree, "no triple", &error);
    }
    Ok(())
}

pub fn report_failed_program(tree: &Tree) -> Outcome {
    let config = Config::load_with_cwd(tree.path("work"))?;
    if let Err(error) = config.rustflags("z80-unknown-none") {
        say_error(tree, "no such target", &error);
    }
    let options = ResolveOptions::default().env([("RUSTC", "no-such-rustc")]).cargo("no-such-cargo");
    let config = Config::load_with_options(tree.path("work"), options)?;
    for error in [config.host_triple().err(), config.cargo_version().err(), config.rustc_version().err()] {
        tree.say("not started", error.map(|error| error.to_string()));
    }
    Ok(())
}

pub fn convert_to_io_error(tree: &Tree) -> Outcome {
    fn read(tree: &Tree, below: &str) -> io::Result<Option<i32>> {
        let config = de::Config::load_file(tree.path(below))?;
        Ok(config.build.jobs.map(|jobs| jobs.val))
    }
    tree.put("broken.toml", "jobs = = 1\n")?;
    tree.say("there", read(tree, "work/.cargo/config.toml")?);
    for below in ["none.toml", "work", "broken.toml"] {
        let error = read(tree, below).expect_err("it can't be read");
        tree.say(below, (error.kind(), error.to_string().lines().next()));
    }
    Ok(())
}

pub fn convert_from_std_errors(tree: &Tree) -> Outcome {
    fn read_then_load(tree: &Tree, below: &str) -> Result<usize, Error> {
        let text = std::fs::read_to_string(tree.path(below))?;
        Ok(text.lines().count())
    }
    tree.say("read", read_then_load(tree, "work/kernel.json")?);
    let error = read_then_load(tree, "none").expect_err("there is no such file");
    tree.say("system", error.to_string());
    tree.say("kind", io::Error::from(error).kind());
    tree.say("variable", Error::from(VarError::NotPresent).to_string());
    tree.say("kind", io::Error::from(Error::from(VarError::NotPresent)).kind());
    Ok(())
}

pub fn return_boxed_error(tree: &Tree) -> Outcome {
    fn load(tree: &Tree) -> Result<(), Box<dyn StdError + Send + Sync>> {
        de::Config::load_file(tree.path("none.toml"))?;
        Ok(())
    }
    let error = load(tree).expect_err("there is no such file");
    tree.say("is one of the crate", error.downcast_ref::<Error>().is_some());
    let context = format!("can't configure the build: {error}");
    tree.say("with a context", context);
    Ok(())
}
