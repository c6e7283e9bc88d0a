//! Answers all questions of the crate `cargo-config2` about folders. tests/api-trees builds this program over two crates of
//! that name, and compares what both print.
//!
//! Each line of standard input is a tree, an object of JSON as `Tree` has it. Its answers are one line of JSON on standard
//! output: a list of pairs. A pair is the name of a question and its answer: an object of `text`, `error` or `panic`.
use cargo_config2::{cargo_home_with_cwd, rustup_home_with_cwd};
use cargo_config2::{cfg, de, home_dir, Config, Error, Flags, PathAndArgs, ResolveOptions, TargetTripleRef, Walk};
use serde_json::{json, Value};
use std::collections::BTreeSet;
use std::error::Error as _;
use std::ffi::OsString;
use std::fmt::Debug;
use std::io::{self, BufRead, Write};
use std::os::unix::ffi::OsStringExt;
use std::panic::{self, AssertUnwindSafe};
use std::path::{Path, PathBuf};
use std::process::Command;

type Answers = Vec<Value>;
type Variables = Vec<(OsString, OsString)>;

/// A tree, and the questions about it.
struct Tree {
    /// The current directory of the process.
    top: PathBuf,
    /// The directory of the questions.
    dir: PathBuf,
    /// Variables that are set in the process for this tree.
    process: Variables,
    /// What is chosen; none where the process's variables or homes are taken.
    env: Option<Variables>,
    cargo_home: Option<Option<PathBuf>>,
    rustc: Option<Vec<String>>,
    cargo: Option<String>,
    host: Option<String>,
    /// Questions of the resolved configuration, in their order: a name, and a target or nothing.
    questions: Vec<(String, String)>,
}

fn text(value: &Value) -> String {
    value.as_str().expect("a text").to_owned()
}

fn list<T>(value: &Value, item: impl Fn(&Value) -> T) -> Vec<T> {
    value.as_array().expect("a list").iter().map(item).collect()
}

/// Pairs of a name and the bytes of a value.
fn variables(value: &Value) -> Variables {
    let byte = |value: &Value| u8::try_from(value.as_u64().expect("a byte")).expect("a byte");
    list(value, |pair| (text(&pair[0]).into(), OsString::from_vec(list(&pair[1], byte))))
}

impl Tree {
    fn read(line: &str) -> Tree {
        let tree: Value = serde_json::from_str(line).expect("a tree");
        let chosen = |key: &str| Some(&tree[key]).filter(|value| !value.is_null());
        Tree {
            top: text(&tree["top"]).into(),
            dir: text(&tree["dir"]).into(),
            process: variables(&tree["process"]),
            env: chosen("env").map(variables),
            cargo_home: chosen("cargo_home").map(|home| home.get(0).map(|home| text(home).into())),
            rustc: chosen("rustc").map(|words| list(words, text)),
            cargo: chosen("cargo").map(text),
            host: chosen("host").map(text),
            questions: list(&tree["questions"], |pair| (text(&pair[0]), text(&pair[1]))),
        }
    }

    fn options(&self) -> ResolveOptions {
        let mut options = ResolveOptions::default();
        if let Some(env) = &self.env {
            options = options.env(env.clone());
        }
        if let Some(home) = &self.cargo_home {
            options = options.cargo_home(home.clone());
        }
        if let Some((program, args)) = self.rustc.as_ref().and_then(|words| words.split_first()) {
            let mut rustc = PathAndArgs::new(program);
            rustc.args(args);
            options = options.rustc(rustc);
        }
        if let Some(cargo) = &self.cargo {
            options = options.cargo(cargo);
        }
        if let Some(host) = &self.host {
            options = options.host_triple(host);
        }
        options
    }
}

/// The debug form, without the private fields for whether a list was one text. The JSON shows that too.
fn shown(value: &impl Debug) -> String {
    let private = [", deserialized_repr: String", ", deserialized_repr: Array", ", is_text: true", ", is_text: false"];
    private.iter().fold(format!("{value:?}"), |text, field| text.replace(field, ""))
}

/// An error: its text, those of its causes, and the kind that it has as an error of std::io.
fn refused(error: Error) -> Value {
    let mut chain = vec![error.to_string()];
    let mut cause = error.source();
    while let Some(error) = cause {
        chain.push(error.to_string());
        cause = error.source();
    }
    json!({"error": chain, "kind": format!("{:?}", io::Error::from(error).kind())})
}

/// Adds the answer to a question.
fn put(answers: &mut Answers, name: &str, ask: impl FnOnce() -> Result<String, Error>) {
    let answer = match panic::catch_unwind(AssertUnwindSafe(ask)) {
        Ok(Ok(text)) => json!({ "text": text }),
        Ok(Err(error)) => refused(error),
        Err(panic) => {
            let text = panic.downcast_ref::<&str>().map(ToString::to_string);
            json!({"panic": text.or_else(|| panic.downcast_ref().cloned()).unwrap_or_else(String::new)})
        }
    };
    answers.push(json!([name, answer]));
}

/// Adds what a call gives that isn't refused.
fn put_text(answers: &mut Answers, name: &str, ask: impl FnOnce() -> String) {
    put(answers, name, || Ok(ask()));
}

/// Adds the debug forms of these fields.
macro_rules! put_fields {
    ($answers:expr, $front:literal, $table:expr, $($field:ident)*) => {
        $(put_text($answers, concat!($front, " ", stringify!($field)), || shown(&$table.$field));)*
    };
}

/// Adds the debug forms of the tables that both kinds of configurations have.
macro_rules! put_tables {
    ($answers:expr, $front:literal, $config:expr) => {
        put_fields!($answers, $front, $config, alias credential_alias doc env future_incompat_report cargo_new http net
            registries registry source term);
        put_fields!($answers, $front, $config.build, jobs rustc rustc_wrapper rustc_workspace_wrapper rustdoc target
            target_dir build_dir rustflags rustdocflags incremental dep_info_basedir);
    };
}

/// The JSON of a value.
fn json_of(value: &impl serde::Serialize) -> String {
    serde_json::to_string(value).unwrap_or_else(|error| format!("no JSON: {error}"))
}

/// Adds the configuration of files: its tables, its JSON, and what is read again from that.
fn put_files(answers: &mut Answers, config: &de::Config) {
    put_tables!(answers, "files", config);
    for (name, target) in &config.target {
        let fields = (&target.linker, &target.runner, &target.rustflags, &target.rustdocflags);
        put_text(answers, &format!("files target {name}"), || shown(&fields));
    }
    let jobs = config.build.jobs.iter().filter_map(|jobs| jobs.definition.as_ref());
    put_text(answers, "files origin", || jobs.map(ToString::to_string).collect());
    let json = json_of(config);
    put_text(answers, "files again", || match serde_json::from_str::<de::Config>(&json) {
        Ok(config) => format!("{} {}", json_of(&config), shown(&(&config.alias, &config.env, &config.registry))),
        Err(_) => "refused".to_owned(),
    });
    put_text(answers, "files json", || json);
}

/// Adds the walk, the homes, and what each file says by itself.
fn put_walk(answers: &mut Answers, tree: &Tree) {
    let dir = tree.dir.as_path();
    put_text(answers, "walk", || format!("{:?}", Walk::new(dir).collect::<Vec<_>>()));
    let home = tree.cargo_home.clone().flatten();
    put_text(answers, "walk by home", || format!("{:?}", Walk::with_cargo_home(dir, home).collect::<Vec<_>>()));
    put_text(answers, "homes", || format!("{:?}", (home_dir(), cargo_home_with_cwd(dir), rustup_home_with_cwd(dir))));
    let chosen = Walk::with_cargo_home(dir, tree.cargo_home.clone().flatten());
    for path in Walk::new(dir).chain(chosen).collect::<BTreeSet<_>>() {
        let name = format!("file {}", path.display());
        put(answers, &name, || de::Config::load_file(&path).map(|config| json_of(&config)));
        let jobs = |config: de::Config| shown(&config.build.jobs);
        put(answers, &format!("{name} jobs"), || de::Config::load_file(&path).map(jobs));
    }
}

/// The answer to a question of a target, for one of the settings.
fn setting(config: &Config, name: &str, target: &str) -> Result<String, Error> {
    Ok(match name {
        "target" => config.target(target).map(|found| format!("{} {}", shown(&found), json_of(&found)))?,
        "linker" => shown(&config.linker(target)?),
        "runner" => match config.runner(target.to_owned())? {
            Some(runner) => format!("{runner:?} {:?}", Command::from(&runner)),
            None => "none".to_owned(),
        },
        "rustflags" => shown(&config.rustflags(&target.to_owned())?),
        "rustdocflags" => shown(&config.rustdocflags(target)?),
        "cfg_abi" => shown(&config.cfg::<cfg::TargetAbi, _>(target)?),
        "cfg_arch" => shown(&config.cfg::<cfg::TargetArch, _>(target)?),
        "cfg_endian" => shown(&config.cfg::<cfg::TargetEndian, _>(target)?),
        "cfg_env" => shown(&config.cfg::<cfg::TargetEnv, _>(target)?),
        "cfg_family" => shown(&config.cfg::<cfg::TargetFamily, _>(target)?),
        "cfg_has_atomic" => shown(&config.cfg::<cfg::TargetHasAtomic, _>(target)?),
        "cfg_os" => shown(&config.cfg::<cfg::TargetOs, _>(target)?),
        "cfg_pointer_width" => shown(&config.cfg::<cfg::TargetPointerWidth, _>(target)?),
        "cfg_vendor" => shown(&config.cfg::<cfg::TargetVendor, _>(target)?),
        "triple" => {
            let target = TargetTripleRef::from(target);
            format!("{target:?} {:?} {:?} {}", target.triple(), target.spec_path(), json_of(&target))
        }
        other => panic!("no question {other}"),
    })
}

/// The answer to a question of the resolved configuration.
fn answer(config: &Config, name: &str, target: &str) -> Result<String, Error> {
    let none: [&str; 0] = [];
    Ok(match name {
        "host" => config.host_triple()?.to_owned(),
        "rustc" => shown(config.rustc()),
        "cargo" => shown(&config.cargo()),
        "rustc_version" => {
            let version = config.rustc_version()?;
            format!("{version:?} {:?}", version.major_minor())
        }
        "cargo_version" => {
            let version = config.cargo_version()?;
            format!("{version:?} {:?}", version.major_minor())
        }
        "targets_for_cli" => shown(&config.build_target_for_cli(none)?),
        "targets_for_cli_of" => shown(&config.build_target_for_cli([target])?),
        "targets_for_config" => shown(&config.build_target_for_config(none)?),
        "targets_for_config_of" => shown(&config.build_target_for_config([target])?),
        "json" => json_of(config),
        "flags" => shown(&flags(config, target)),
        _ => return setting(config, name, target),
    })
}

/// What the helpers of flags give for those of `build`, and for a text.
fn flags(config: &Config, text: &str) -> Vec<Result<String, String>> {
    let mut found = vec![Flags::from_encoded(text), Flags::from_space_separated(text), Flags::from([text, "b"])];
    found.extend(config.build.rustflags.clone());
    found.extend(config.build.rustdocflags.clone());
    found.iter_mut().for_each(|flags| flags.push("last"));
    let encoded = found.iter().flat_map(|flags| [flags.encode(), flags.encode_space_separated()]);
    encoded.map(|text| text.map_err(|error| error.to_string())).collect()
}

/// The answers about a tree.
fn answers(tree: &Tree) -> Answers {
    let mut found = Answers::new();
    put_walk(&mut found, tree);
    let home = tree.cargo_home.clone().flatten();
    let mut files = None;
    put(&mut found, "files", || {
        files = Some(de::Config::load_with_options(&tree.dir, home)?);
        Ok("loaded".to_owned())
    });
    files.iter().for_each(|config| put_files(&mut found, config));
    put(&mut found, "files of process", || de::Config::load_with_cwd(&tree.dir).map(|config| json_of(&config)));
    put(&mut found, "process", || Config::load_with_cwd(&tree.dir).map(|config| json_of(&config)));
    let mut config = None;
    put(&mut found, "resolved", || {
        config = Some(Config::load_with_options(&tree.dir, tree.options())?);
        Ok("loaded".to_owned())
    });
    let Some(config) = config else {
        return found;
    };
    put_tables!(&mut found, "resolved", config);
    put_text(&mut found, "resolved json", || json_of(&config));
    for (name, target) in &tree.questions {
        put(&mut found, &format!("{name} {target}"), || answer(&config, name, target));
    }
    found
}

/// Sets the process's directory and variables for a tree, or undoes it.
fn set_process(tree: &Tree, undo: bool) {
    for (name, value) in &tree.process {
        match undo {
            false => std::env::set_var(name, value),
            true => std::env::remove_var(name),
        }
    }
    let dir = if undo { Path::new("/") } else { &tree.top };
    std::env::set_current_dir(dir).expect("a directory");
}

fn main() -> io::Result<()> {
    panic::set_hook(Box::new(|_| ()));
    let mut out = io::stdout().lock();
    for line in io::stdin().lock().lines() {
        let tree = Tree::read(&line?);
        set_process(&tree, false);
        let found = answers(&tree);
        set_process(&tree, true);
        writeln!(out, "{}", Value::from(found))?;
        out.flush()?;
    }
    Ok(())
}
