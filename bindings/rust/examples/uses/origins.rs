//! Values as files have them, with their origins.
use crate::tree::Tree;
use crate::Outcome;
use cargo_config2::de::{self, Config, Definition, EnvConfigValue, Value};
use cargo_config2::{Color, When};
use std::fmt::Debug;
use std::path::PathBuf;

fn load(tree: &Tree) -> Result<Config, cargo_config2::Error> {
    Config::load_with_cwd(tree.path("work/member"))
}

// A value and its origin, as a linter prints them.
fn say_value<T: Debug>(tree: &Tree, key: &str, value: &Option<Value<T>>) {
    match value {
        None => tree.say(key, "not set"),
        Some(Value { val, definition: None }) => tree.say(key, val),
        Some(Value { val, definition: Some(origin) }) => tree.say(key, (val, origin.to_string())),
    }
}

pub fn tell_which_file_set_a_value(tree: &Tree) -> Outcome {
    let de::BuildConfig { jobs, target_dir, incremental, dep_info_basedir, rustc, .. } = load(tree)?.build;
    say_value(tree, "build.jobs", &jobs);
    say_value(tree, "build.target-dir", &target_dir);
    say_value(tree, "build.incremental", &incremental);
    say_value(tree, "build.dep-info-basedir", &dep_info_basedir);
    say_value(tree, "build.rustc", &rustc);
    if let Some(Value { definition: Some(Definition::Path(path)), .. }) = jobs {
        tree.say("file name", path.file_name());
    }
    Ok(())
}

pub fn read_one_file(tree: &Tree) -> Outcome {
    let path = tree.path("work/.cargo/config.toml");
    let config = Config::load_file(&path)?;
    say_value(tree, "build.jobs", &config.build.jobs);
    say_value(tree, "net.offline", &config.net.offline);
    let elsewhere = tree.put("elsewhere/settings.toml", "term.quiet = true\n[unknown]\nkey = 1\n")?;
    say_value(tree, "term.quiet", &Config::load_file(elsewhere)?.term.quiet);
    say_value(tree, "relative", &Config::load_file("../.cargo/config.toml")?.build.jobs);
    say_value(tree, "in a relative directory", &Config::load_with_options("..", None)?.build.jobs);
    Ok(())
}

pub fn choose_cargo_home_of_files(tree: &Tree) -> Outcome {
    for home in [None, Some(tree.path("home/.cargo"))] {
        let config = Config::load_with_options(tree.path("work"), home)?;
        say_value(tree, "net.retry", &config.net.retry);
    }
    let config = Config::load_with_options(tree.path("empty"), tree.path("home/.cargo"))?;
    say_value(tree, "build.jobs", &config.build.jobs);
    let config = Config::load()?;
    say_value(tree, "of the process", &config.build.jobs);
    Ok(())
}

pub fn read_variables_table(tree: &Tree) -> Outcome {
    for (name, value) in load(tree)?.env {
        match value {
            EnvConfigValue::Value(value) => tree.say(&name, value.val),
            EnvConfigValue::Table { value, force, relative, .. } => {
                let [force, relative] = [force, relative].map(|it| it.map(|value| value.val));
                tree.say(&name, (value.val, force, relative));
            }
            _ => tree.say(&name, "of another form"),
        }
    }
    Ok(())
}

pub fn read_target_tables(tree: &Tree) -> Outcome {
    for (key, table) in load(tree)?.target {
        let kind = if key.starts_with("cfg(") { "condition" } else { "target" };
        tree.say(kind, &key);
        let de::TargetConfig { linker, runner, rustflags, rustdocflags, .. } = table;
        tree.say("linker", linker.map(|linker| linker.val));
        tree.say("runner", runner.map(|runner| runner.path.raw_value().to_owned()));
        tree.say("flags", [rustflags, rustdocflags].map(|flags| flags.map_or(0, |flags| flags.flags.len())));
    }
    Ok(())
}

pub fn read_choices_with_origins(tree: &Tree) -> Outcome {
    let config = load(tree)?;
    let de::TermConfig { quiet, verbose, color, progress, .. } = config.term;
    say_value(tree, "term.quiet", &quiet);
    say_value(tree, "term.verbose", &verbose);
    say_value::<Color>(tree, "term.color", &color);
    let de::TermProgress { when, width, .. } = progress;
    say_value::<When>(tree, "term.progress.when", &when);
    say_value(tree, "term.progress.width", &width);
    let (vcs, report): (de::CargoNewConfig, de::FutureIncompatReportConfig) =
        (config.cargo_new, config.future_incompat_report);
    say_value::<de::VersionControlSoftware>(tree, "cargo-new.vcs", &vcs.vcs);
    say_value::<de::Frequency>(tree, "future-incompat-report.frequency", &report.frequency);
    Ok(())
}

pub fn read_network_tables(tree: &Tree) -> Outcome {
    let config = load(tree)?;
    let (http, net): (de::HttpConfig, de::NetConfig) = (config.http, config.net);
    say_value(tree, "http.proxy", &http.proxy);
    say_value(tree, "http.timeout", &http.timeout);
    say_value(tree, "http.cainfo", &http.cainfo);
    say_value(tree, "net.retry", &net.retry);
    say_value(tree, "net.offline", &net.offline);
    for (name, source) in config.source {
        let de::SourceConfigValue { replace_with, directory, registry, local_registry, git, branch, tag, rev, .. } =
            source;
        let keys = [replace_with, directory, registry, local_registry, git, branch, tag, rev];
        tree.say(&name, keys.map(|value| value.map(|value| value.val)));
    }
    Ok(())
}

pub fn change_values_by_hand(tree: &Tree) -> Outcome {
    let mut config = Config::default();
    config.build.jobs = Some(Value { val: 3, definition: None });
    config.term.color = Some(Value { val: Color::Never, definition: Some(Definition::Cli(None)) });
    config.env.insert("A".into(), EnvConfigValue::Value(Value { val: "a".into(), definition: None }));
    config.build.target = Some(de::StringOrArray::Array(Vec::new()));
    say_value(tree, "build.jobs", &config.build.jobs);
    say_value(tree, "term.color", &config.term.color);
    let changed = config.clone();
    config.env.clear();
    tree.say("variables", (config.env.len(), changed.env.len()));
    // A file's value has precedence over the default of a client.
    let loaded = load(tree)?;
    config.build.jobs = loaded.build.jobs.or(config.build.jobs);
    config.net.retry = Some(Value { val: 0, definition: None }).or(loaded.net.retry);
    say_value(tree, "build.jobs", &config.build.jobs);
    say_value(tree, "net.retry", &config.net.retry);
    Ok(())
}

pub fn name_origins(tree: &Tree) -> Outcome {
    let path = PathBuf::from("a/.cargo/config.toml");
    let origins = [
        Definition::Path(path.clone()),
        Definition::Environment("CARGO_BUILD_JOBS".into()),
        Definition::Environment(format!("CARGO_{}", "TERM").into()),
        Definition::Cli(None),
        Definition::Cli(Some(path)),
    ];
    for origin in &origins {
        tree.say(&origin.to_string(), origin);
    }
    tree.say("kinds alike", (origins[1] == origins[2], origins[3] == origins[4], origins[0] == origins[4]));
    let [near, far] = ["a", "b"].map(|file| Value { val: 1, definition: Some(Definition::Path(file.into())) });
    tree.say("values alike", (near == far, near == Value { val: 1, definition: None }));
    Ok(())
}
