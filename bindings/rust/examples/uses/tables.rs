//! The tables of a resolved configuration.
use crate::tree::Tree;
use crate::Outcome;
use cargo_config2::{
    BuildConfig, CargoNewConfig, Config, CredentialProvider, DocConfig, EnvConfigValue, FutureIncompatReportConfig,
    GlobalCredentialProviders, HttpConfig, NetConfig, PathAndArgs, RegistriesConfigValue, RegistryConfig,
    ResolveOptions, SourceConfigValue, StringList, TermConfig, TermProgressConfig,
};
use std::collections::BTreeMap;
use std::path::PathBuf;
use std::process::Command;

fn load(tree: &Tree) -> Result<Config, cargo_config2::Error> {
    Config::load_with_cwd(tree.path("work/member"))
}

pub fn expand_alias(tree: &Tree) -> Outcome {
    let config = load(tree)?;
    for word in ["b", "ci", "xtask", "none"] {
        tree.say(word, config.alias.get(word).map_or_else(|| vec![word.to_owned()], |alias| alias.list.clone()));
    }
    Ok(())
}

// The variables of the table, as Cargo sets them for the programs that it starts.
pub fn set_variables_for_child(tree: &Tree) -> Outcome {
    let config = load(tree)?;
    let mut child = Command::new("build-script");
    let inherited = |name: &str| ["LANG", "RUST_BACKTRACE"].contains(&name);
    for (name, EnvConfigValue { value, force, relative, .. }) in &config.env {
        tree.say(name, (force, relative));
        if *force || !inherited(name) {
            child.env(name, value);
        }
    }
    tree.say("set", child.get_envs().collect::<Vec<_>>());
    Ok(())
}

pub fn find_build_folders(tree: &Tree) -> Outcome {
    let folders = |build: &BuildConfig| -> (PathBuf, Option<PathBuf>) {
        (build.target_dir.clone().unwrap_or_else(|| "target".into()), build.build_dir.clone())
    };
    tree.say("configured", folders(&load(tree)?.build));
    let variables = [("CARGO_TARGET_DIR", "t"), ("CARGO_BUILD_BUILD_DIR", "{workspace-root}/b")];
    let options = ResolveOptions::default().env(variables);
    tree.say("by variables", folders(&Config::load_with_options(tree.path("work"), options)?.build));
    tree.say("default", folders(&BuildConfig::default()));
    Ok(())
}

pub fn open_browser(tree: &Tree) -> Outcome {
    let DocConfig { browser, .. } = load(tree)?.doc;
    tree.say("configured", browser.as_ref().map(Command::from));
    let options = ResolveOptions::default().env([("BROWSER", "lynx -dump")]).cargo_home(None);
    tree.say("by a variable", Config::load_with_options(tree.path("empty"), options)?.doc.browser);
    Ok(())
}

pub fn follow_replaced_sources(tree: &Tree) -> Outcome {
    let config = load(tree)?;
    let mut name = "crates-io";
    while let Some(next) = config.source.get(name).and_then(|source| source.replace_with.as_deref()) {
        tree.say(name, next);
        name = next;
    }
    tree.say("directory", config.source.get(name).and_then(|source| source.directory.as_deref()));
    for (name, source) in &config.source {
        let SourceConfigValue { registry, local_registry, git, branch, tag, rev, .. } = source;
        tree.say(name, (registry, local_registry, git, branch, tag, rev));
    }
    Ok(())
}

// The program of a provider, if there is one.
fn program<'a>(config: &'a Config, provider: &'a CredentialProvider) -> Option<&'a PathAndArgs> {
    match provider {
        CredentialProvider::Plugin(command) | CredentialProvider::CargoTokenFromStdout(command) => Some(command),
        CredentialProvider::Alias(name) => config.credential_alias.get(name),
        _ => None,
    }
}

pub fn choose_credentials(tree: &Tree) -> Outcome {
    let config = load(tree)?;
    for (name, registry) in &config.registries {
        let provider = registry.credential_provider.as_ref();
        tree.say(name, (provider, provider.and_then(|provider| program(&config, provider))));
    }
    let global: &GlobalCredentialProviders = &config.registry.global_credential_providers;
    for provider in global.as_ref().iter().rev() {
        tree.say("global", (provider, program(&config, provider)));
    }
    let made = GlobalCredentialProviders::from(vec![CredentialProvider::CargoToken, CredentialProvider::CargoWincred]);
    tree.say("made", (&made, made == *global, GlobalCredentialProviders::default().as_ref().len()));
    Ok(())
}

pub fn hide_tokens(tree: &Tree) -> Outcome {
    let config = load(tree)?;
    tree.say("registry", &config.registry);
    tree.say("registries", &config.registries);
    tree.say("whole", format!("{config:?}").contains("a secret of"));
    tree.say("read", config.registries.get("company").and_then(|it| it.token.as_deref()).map(str::len));
    tree.say("defaults", (RegistryConfig::default(), RegistriesConfigValue::default()));
    Ok(())
}

pub fn read_network_settings(tree: &Tree) -> Outcome {
    let config = load(tree)?;
    let (http, net): (HttpConfig, NetConfig) = (config.http, config.net);
    tree.say("http", (&http.proxy, http.timeout, &http.cainfo, http.check_revoke, http.debug));
    tree.say("more", (http.low_speed_limit, http.multiplexing, &http.user_agent));
    tree.say("net", (net.retry, net.git_fetch_with_cli, net.offline));
    tree.say("default", (HttpConfig::default(), NetConfig::default()));
    Ok(())
}

pub fn style_terminal(tree: &Tree) -> Outcome {
    let config = load(tree)?;
    let TermConfig { quiet, verbose, color, progress, .. } = config.term;
    tree.say("words", (quiet.unwrap_or_default(), verbose.unwrap_or_default(), color.unwrap_or_default().as_str()));
    let TermProgressConfig { when, width, .. } = progress;
    tree.say("progress", (when.unwrap_or_default(), width));
    let (CargoNewConfig { vcs, .. }, FutureIncompatReportConfig { frequency, .. }) =
        (config.cargo_new, config.future_incompat_report);
    tree.say("others", (vcs, frequency));
    tree.say("default", (TermConfig::default(), CargoNewConfig::default(), FutureIncompatReportConfig::default()));
    Ok(())
}

pub fn make_string_lists(tree: &Tree) -> Outcome {
    let text = String::from(" run  --release ");
    let split = [StringList::from(text.as_str()), StringList::from(&text), StringList::from(text.clone())];
    tree.say("split", &split[0]);
    tree.say("equal", split.iter().all(|list| *list == split[0]));
    let whole: [StringList; 5] = [
        ["a b"].into(),
        ["a b".to_owned()].into(),
        vec!["a b".to_owned()].into(),
        StringList::from(["a b"].as_slice()),
        StringList::from(["a b".to_owned()].as_slice()),
    ];
    tree.say("whole", &whole[0]);
    tree.say("equal", whole.iter().all(|list| list == &whole[0]));
    let aliases: BTreeMap<_, _> = [("r", split[0].clone()), ("none", StringList::default())].into();
    tree.say("aliases", aliases);
    Ok(())
}
