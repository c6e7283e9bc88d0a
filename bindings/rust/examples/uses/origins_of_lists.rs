//! Lists and commands as files have them, with their origins.
use crate::tree::Tree;
use crate::Outcome;
use cargo_config2::de::{
    Config, ConfigRelativePath, CredentialProvider, CredentialProviderKind, DocConfig, Flags,
    GlobalCredentialProviders, PathAndArgs, RegistriesConfigValue, RegistryConfig, StringList, StringOrArray, Value,
};

fn load(tree: &Tree) -> Result<Config, cargo_config2::Error> {
    Config::load_with_cwd(tree.path("work/member"))
}

// The texts of a list, each with its origin.
fn say_list(tree: &Tree, key: &str, list: &[Value<String>]) {
    for Value { val, definition } in list {
        tree.say(key, (val, definition.as_ref().map(ToString::to_string)));
    }
}

fn say_command(tree: &Tree, key: &str, command: &PathAndArgs) {
    let path: &ConfigRelativePath = &command.path;
    tree.say(key, (path.raw_value(), path.value().definition.as_ref().map(ToString::to_string)));
    say_list(tree, "argument", &command.args);
}

pub fn read_lists_with_origins(tree: &Tree) -> Outcome {
    let config = load(tree)?;
    let Flags { flags, .. } = config.build.rustflags.ok_or("build.rustflags isn't set")?;
    say_list(tree, "build.rustflags", &flags);
    for (name, alias) in &config.alias {
        let StringList { list, .. } = alias;
        say_list(tree, name, list);
    }
    tree.say("default", StringList::default().list);
    tree.put("texts/.cargo/config.toml", "build.target = 'a'\n")?;
    tree.put("lists/.cargo/config.toml", "build.target = ['a', 'b']\n")?;
    for folder in ["texts", "lists"] {
        match Config::load_with_options(tree.path(folder), None)?.build.target {
            Some(StringOrArray::String(target)) => say_list(tree, "one text", &[target]),
            Some(StringOrArray::Array(targets)) => say_list(tree, "a list", &targets),
            None => tree.say("target", "not set"),
        }
    }
    Ok(())
}

pub fn read_commands_as_written(tree: &Tree) -> Outcome {
    let config = load(tree)?;
    let DocConfig { browser, .. } = config.doc;
    say_command(tree, "doc.browser", &browser.ok_or("doc.browser isn't set")?);
    for (name, command) in &config.credential_alias {
        say_command(tree, name, command);
    }
    for (key, table) in config.target {
        if let Some(runner) = table.runner {
            say_command(tree, &key, &runner);
        }
    }
    Ok(())
}

fn say_provider(tree: &Tree, label: &str, provider: &CredentialProvider) {
    match &provider.kind {
        CredentialProviderKind::MaybeAlias(name) => say_list(tree, label, std::slice::from_ref(name)),
        CredentialProviderKind::CargoTokenFromStdout(command) | CredentialProviderKind::Plugin(command) => {
            say_command(tree, label, command);
        }
        builtin => tree.say(label, builtin),
    }
}

pub fn read_credentials_as_written(tree: &Tree) -> Outcome {
    let config = load(tree)?;
    for (name, registry) in &config.registries {
        let RegistriesConfigValue { index, credential_provider, protocol, .. } = registry;
        tree.say(name, (index.as_ref().map(|index| &index.val), protocol.as_ref().map(|protocol| &protocol.val)));
        if let Some(provider) = credential_provider {
            say_provider(tree, name, provider);
        }
    }
    let RegistryConfig { default, token, credential_provider, global_credential_providers, .. } = &config.registry;
    tree.say("default", default.as_ref().map(|name| &name.val));
    tree.say("token", token.as_ref().map(|token| token.val.len()));
    credential_provider.iter().for_each(|provider| say_provider(tree, "crates.io", provider));
    let all: &GlobalCredentialProviders = global_credential_providers;
    all.as_ref().iter().for_each(|provider| say_provider(tree, "global", provider));
    tree.say("secret shown", format!("{:?}", config).contains("a secret of"));
    Ok(())
}
