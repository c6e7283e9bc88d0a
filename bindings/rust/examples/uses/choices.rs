//! Values that are one of a few words.
use crate::tree::Tree;
use crate::Outcome;
use cargo_config2::{
    Color, Config, Error, Frequency, RegistriesProtocol, ResolveOptions, VersionControlSoftware, When,
};
use std::str::FromStr;

// What the words are read as; an error's text isn't part of it.
fn parse_all<T: FromStr>(words: &[&str]) -> Vec<Option<T>> {
    words.iter().map(|word| word.parse().ok()).collect()
}

pub fn parse_choices(tree: &Tree) -> Outcome {
    let color = |text: Option<&str>| text.map_or(Ok(Color::default()), str::parse::<Color>);
    tree.say("option", (color(None)?, color(Some("never"))?.as_str()));
    tree.say("colors", parse_all::<Color>(&["auto", "always", "never", "Always", ""]));
    tree.say("progress", parse_all::<When>(&["auto", "always", "never", "sometimes"]));
    tree.say("reports", parse_all::<Frequency>(&["always", "never", "auto"]));
    tree.say("protocols", parse_all::<RegistriesProtocol>(&["git", "sparse", "https"]));
    tree.say("systems", parse_all::<VersionControlSoftware>(&["git", "hg", "pijul", "fossil", "none", "svn"]));
    let refused: Result<Color, Error> = "x".parse();
    tree.say("names the word", refused.is_err_and(|error| error.to_string().contains("`x`")));
    Ok(())
}

// The arguments of a program that is started with the same settings.
fn arguments(config: &Config) -> Vec<&'static str> {
    let color = match config.term.color {
        Some(Color::Always) => "--color=always",
        Some(Color::Never) => "--color=never",
        Some(Color::Auto) | None => "--color=auto",
    };
    let vcs = config.cargo_new.vcs.map_or("git", VersionControlSoftware::as_str);
    let when = config.term.progress.when.unwrap_or(When::Auto).as_str();
    let frequency = config.future_incompat_report.frequency.unwrap_or_default();
    let report = if frequency == Frequency::Never { "" } else { "--report" };
    vec![color, vcs, when, report, frequency.as_str()]
}

pub fn match_choices(tree: &Tree) -> Outcome {
    let config = Config::load_with_cwd(tree.path("work"))?;
    tree.say("of files", arguments(&config));
    let set = [("CARGO_TERM_COLOR", "never"), ("CARGO_TERM_PROGRESS_WHEN", "always")];
    let options = ResolveOptions::default().env(set).cargo_home(None);
    tree.say("of variables", arguments(&Config::load_with_options(tree.path("empty"), options)?));
    let protocol = config.registries.get("crates-io").and_then(|registry| registry.protocol.clone());
    let is_sparse = match protocol {
        Some(RegistriesProtocol::Git) => false,
        Some(RegistriesProtocol::Sparse) => true,
        _ => return Err("no protocol is set".into()),
    };
    tree.say("sparse", is_sparse);
    Ok(())
}
