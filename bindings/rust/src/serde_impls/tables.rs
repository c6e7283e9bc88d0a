//! Tables as they are written: each field below its key, in the order of the original.
use super::written::{table_of, Write, Written};
use crate::{de, tables as resolved};

// A table of these fields, whose keys are the fields' names unless another is written; none where nothing is set.
macro_rules! tables {
    ($($name:ty: $($key:literal $field:ident)*;)*) => {$(
        impl Write for $name {
            fn written(&self) -> Option<Written> {
                let table = table_of([$(($key, self.$field.written())),*]);
                (!table.is_empty()).then_some(Written::Table(table))
            }
        }
    )*};
}

tables! {
    resolved::BuildConfig: "jobs" jobs "rustc" rustc "rustc-wrapper" rustc_wrapper "rustc-workspace-wrapper"
        rustc_workspace_wrapper "rustdoc" rustdoc "target" target "target-dir" target_dir "build-dir" build_dir
        "rustflags" rustflags "rustdocflags" rustdocflags "incremental" incremental "dep-info-basedir"
        dep_info_basedir;
    de::BuildConfig: "jobs" jobs "rustc" rustc "rustc-wrapper" rustc_wrapper "rustc-workspace-wrapper"
        rustc_workspace_wrapper "rustdoc" rustdoc "target" target "target-dir" target_dir "build-dir" build_dir
        "rustflags" rustflags "rustdocflags" rustdocflags "incremental" incremental "dep-info-basedir"
        dep_info_basedir;
    resolved::CargoNewConfig: "vcs" vcs;
    de::CargoNewConfig: "vcs" vcs;
    resolved::DocConfig: "browser" browser;
    de::DocConfig: "browser" browser;
    resolved::FutureIncompatReportConfig: "frequency" frequency;
    de::FutureIncompatReportConfig: "frequency" frequency;
    resolved::HttpConfig: "debug" debug "proxy" proxy "timeout" timeout "cainfo" cainfo "check-revoke" check_revoke
        "low-speed-limit" low_speed_limit "multiplexing" multiplexing "user-agent" user_agent;
    de::HttpConfig: "debug" debug "proxy" proxy "timeout" timeout "cainfo" cainfo "check-revoke" check_revoke
        "low-speed-limit" low_speed_limit "multiplexing" multiplexing "user-agent" user_agent;
    resolved::NetConfig: "retry" retry "git-fetch-with-cli" git_fetch_with_cli "offline" offline;
    de::NetConfig: "retry" retry "git-fetch-with-cli" git_fetch_with_cli "offline" offline;
    resolved::RegistriesConfigValue: "index" index "token" token "credential-provider" credential_provider "protocol"
        protocol;
    de::RegistriesConfigValue: "index" index "token" token "credential-provider" credential_provider "protocol"
        protocol;
    resolved::RegistryConfig: "default" default "credential-provider" credential_provider "token" token
        "global-credential-providers" global_credential_providers;
    de::RegistryConfig: "default" default "credential-provider" credential_provider "token" token
        "global-credential-providers" global_credential_providers;
    resolved::SourceConfigValue: "replace-with" replace_with "directory" directory "registry" registry
        "local-registry" local_registry "git" git "branch" branch "tag" tag "rev" rev;
    de::SourceConfigValue: "replace-with" replace_with "directory" directory "registry" registry "local-registry"
        local_registry "git" git "branch" branch "tag" tag "rev" rev;
    resolved::TargetConfig: "linker" linker "runner" runner "rustflags" rustflags "rustdocflags" rustdocflags;
    resolved::TermConfig: "quiet" quiet "verbose" verbose "color" color "progress" progress;
    de::TermConfig: "quiet" quiet "verbose" verbose "color" color "progress" progress;
    resolved::TermProgressConfig: "when" when "width" width;
    de::TermProgress: "when" when "width" width;
    crate::Config: "alias" alias "build" build "credential-alias" credential_alias "doc" doc "env" env
        "future-incompat-report" future_incompat_report "cargo-new" cargo_new "http" http "net" net
        "registries" registries "registry" registry "source" source "target" targets "term" term;
    de::Config: "alias" alias "build" build "credential-alias" credential_alias "doc" doc "env" env
        "future-incompat-report" future_incompat_report "cargo-new" cargo_new "http" http "net" net
        "registries" registries "registry" registry "source" source "target" target "term" term;
}
