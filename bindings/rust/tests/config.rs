//! Loads and queries over folders of their own.
mod folder;

use cargo_config2::{cfg, Config, Flags, TargetTripleRef};
use folder::{alone, Folder};
use std::error::Error;
use std::path::Path;

fn texts(flags: Option<Flags>) -> Vec<String> {
    flags.unwrap().flags
}

#[test]
fn the_table_build() {
    let folder = Folder::new();
    folder.put(
        "p/.cargo/config.toml",
        "[build]\njobs = 3\nrustc = 'bin/r'\nrustc-wrapper = 'w'\nrustdoc = './d'\ntarget = ['a', 's/b.json']\n\
         target-dir = 't'\nbuild-dir = '{workspace-root}/o'\nrustflags = ['x', \"\\\"\\\\\\u0007\"]\nincremental = false\n",
    );
    folder.put("p/q/.cargo/config", "build.jobs = 4\nbuild.rustdocflags = []\n");
    let config = folder.load(alone().env([("CARGO_BUILD_DEP_INFO_BASEDIR", "i")]));
    let (p, build) = (folder.0.join("p"), &config.build);
    assert_eq!(build.jobs, Some(4));
    assert_eq!(build.rustc.as_deref(), Some(p.join("bin/r").as_path()));
    assert_eq!(build.rustc_wrapper.as_deref(), Some(Path::new("w")));
    assert_eq!(build.rustc_workspace_wrapper, None);
    assert_eq!(build.rustdoc.as_deref(), Some(p.join("./d").as_path()));
    assert_eq!(build.target_dir.as_deref(), Some(p.join("t").as_path()));
    assert_eq!(build.build_dir.as_deref(), Some(Path::new("{workspace-root}/o")));
    assert_eq!(texts(build.rustflags.clone()), ["x", "\"\\\u{7}"]);
    assert_eq!(texts(build.rustdocflags.clone()), [""; 0]);
    assert_eq!(build.incremental, Some(false));
    assert_eq!(build.dep_info_basedir.as_deref(), Some(p.join("q/i").as_path()));
    let spec = p.join("s/b.json");
    assert_eq!(config.build_target_for_cli([""; 0]).unwrap(), ["a", spec.to_str().unwrap()]);
    assert_eq!(config.build_target_for_cli(["c"]).unwrap(), ["c"]);
    let targets = config.build_target_for_config(None::<&str>).unwrap();
    assert_eq!(targets[1].triple(), "b");
    assert_eq!(targets[1].spec_path(), Some(spec.as_path()));
    assert_eq!(config.rustc().path, Path::new("w"));
    assert_eq!(config.rustc().args, [p.join("bin/r").into_os_string()]);
}

#[test]
fn a_target_is_asked_for_once() {
    let folder = Folder::new();
    folder.put_program("bin/rustc", "printf x >> \"${0%/*}/../starts\"\necho unix\n");
    folder.put(
        "p/.cargo/config.toml",
        "build.rustc = '../bin/rustc'\n[target.'cfg(unix)']\nlinker = 'l'\nrunner = ['r/s', '-x']\nrustflags = 'a b'\n\
         [target.t]\nrustdocflags = ['d']\n",
    );
    let rustc = folder.0.join("bin/rustc");
    let config = folder.load(alone().config_text(format!("build.rustc = '{}'", rustc.display())));
    assert_eq!(folder.starts(), 0);
    assert_eq!(config.linker("t").unwrap().as_deref(), Some(Path::new("l")));
    let runner = config.runner(TargetTripleRef::from("t")).unwrap().unwrap();
    assert_eq!((runner.path, runner.args.len()), (folder.0.join("p/r/s"), 1));
    assert_eq!(texts(config.rustflags("t".to_owned()).unwrap()), ["a", "b"]);
    assert_eq!(texts(config.rustdocflags("t").unwrap()), ["d"]);
    assert_eq!(folder.starts(), 1);
    assert_eq!(config.rustdocflags("u").unwrap(), None);
    assert_eq!(folder.starts(), 2);
}

#[test]
fn several_targets_are_asked_for_at_once() {
    let folder = Folder::new();
    folder.put_program("bin/rustc", "printf x >> \"${0%/*}/../starts\"\necho unix\n");
    folder.put(
        "p/.cargo/config.toml",
        "[target.'cfg(unix)']\nlinker = 'l'\n[target.t]\nrunner = 'r'\n[target.u]\nrustflags = 'a b'\n",
    );
    let rustc = folder.0.join("bin/rustc");
    let config = folder.load(alone().config_text(format!("build.rustc = '{}'", rustc.display())));
    assert_eq!(config.runner("t").unwrap().unwrap().path, Path::new("r"));
    let found = config.targets(["u", "t", "u", "build"]).unwrap();
    assert_eq!(folder.starts(), 3);
    assert_eq!(found.len(), 4);
    assert_eq!((texts(found[0].rustflags.clone()), &found[1].rustflags), (vec!["a".into(), "b".into()], &None));
    assert!(found.iter().all(|found| found.linker.as_deref() == Some(Path::new("l"))));
    assert_eq!(texts(config.rustflags("u").unwrap()), ["a", "b"]);
    assert_eq!(config.targets(["build"]).unwrap()[0].rustflags, None);
    assert!(config.targets(None::<&str>).unwrap().is_empty());
    assert_eq!(folder.starts(), 3);
    let error = config.targets(["v", "/"]).unwrap_err();
    assert_eq!(error.to_string(), "target spec path has no file name");
}

#[test]
fn rustc_is_run_where_a_file_has_a_text_like_a_key() {
    for (text, starts) in
        [("# cfg(x)", 1), ("target.'cfg(unix)'.runner = 'r'", 1), ("target.'cfg()'.runner = 'r'", 0), ("", 0)]
    {
        let folder = Folder::new();
        let rustc = folder.put_program("bin/rustc", "printf x >> \"${0%/*}/../starts\"\necho unix\n");
        folder.put(
            "p/.cargo/config.toml",
            &format!("{text}\nbuild.rustc = '{}'\ntarget.t.linker = 'l'\n", rustc.display()),
        );
        let config = folder.load(alone());
        assert_eq!(folder.starts(), 0);
        for _ in 0..2 {
            assert_eq!(config.linker("t").unwrap().as_deref(), Some(Path::new("l")));
            assert_eq!(folder.starts(), starts, "{text}");
        }
    }
}

#[test]
fn the_values_of_cfg_names() {
    let folder = Folder::new();
    let script = r#"printf x >> "${0%/*}/../starts"
echo unix
printf '%s="%s"\n' target_os linux target_env '' target_family unix target_family q target_has_atomic 8 \
    target_has_atomic ptr target_vendor a target_vendor b
"#;
    let rustc = folder.put_program("bin/rustc", script);
    let config = folder.load(alone().config_text(format!("build.rustc = '{}'", rustc.display())));
    for _ in 0..2 {
        assert_eq!(config.cfg::<cfg::TargetOs, _>("t").unwrap(), cfg::TargetOs::linux);
        assert_eq!(config.cfg::<cfg::TargetEnv, _>("t").unwrap().unwrap(), "");
        assert_eq!(config.cfg::<cfg::TargetFamily, _>("t").unwrap(), ["q", "unix"]);
        assert_eq!(config.cfg::<cfg::TargetHasAtomic, _>("t").unwrap(), ["8", "ptr"]);
        assert_eq!(config.cfg::<cfg::TargetAbi, _>("t".to_owned()).unwrap(), None);
    }
    let error = config.cfg::<cfg::TargetArch, _>("t").unwrap_err();
    assert_eq!(error.to_string(), "target_arch cfg should be always available in cfg list from rustc --print cfg");
    let error = config.cfg::<cfg::TargetVendor, _>("t").unwrap_err();
    assert_eq!(error.to_string(), "too many target_vendor cfg");
    assert_eq!(folder.starts(), 1);
    // No key asks what rustc prints, so it isn't asked for the settings of another target.
    assert_eq!(config.linker("u").unwrap(), None);
    assert_eq!(folder.starts(), 1);
    assert_eq!(config.cfg::<cfg::TargetOs, _>("s/u.json").unwrap(), "linux");
    let error = config.cfg::<cfg::TargetOs, _>("/").unwrap_err();
    assert_eq!(error.to_string(), "target spec path has no file name");
    assert_eq!(folder.starts(), 2);
}

#[test]
fn the_versions() {
    let folder = Folder::new();
    let script = "printf x >> \"${0%/*}/../starts\"\nprintf 'release: VERSION\\nhost: h\\n'\n";
    let cargo = folder.put_program("bin/cargo", &script.replace("VERSION", "1.90.2-nightly"));
    folder.put_program("bin/rustc", &script.replace("VERSION", "1.91"));
    let config = folder.load(alone().cargo(cargo.as_os_str()));
    for _ in 0..2 {
        let version = config.rustc_version().unwrap();
        assert_eq!((version.major_minor(), version.patch, version.nightly), ((1, 91), None, false));
        let version = config.cargo_version().unwrap();
        assert_eq!((version.major_minor(), version.patch, version.nightly), ((1, 90), 2, true));
    }
    assert_eq!(folder.starts(), 2);
}

#[test]
fn a_run_that_fails_is_run_again() {
    let folder = Folder::new();
    let rustc = folder.put_program("bin/rustc", "printf x >> \"${0%/*}/../starts\"\necho no >&2\nexit 3\n");
    folder.put("p/.cargo/config.toml", "[target.'cfg(unix)']\nlinker = 'l'\n");
    let config = folder.load(alone().config_text(format!("build.rustc = '{}'", rustc.display())));
    for starts in [1, 2] {
        let error = config.linker("t").unwrap_err();
        assert!(error.to_string().starts_with("process didn't exit successfully: `"), "{error}");
        assert!(error.source().is_none());
        assert_eq!(folder.starts(), starts);
    }
    for starts in [3, 4] {
        let error = config.cfg::<cfg::TargetOs, _>("t").unwrap_err();
        assert!(error.to_string().starts_with("process didn't exit successfully: `"), "{error}");
        assert_eq!(folder.starts(), starts);
    }
}

#[test]
fn the_host() {
    let folder = Folder::new();
    let cargo = folder.put_program(
        "bin/cargo",
        "printf x >> \"${0%/*}/../starts\"\nprintf 'cargo 1\\nrelease: 1.0.0\\nhost: h\\n'\n",
    );
    let config = folder.load(alone().cargo(cargo.as_os_str()));
    assert_eq!(config.cargo(), cargo.as_os_str());
    assert_eq!((config.host_triple().unwrap(), config.host_triple().unwrap()), ("h", "h"));
    assert_eq!(folder.starts(), 1);
    let targets = config.build_target_for_config(None::<&str>).unwrap();
    assert_eq!(targets[0].triple(), "h");
    assert_eq!(folder.load(alone().host_triple("g")).host_triple().unwrap(), "g");
    assert_eq!(folder.starts(), 1);
}

#[test]
fn all_tables_as_json() {
    let folder = Folder::new();
    let path = folder.put("p/.cargo/config.toml", "[alias]\nb = 'build'\n[registry]\ntoken = 'T'\n");
    let config = Config::load_with_options(folder.0.join("p"), alone().config_text("net.retry = 3")).unwrap();
    let whole = config.json(None, false).unwrap();
    let wanted = r#"{"alias":{"b":"build"},"net":{"retry":3},"registry":{}}"#;
    assert_eq!(whole.as_deref().map(str::trim_end), Some(wanted));
    let whole = config.json_with_tokens(None, false).unwrap();
    assert_eq!(whole.as_deref().map(str::trim_end), Some(wanted.replace("{}", r#"{"token":"T"}"#).as_str()));
    assert!(config.json(Some("registry.token"), false).unwrap_err().to_string().contains("is a token"));
    assert_eq!(config.json_with_tokens(Some("registry.token"), false).unwrap().as_deref(), Some("\"T\"\n"));
    let told = config.json(Some("registry.token"), true).unwrap();
    let wanted = format!("{{\"origin\":{{\"file\":\"{}\"}},\"redacted\":true}}\n", path.display());
    assert_eq!(told, Some(wanted));
    assert_eq!(config.json(Some("registries.r.token"), false), Ok(None));
    let told = config.json(Some("alias.b"), true).unwrap();
    let wanted = format!("{{\"origin\":{{\"file\":\"{}\"}},\"value\":\"build\"}}\n", path.display());
    assert_eq!(told, Some(wanted));
    assert_eq!(config.json(Some("alias.c"), false), Ok(None));
    assert_eq!(config.json(Some("--tokens"), false).unwrap_err().to_string(), "`--tokens` is no key");
    assert_eq!(config.json(Some("a..b"), false).unwrap_err().to_string(), "`a..b` is no key");
}

#[test]
fn refusals() {
    let folder = Folder::new();
    let path = folder.put("p/.cargo/config.toml", "build.jobs = 'x'\n");
    let error = Config::load_with_options(folder.0.join("p"), alone()).unwrap_err();
    assert_eq!(error.to_string(), format!("failed to parse `{}` as cargo configuration", path.display()));
    assert_eq!(error.source().unwrap().to_string(), "wrong type at `build.jobs`");
    let error = Config::load_with_options(&folder.0, alone().env([("CARGO_NET_RETRY", "x")])).unwrap_err();
    assert_eq!(error.to_string(), "failed to parse environment variable `CARGO_NET_RETRY`");
}

#[test]
fn folders_with_odd_names_and_other_threads() {
    let folder = Folder::new();
    folder.put("p/q/a\nb # c\"/.cargo/config.toml", "build.target-dir = 't'\n");
    let dir = folder.0.join("p/q/a\nb # c\"");
    let asked = dir.clone();
    let thread = std::thread::spawn(move || Config::load_with_options(asked, alone()).unwrap());
    assert_eq!(thread.join().unwrap().build.target_dir, Some(dir.join("t")));
}
