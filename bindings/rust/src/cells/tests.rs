//! Cells that are read, and bytes that are none.
use super::written::{cell, field, integer, list, providers, read_tables, read_value, text, variable};
use super::*;
use crate::choices::{Color, Frequency, RegistriesProtocol, VersionControlSoftware, When};
use crate::known::Known;
use crate::reply::Reply;
use crate::tables::{CredentialProvider, Tables};
use crate::{EnvConfigValue, PathAndArgs, RegistriesConfigValue, StringList};
use std::collections::BTreeMap;
use std::ffi::OsStr;
use std::path::Path;

// The library's reply to a load of the file all.toml, in /d/.cargo/config.toml.
const ALL: &[u8] = include_bytes!("all.cells");

// The example of crates/cc2_resolved_cells.
const EXAMPLE: &[u8] = b"\x02\0\0\0f\x05\0\0\0buildf\x04\0\0\0jobsi\x01\x02\0\0\0\
    \x02\0\0\0f\x03\0\0\0envn\x04\0\0\0NAMEv\x05\0\0\0value\x01\0\
    \x02\0\0\0f\x03\0\0\0netf\x07\0\0\0offlineb\x01\
    \x03\0\0\0f\x04\0\0\0termf\x08\0\0\0progressf\x05\0\0\0widthi\0\x50\0\0\0";

#[test]
fn the_library_gives_these_cells() {
    let mut known = Known::default();
    known.put_directory("/d");
    known.put_file("/d/.cargo/config.toml", include_bytes!("all.toml"));
    ["/d/.cargo/config", "/.cargo/config", "/.cargo/config.toml"].iter().for_each(|path| known.put_nothing(path));
    let reply = known.ask(["/d", "load"].into_iter()).unwrap();
    let Some(Reply::Loaded(cells, state)) = Reply::read(&reply) else { panic!("{reply:?}") };
    assert!(cells == ALL && !state.is_empty(), "{:?}", cells.escape_ascii());
}

fn map<T>(values: impl Into<BTreeMap<String, T>>) -> BTreeMap<String, T> {
    values.into()
}

fn command(program: &str, args: &[&str]) -> PathAndArgs {
    let mut command = PathAndArgs::new(program);
    command.args(args);
    command
}

#[test]
fn the_example_in_bytes() {
    let tables: Tables = read(EXAMPLE).unwrap();
    assert_eq!((tables.build.jobs, tables.net.offline, tables.term.progress.width), (Some(-2), Some(true), Some(80)));
    let env = map(tables.env);
    let variable = &env["NAME"];
    assert_eq!((variable.value.as_os_str(), variable.force, variable.relative), (OsStr::new("value"), true, false));
    assert_eq!((tables.net.retry, tables.build.rustc, env.len()), (None, None, 1));
}

#[test]
fn the_table_build() {
    let build = read::<Tables>(ALL).unwrap().build;
    let path = |path| Some(Path::new(path));
    assert_eq!((build.jobs, build.rustc.as_deref()), (Some(-2), path("/d/my/rustc")));
    assert_eq!(
        (build.rustc_wrapper.as_deref(), build.rustc_workspace_wrapper.as_deref()),
        (path("sccache"), path("/w"))
    );
    assert_eq!((build.rustdoc.as_deref(), build.target_dir.as_deref()), (path("rd"), path("/d/t")));
    assert_eq!(
        build.target,
        Some(vec!["x86_64-unknown-linux-gnu".to_owned().into(), "/d/specs/t.json".to_owned().into()])
    );
    assert_eq!(
        (build.build_dir.as_deref(), build.dep_info_basedir.as_deref()),
        (path("{workspace-root}/b"), path("/d/."))
    );
    assert_eq!((build.rustflags, build.rustdocflags), (Some(["-C", "opt-level=3"].into()), Some(["a", "b"].into())));
    assert_eq!(build.incremental, Some(false));
}

#[test]
fn maps_of_values() {
    let tables: Tables = read(ALL).unwrap();
    let alias = [("b", &["build", "--release"][..]), ("é", &["run", "a b", ""])];
    assert_eq!(map(tables.alias), map(alias.map(|(name, list)| (name.to_owned(), StringList::from(list)))));
    assert_eq!(map(tables.credential_alias), map([("my".to_owned(), command("p", &["-x"]))]));
    let env: Vec<_> = map(tables.env).into_iter().collect();
    let shown = |value: &EnvConfigValue| (value.value.to_str().unwrap().to_owned(), value.force, value.relative);
    let [(a, plain), (b, joined)] = &env[..] else { panic!("{env:?}") };
    assert_eq!((a.as_str(), shown(plain)), ("A", ("plain".into(), false, false)));
    assert_eq!((b.as_str(), shown(joined)), ("B", ("/d/b/c".into(), true, false)));
}

#[test]
fn registries_and_sources() {
    let tables: Tables = read(ALL).unwrap();
    let registries = map(tables.registries);
    assert_eq!(registries.keys().collect::<Vec<_>>(), ["crates-io", "none", "r", "s"]);
    assert_eq!(registries["crates-io"].protocol, Some(RegistriesProtocol::Sparse));
    let RegistriesConfigValue { index, token, credential_provider, protocol } = &registries["none"];
    assert!(index.is_none() && token.is_none() && credential_provider.is_none() && protocol.is_none());
    assert_eq!((registries["r"].index.as_deref(), registries["r"].token.as_deref()), (Some("i"), Some("t")));
    assert_eq!(registries["r"].credential_provider, Some(CredentialProvider::CargoToken));
    let from_stdout = |command| CredentialProvider::CargoTokenFromStdout(command);
    assert_eq!(registries["s"].credential_provider, Some(from_stdout(command("p", &["-x"]))));
    let registry = tables.registry;
    assert_eq!((registry.default.as_deref(), registry.token.as_deref()), (Some("r"), Some("tt")));
    assert_eq!(registry.credential_provider, Some(CredentialProvider::Alias("my".into())));
    let plugin = CredentialProvider::Plugin(command("plugin", &["-y"]));
    let stdout = from_stdout(command("p", &[]));
    let all = [CredentialProvider::CargoToken, stdout, plugin, CredentialProvider::Alias("my".into())];
    assert_eq!(registry.global_credential_providers.as_ref(), all);
    let source = map(tables.source);
    assert_eq!(source.keys().collect::<Vec<_>>(), ["crates-io", "v", "w"]);
    assert_eq!(source["crates-io"].replace_with.as_deref(), Some("v"));
    assert_eq!(source["v"].directory.as_deref(), Some(Path::new("/d/vendor")));
    let w = &source["w"];
    assert_eq!((w.registry.as_deref(), w.local_registry.as_deref()), (Some("u"), Some(Path::new("/d/l"))));
    assert_eq!((w.git.as_deref(), w.branch.as_deref()), (Some("g"), Some("b")));
    assert_eq!((w.tag.as_deref(), w.rev.as_deref()), (Some("t"), Some("v")));
}

#[test]
fn the_other_tables() {
    let tables: Tables = read(ALL).unwrap();
    assert_eq!(tables.doc.browser, Some(command("firefox", &["-P"])));
    assert_eq!(tables.future_incompat_report.frequency, Some(Frequency::Never));
    assert_eq!(tables.cargo_new.vcs, Some(VersionControlSoftware::Mercurial));
    let http = tables.http;
    assert_eq!((http.debug, http.check_revoke, http.multiplexing), (Some(true), Some(false), Some(true)));
    assert_eq!(
        (http.proxy.as_deref(), http.cainfo.as_deref(), http.user_agent.as_deref()),
        (Some("h:1"), Some("ca"), Some("u"))
    );
    assert_eq!((http.timeout, http.low_speed_limit), (Some(30), Some(u32::MAX)));
    assert_eq!(
        (tables.net.retry, tables.net.git_fetch_with_cli, tables.net.offline),
        (Some(0), Some(true), Some(false))
    );
    assert_eq!((tables.term.quiet, tables.term.verbose), (Some(false), Some(true)));
    assert_eq!((tables.term.color, tables.term.progress.when), (Some(Color::Auto), Some(When::Always)));
    assert_eq!(tables.term.progress.width, Some(80));
}

#[test]
fn values_of_each_type() {
    assert_eq!(
        (read_value(b"b\x01"), read_value(b"b\0"), read_value::<bool>(b"b\x02")),
        (Some(true), Some(false), None)
    );
    assert_eq!(read_value(&integer(-(1 << 31))), Some(i32::MIN));
    assert_eq!((read_value::<i32>(&integer(1 << 31)), read_value(&integer(1 << 31))), (None, Some(1_u32 << 31)));
    assert_eq!((read_value::<u32>(&integer(-1)), read_value(b"i\x01\0\0\0\0")), (None, Some(0_u32)));
    assert_eq!(read_value::<i32>(b"i\x02\x01\0\0\0"), None);
    assert_eq!((read_value(&text("é")), read_value::<String>(b"t\x01\0\0\0\xff")), (Some("é".to_owned()), None));
    assert_eq!((read_value(&list(&["p"])), read_value::<PathAndArgs>(&list(&[]))), (Some(PathAndArgs::new("p")), None));
    assert_eq!(
        (read_value(&text("hg")), read_value::<When>(&text("hg"))),
        (Some(VersionControlSoftware::Mercurial), None)
    );
    assert_eq!(read_value::<String>(&list(&["a"])), None);
    assert!(read_value::<EnvConfigValue>(&variable("a", true, true)).is_some_and(|value| value.relative));
    assert!(read_value::<EnvConfigValue>(&text("a")).is_none());
    assert!(read_value::<EnvConfigValue>(&[b"v", &field("a")[..], b"\x01\x02"].concat()).is_none());
}

// All cells, one by one.
fn all_cells() -> Vec<Vec<u8>> {
    let mut reader = Reader { rest: ALL };
    let mut cells = Vec::new();
    while !reader.rest.is_empty() {
        let before = reader.rest;
        reader.path(&mut []).and_then(|_| reader.skip()).unwrap();
        cells.push(before[..before.len() - reader.rest.len()].to_vec());
    }
    cells
}

#[test]
fn cells_in_another_order() {
    let cells = all_cells();
    assert_eq!(cells.len(), 60);
    let shown = |cells: &[Vec<u8>]| read_tables::<Tables>(cells).map(|tables| format!("{tables:?}"));
    let whole = shown(&cells).unwrap();
    // Tables, and fields of one table, may come in any order.
    let mut turned: Vec<Vec<u8>> = cells.clone();
    let maps = ["alias", "credential-alias", "env", "registries", "source"].map(|key| [b"f", &field(key)[..]].concat());
    turned.sort_by_key(|cell| maps.iter().any(|map| cell[4..].starts_with(map)));
    assert_ne!(turned, cells);
    assert_eq!(shown(&turned).as_ref(), Ok(&whole));
    let start = turned.iter().position(|cell| maps.iter().any(|map| cell[4..].starts_with(map))).unwrap();
    turned[..start].reverse();
    assert_eq!(shown(&turned), Ok(whole));
    // The names of a map, and the cells of its members, may not.
    let refused = [
        [cell(&["alias", "=b"], &list(&[])), cell(&["alias", "=a"], &list(&[]))],
        [cell(&["source", "=b"], b"e"), cell(&["source", "=a"], b"e")],
        [cell(&["source", "=a", "git"], &text("g")), cell(&["source", "=a"], b"e")],
        [cell(&["source", "=a"], b"e"), cell(&["source", "=b", "git"], &text("g"))],
    ];
    refused.iter().for_each(|cells| assert_eq!(shown(cells), Err(Error::unread()), "{cells:?}"));
}

#[test]
fn no_cell_comes_twice() {
    for cell in all_cells() {
        let is_read = |cells: &[Vec<u8>]| read_tables::<Tables>(cells).is_ok();
        // A field of a member needs the member's own cell.
        if is_read(std::slice::from_ref(&cell)) {
            assert!(!is_read(&[cell.clone(), cell.clone()]), "{cell:?}");
        }
    }
    let git = cell(&["source", "=a", "git"], &text("g"));
    assert!(read_tables::<Tables>(&[cell(&["source", "=a"], b"e"), git.clone(), git]).is_err());
}

#[test]
fn unknown_cells_are_skipped() {
    let values =
        [integer(-1), b"b\x01".to_vec(), text("a"), list(&["a", ""]), b"e".to_vec(), variable("a", true, false)];
    let values = values.into_iter().chain([providers(&[text("a"), list(&["a", "b"])])]);
    for value in values {
        let paths: [&[&str]; 10] = [
            &[],
            &["new"],
            &["build"],
            &["=build", "jobs"],
            &["build", "=jobs"],
            &["build", "new"],
            &["alias", "new"],
            &["alias", "=a", "new"],
            &["registries", "=a", "new", "new"],
            &["term", "progress"],
        ];
        for path in paths {
            let cells = [cell(path, &value), cell(&["net", "retry"], &integer(3))];
            assert_eq!(read_tables::<Tables>(&cells).unwrap().net.retry, Some(3), "{path:?} {value:?}");
        }
    }
    for value in [
        &b""[..],
        b"x",
        b"b\x02",
        b"i\x02\0\0\0\0",
        b"t\x01\0\0\0\xff",
        b"a\x01\0\0\0",
        b"p\x01\0\0\0e",
        b"v\0\0\0\0\x01",
    ] {
        assert!(read_tables::<Tables>(&[cell(&["new"], value)]).is_err(), "{value:?}");
    }
}

#[test]
fn each_beginning() {
    let mut whole = Vec::new();
    for at in 0..=ALL.len() {
        match read::<Tables>(&ALL[..at]) {
            Ok(_) => whole.push(at),
            Err(error) => assert_eq!(error, Error::unread()),
        }
    }
    // A beginning is read if it ends with a cell.
    let ends = all_cells().into_iter().scan(0, |end, cell| {
        *end += cell.len();
        Some(*end)
    });
    assert_eq!(whole, [0].into_iter().chain(ends).collect::<Vec<_>>());
}

#[test]
fn each_byte_changed() {
    let (mut read_ones, mut refused) = (0, 0);
    for at in 0..ALL.len() {
        for by in [0, 1, b'a', b'n', 0xff] {
            let mut changed = ALL.to_vec();
            changed[at] = by;
            match read::<Tables>(&changed) {
                Ok(_) => read_ones += 1,
                Err(error) => {
                    assert_eq!(error, Error::unread());
                    refused += 1;
                }
            }
        }
    }
    assert!(read_ones > 2000 && refused > 2000, "{read_ones} {refused}");
}

// Numbers in the order of xorshift.
struct Random(u64);

impl Random {
    fn below(&mut self, bound: usize) -> usize {
        self.0 ^= self.0 << 13;
        self.0 ^= self.0 >> 7;
        self.0 ^= self.0 << 17;
        usize::try_from(self.0 >> 11).unwrap() % bound
    }
}

#[test]
fn random_changes() {
    let mut random = Random(7);
    let (mut read_ones, mut refused) = (0, 0);
    for _ in 0..5000 {
        let mut changed = ALL.to_vec();
        for _ in 0..=random.below(3) {
            let at = random.below(changed.len());
            let end = at + random.below(changed.len() - at).min(64);
            let part = changed[at..end].to_vec();
            match random.below(4) {
                0 => changed[at] = u8::try_from(random.below(256)).unwrap(),
                1 => drop(changed.drain(at..end)),
                2 => drop(changed.splice(at..at, part)),
                _ => changed.truncate(at.max(1)),
            }
        }
        match read::<Tables>(&changed) {
            Ok(_) => read_ones += 1,
            Err(_) => refused += 1,
        }
    }
    assert!(read_ones > 50 && refused > 50, "{read_ones} {refused}");
}

#[test]
fn large_numbers_end_at_once() {
    let most = u32::MAX.to_le_bytes();
    let path = cell(&["registry", "global-credential-providers"], b"");
    for front in [
        vec![],
        b"\x01\0\0\0f".to_vec(),
        [&path[..], b"p"].concat(),
        [&path[..], b"a"].concat(),
        [&path[..], b"t"].concat(),
    ] {
        assert!(read::<Tables>(&[front, most.to_vec(), vec![0; 1000]].concat()).is_err());
    }
    // A path may have as many keys as there are bytes for.
    let keys = vec!["a"; 100_000];
    assert!(read_tables::<Tables>(&[cell(&keys, b"e")]).is_ok());
}
