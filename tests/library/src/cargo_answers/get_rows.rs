//! What is printed of files by Cargo's own rules, as Cargo 1.95 has it.
use cc2_answers::LetGo;
use cc2_base::files::FileTable;
use cc2_base::machine::Machine;
use cc2_cargo::RealPathTable;
use cc2_cargo_answers::{Layers, get_by_cargo};
use cc2_cli::show::{Format, Request, Stage};
use cc2_show_answers::Told;
use std::alloc::Global;
use std::process::Abort;
use std::test::Fail;

fn put(alloc: Global, files: &mut FileTable, path: &str, text: &str) -> Result<(), Fail> {
    let content = String::from_str(alloc, text)?.into_bytes();
    files.put(String::from_str(alloc, path)?, Some(content))?;
    Ok(())
}

// What is printed at a key of the files of `/p/q`, whose `config.toml` has this text and includes `a.toml`.
fn printed(alloc: Global, text: &str, key: Option<&str>) -> Result<Vec<u8>, Fail> {
    let mut files = FileTable::new(alloc);
    put(alloc, &mut files, "/p/q/.cargo/config.toml", text)?;
    put(alloc, &mut files, "/p/q/.cargo/a.toml", "x.y = 'included'")?;
    put(alloc, &mut files, "/p/.cargo/config.toml", "x.z = 'far'")?;
    let machine = Machine {
        current_dir: String::from_str(alloc, "/p/q")?,
        env: Vec::new(alloc),
        home: None,
    };
    let request = Request {
        dir: "/p/q",
        key,
        stage: Stage::Files,
        format: Format::JsonValue,
        merged: true,
        origins: false,
        tokens: false,
    };
    let reals = RealPathTable::new(alloc);
    match get_by_cargo(
        alloc,
        request,
        Layers::Files,
        &machine,
        &files,
        &reals,
        LetGo::Dropped,
    ) {
        Some(told) => Ok(text_of(alloc, told)),
        None => Ok(Vec::new(alloc)),
    }
}

fn text_of(alloc: Global, told: Told) -> Vec<u8> {
    match told {
        Told::Shown(answer) => answer.text.unwrap_or(Vec::new(alloc)),
        Told::Unset(line) => line,
    }
}

#[test]
fn what_files_include_is_printed(rt: HostRuntime) -> Result<(), Fail> {
    let text = printed(rt.alloc(), "include = ['a.toml']\nx.w = 1", None)?;
    let expected = "{\"x\":{\"w\":1,\"y\":\"included\",\"z\":\"far\"}}\n";
    assert_eq!(rt; text.as_slice(), expected.as_bytes());
    Ok(())
}

#[test]
fn what_is_at_a_key_is_printed(rt: HostRuntime) -> Result<(), Fail> {
    let text = printed(rt.alloc(), "x.y = 'near'", Some("x.y"))?;
    assert_eq!(rt; text.as_slice(), "\"near\"\n".as_bytes());
    let text = printed(rt.alloc(), "x.y = 'near'", Some("y"))?;
    let expected = "error: config value `y` is not set\n";
    assert_eq!(rt; text.as_slice(), expected.as_bytes());
    Ok(())
}

#[test]
fn a_second_include_is_an_error(rt: HostRuntime) -> Result<(), Fail> {
    let text = printed(rt.alloc(), "include = ['a.toml', 'a.toml']", None)?;
    let expected = "error: `/p/q/.cargo/a.toml` is included more than once\n";
    assert_eq!(rt; text.as_slice(), expected.as_bytes());
    Ok(())
}
