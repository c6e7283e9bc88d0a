//! The JSON of what files have at each key.
use cc2_base::files::FileTable;
use cc2_cargo::load_paths;
use cc2_cargo_answers::raw_to_json;
use cc2_json::Form;
use std::alloc::Global;
use std::process::Abort;
use std::test::Fail;

// The JSON of a file with this text, or the error, as it is shown.
fn shown(alloc: Global, text: &str, form: Form) -> Result<String, Fail> {
    let mut files = FileTable::new(alloc);
    let content = String::from_str(alloc, text)?.into_bytes();
    files.put(String::from_str(alloc, "/c")?, Some(content))?;
    let mut paths = Vec::new(alloc);
    paths.push(String::from_str(alloc, "/c")?)?;
    match load_paths(alloc, paths.as_slice(), &files) {
        Ok(loaded) => Ok(raw_to_json(alloc, &loaded, form)?.to_string(alloc)?),
        Err(fault) => Ok(format!(in alloc; "{fault:?}")?),
    }
}

fn expect(
    rt: &impl Abort,
    alloc: Global,
    text: &str,
    form: Form,
    expected: &str,
) -> Result<(), Fail> {
    let found = shown(alloc, text, form)?;
    assert_eq!(rt; found.as_str(), expected, "{text}");
    Ok(())
}

const PLAIN: Form = Form {
    origins: false,
    tokens: true,
};

#[test]
fn tables_are_objects_in_the_order_of_their_keys(rt: HostRuntime) -> Result<(), Fail> {
    let alloc = rt.alloc();
    expect(&rt, alloc, "", PLAIN, "{}")?;
    expect(
        &rt,
        alloc,
        "z = 1\na.y = true\n[a.x]\n[profile.release]\nlto = 'fat'",
        PLAIN,
        "{\"a\":{\"x\":{},\"y\":true},\"profile\":{\"release\":{\"lto\":\"fat\"}},\"z\":1}",
    )
}

#[test]
fn arrays_keep_their_items(rt: HostRuntime) -> Result<(), Fail> {
    let alloc = rt.alloc();
    expect(
        &rt,
        alloc,
        "a = [1, 'x', [true, []], { k = -2, b = {} }]\nb = []",
        PLAIN,
        "{\"a\":[1,\"x\",[true,[]],{\"b\":{},\"k\":-2}],\"b\":[]}",
    )
}

#[test]
fn values_have_origins(rt: HostRuntime) -> Result<(), Fail> {
    let alloc = rt.alloc();
    let form = Form {
        origins: true,
        tokens: true,
    };
    expect(
        &rt,
        alloc,
        "a = 1\nb = [2]\n[t]",
        form,
        "{\"a\":{\"origin\":{\"file\":\"/c\"},\"value\":1},\
        \"b\":[{\"origin\":{\"file\":\"/c\"},\"value\":2}],\"t\":{}}",
    )
}

#[test]
fn tokens_are_hidden(rt: HostRuntime) -> Result<(), Fail> {
    let alloc = rt.alloc();
    let text = "[registry]\ntoken = 'secret'\n[registries.r]\ntoken = ['secret']\n[token]\nx = 1";
    expect(
        &rt,
        alloc,
        text,
        Form {
            origins: false,
            tokens: false,
        },
        "{\"registries\":{\"r\":{\"token\":\"[REDACTED]\"}},\"registry\":{\"token\":\"[REDACTED]\"},\"token\":{\"x\":\"[REDACTED]\"}}",
    )?;
    expect(
        &rt,
        alloc,
        "token = 'secret'",
        Form {
            origins: true,
            tokens: false,
        },
        "{\"token\":{\"origin\":{\"file\":\"/c\"},\"redacted\":true}}",
    )?;
    expect(
        &rt,
        alloc,
        "token = 'secret'",
        PLAIN,
        "{\"token\":\"secret\"}",
    )
}
