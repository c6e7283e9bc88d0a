//! The bytes of a known configuration.
use cc2_resolved::ResolvedTable;
use cc2_resolved::env::EnvConfigValue;
use cc2_resolved_cells::tables_cells;
use cc2_resolved_tables::{BuildConfig, NetConfig, Tables, TermProgressConfig};
use std::test::Fail;

#[test]
fn cells_follow_one_another(rt: HostRuntime) -> Result<(), Fail> {
    let alloc = rt.alloc();
    let mut tables = Tables::empty(alloc);
    set_jobs(&mut tables.build);
    set_offline(&mut tables.net);
    set_width(&mut tables.term.progress);
    let variable = EnvConfigValue {
        value: String::from_str(alloc, "value")?,
        force: true,
        relative: false,
    };
    let name = String::from_str(alloc, "NAME")?;
    tables.env.insert(name, variable)?;
    let mut wanted = Vec::new(alloc);
    for part in [
        b"\x02\x00\x00\x00f\x05\x00\x00\x00buildf\x04\x00\x00\x00jobs".as_slice(),
        b"i\x01\x02\x00\x00\x00".as_slice(),
        b"\x02\x00\x00\x00f\x03\x00\x00\x00envn\x04\x00\x00\x00NAME".as_slice(),
        b"v\x05\x00\x00\x00value\x01\x00".as_slice(),
        b"\x02\x00\x00\x00f\x03\x00\x00\x00netf\x07\x00\x00\x00offline".as_slice(),
        b"b\x01".as_slice(),
        b"\x03\x00\x00\x00f\x04\x00\x00\x00termf\x08\x00\x00\x00progressf\x05\x00\x00\x00width".as_slice(),
        b"i\x00\x50\x00\x00\x00".as_slice(),
    ] {
        wanted.extend_from_slice(part)?;
    }
    let bytes = tables_cells(alloc, &tables)?;
    assert_eq!(rt; bytes.as_slice(), wanted.as_slice());
    Ok(())
}

fn set_jobs(build: &mut BuildConfig) {
    build.jobs = Some(-2);
}

fn set_offline(net: &mut NetConfig) {
    net.offline = Some(true);
}

fn set_width(progress: &mut TermProgressConfig) {
    progress.width = Some(80);
}
