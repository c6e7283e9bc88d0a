//! Walks and homes.
mod folder;

use cargo_config2::{cargo_home_with_cwd, home_dir, rustup_home_with_cwd, Walk};
use folder::Folder;
use std::env;
use std::path::{Path, PathBuf};

#[test]
fn files_of_a_walk() {
    let folder = Folder::new();
    let both = folder.put("p/q/.cargo/config", "");
    folder.put("p/q/.cargo/config.toml", "");
    let above = folder.put("p/.cargo/config.toml", "");
    let home = folder.put("h/config.toml", "");
    let dir = folder.0.join("p/q/r");
    let files = |home: Option<&str>| -> Vec<PathBuf> {
        let walk = Walk::with_cargo_home(&dir, home.map(|home| folder.0.join(home)));
        walk.filter(|file| file.starts_with(&folder.0)).collect()
    };
    assert_eq!(files(None), [both.clone(), above.clone()]);
    assert_eq!(files(Some("h")), [both.clone(), above.clone(), home]);
    assert_eq!(files(Some("p/.cargo")), [both.clone(), above.clone()]);
    assert_eq!(files(Some("none")), [both, above]);
}

#[test]
fn homes_by_variables() {
    let cwd = Path::new("/a/b");
    for (value, wanted) in [("/c", "/c"), ("d", "/a/b/d")] {
        env::set_var("CARGO_HOME", value);
        env::set_var("RUSTUP_HOME", value);
        assert_eq!(cargo_home_with_cwd(cwd), Some(PathBuf::from(wanted)));
        assert_eq!(rustup_home_with_cwd(cwd), Some(PathBuf::from(wanted)));
    }
    env::set_var("CARGO_HOME", "");
    env::remove_var("RUSTUP_HOME");
    let home = home_dir().unwrap();
    assert_eq!(cargo_home_with_cwd(cwd), Some(home.join(".cargo")));
    assert_eq!(rustup_home_with_cwd(cwd), Some(home.join(".rustup")));
}
