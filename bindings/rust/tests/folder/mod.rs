//! A folder for a test, and what its loads choose.
#![allow(dead_code)]
use cargo_config2::{Config, ResolveOptions};
use std::fs;
use std::os::unix::fs::PermissionsExt;
use std::path::PathBuf;
use std::process;
use std::sync::atomic::{AtomicUsize, Ordering};

/// A folder that is removed at the end.
pub struct Folder(pub PathBuf);

impl Folder {
    pub fn new() -> Folder {
        static COUNT: AtomicUsize = AtomicUsize::new(0);
        let name = format!("cc2-{}-{}", process::id(), COUNT.fetch_add(1, Ordering::Relaxed));
        let path = std::env::temp_dir().canonicalize().unwrap().join(name);
        fs::create_dir_all(&path).unwrap();
        Folder(path)
    }

    pub fn put(&self, path: &str, content: &str) -> PathBuf {
        let path = self.0.join(path);
        fs::create_dir_all(path.parent().unwrap()).unwrap();
        fs::write(&path, content).unwrap();
        path
    }

    pub fn put_program(&self, path: &str, script: &str) -> PathBuf {
        let path = self.put(path, &format!("#!/bin/sh\n{script}"));
        fs::set_permissions(&path, fs::Permissions::from_mode(0o755)).unwrap();
        path
    }

    pub fn starts(&self) -> usize {
        fs::read(self.0.join("starts")).map_or(0, |starts| starts.len())
    }

    pub fn load(&self, options: ResolveOptions) -> Config {
        Config::load_with_options(self.0.join("p/q"), options).unwrap()
    }

    pub fn load_empty(&self) -> Config {
        Config::load_with_options(&self.0, alone()).unwrap()
    }
}

impl Drop for Folder {
    fn drop(&mut self) {
        let _ = fs::remove_dir_all(&self.0);
    }
}

/// No variables and no cargo home.
pub fn alone() -> ResolveOptions {
    ResolveOptions::default().env([("CARGO", "cargo")]).cargo_home(None)
}
