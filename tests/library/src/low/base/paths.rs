//! The ancestors of paths that are spelled in unusual ways.
use cc2_base::path::ancestors;

// A path, and its ancestors with itself.
const ROWS: &[(&str, &[&str])] = &[
    ("", &[""]),
    ("/p/.", &["/p/.", "/"]),
    ("a//b", &["a//b", "a", ""]),
    ("..", &["..", ""]),
];

#[test]
fn ancestors_of_unusual_paths(rt: HostRuntime) {
    for (path, expected) in ROWS {
        let mut found = ancestors(path);
        for wanted in *expected {
            match found.next() {
                Some(ancestor) => assert_eq!(rt; ancestor, *wanted),
                None => panic!(rt; "no `{wanted}` above `{path}`"),
            }
        }
        assert!(rt; found.next().is_none(), "{path}");
    }
}
