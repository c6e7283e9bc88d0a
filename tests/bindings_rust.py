"""What tests/bindings does with the crate in Rust beside the rows: a package of its own, its example uses, and a large file."""
import os
import re
import resource
import subprocess
import time

TOP = os.path.dirname(os.path.dirname(os.path.realpath(__file__)))
SECONDS = 900
# a program outside of the repository, as a user writes it
OUTSIDE = """\
fn main() -> Result<(), cargo_config2::Error> {
    let config = cargo_config2::Config::load()?;
    let rustflags = config.rustflags("x86_64-unknown-linux-gnu")?;
    println!("{rustflags:?}");
    Ok(())
}
"""


def short_of_memory(count, room, program):
    """A file of 2 MB, read with less memory each time, from enough for the answer to too little for the file: an answer or an error, and
    never a signal."""
    with open(f"{room}/large.toml", "w") as file:
        file.write("[env]\n" + "".join(f'A{at} = "aaaaaaa"\n' for at in range(100000)))
    words = [program, room, "build", "--config-file", f"{room}/large.toml"]
    ended, size = [], 1 << 30
    while size > 8 << 20:
        how = {"env": {"HOME": f"{room}/nobody"}, "stdin": subprocess.DEVNULL, "stdout": subprocess.PIPE, "stderr": subprocess.STDOUT}
        ran = subprocess.run(words, preexec_fn=lambda: resource.setrlimit(resource.RLIMIT_AS, (size, size)), timeout=SECONDS, **how)
        ended.append((size >> 20, ran.returncode, ran.stdout[:60]))
        size = size * 3 // 4
    fine = all(status == 0 or status == 1 and said.startswith(b"error: ") for _, status, said in ended)
    count.add("Rust where memory is short", fine and {status for _, status, _ in ended} == {0, 1}, "\n".join(map(str, ended)))


def uses(count, program):
    """Adds what tests/uses counts of the example uses, built."""
    began = time.monotonic()
    ran = subprocess.run([f"{TOP}/tests/uses", "--built", program], stdout=subprocess.PIPE, text=True, timeout=SECONDS)
    *failures, last = ran.stdout.splitlines() or [""]
    print(*failures, sep="\n", end="\n" if failures else "", flush=True)
    counted = re.fullmatch(r"(\d+) passed, (\d+) failed", last)
    if count.add("tests/uses counts its uses", counted):
        passed, failed = map(int, counted.groups())
        count.passed += passed
        count.failed += failed
        print(f"Rust, uses: {passed + failed} uses, {failed} failed, {time.monotonic() - began:.0f} seconds", flush=True)


def outside(count, room, env):
    """A package outside of the repository, which uses the crate."""
    at = f"{room}/outside"
    os.makedirs(f"{at}/src")
    os.makedirs(f"{at}/.cargo")
    for path, text in {
        "Cargo.toml": '[package]\nname = "outside"\nversion = "0.1.0"\nedition = "2021"\n\n'
        '[dependencies]\ncargo-config2 = { path = "../rust" }\n',
        "src/main.rs": OUTSIDE,
        ".cargo/config.toml": '[target.x86_64-unknown-linux-gnu]\nrustflags = ["-Cdebuginfo=0", "--cfg=a"]\n',
    }.items():
        with open(f"{at}/{path}", "w") as file:
            file.write(text)
    if count.run("a package outside", ["cargo", "build", "-q", "--offline", "--release"], cwd=at, env=env) is None:
        return
    said = count.run("the program of a package outside", [f"{room}/target/release/outside"], cwd=at, env={})
    wanted = 'Some(Flags { flags: ["-Cdebuginfo=0", "--cfg=a"] })\n'
    if said is not None:
        count.add("what the program of a package outside prints", said == wanted, said)
