//! Prints the linker, the runner and the flags of a target, by the configuration of the process's directory.
fn main() -> Result<(), cargo_config2::Error> {
    let config = cargo_config2::Config::load()?;
    let target = "x86_64-unknown-linux-gnu";
    println!("{:?}", config.linker(target)?);
    println!("{:?}", config.runner(target)?);
    println!("{:?}", config.rustflags(target)?);
    Ok(())
}
