//! Opens a hive file, prints its tree, sets a value and saves the file.
//!
//! `cargo run --example tree my.hive` counts its runs in the value "Runs" of the root. A file that
//! isn't there is made first.

use std::env;
use std::error::Error;
use std::path::Path;
use std::process::ExitCode;
use zugmeled::{Hive, Key, Kind, Result, Value, EMPTY_SECURITY};

fn main() -> ExitCode {
    match run() {
        Ok(()) => ExitCode::SUCCESS,
        Err(error) => {
            eprintln!("{error}");
            ExitCode::FAILURE
        }
    }
}

fn run() -> std::result::Result<(), Box<dyn Error>> {
    let argument = env::args_os()
        .nth(1)
        .ok_or("give the path of a hive file")?;
    let path = Path::new(&argument);
    if !path.exists() {
        make(path)?;
    }
    let hive = Hive::open(path)?;
    let root = hive.root()?;
    print(&root, "")?;
    let runs = root.get::<u32>("Runs")?.unwrap_or(0);
    root.set("Runs", runs.wrapping_add(1))?;
    hive.save()?;
    Ok(())
}

fn make(path: &Path) -> Result<()> {
    let hive = Hive::new("ROOT", &EMPTY_SECURITY)?;
    let key = hive.root()?.create(r"Software\Zug")?;
    key.set("Version", 4_u32)?;
    key.set("Folders", ["C:\\A", "C:\\B"])?;
    hive.save_as(path)
}

fn print(key: &Key<'_>, indent: &str) -> Result<()> {
    for value in key.values() {
        let (name, value) = value?;
        println!("{indent}{name:?} = {}", shown(&value));
    }
    for child in key.keys() {
        let child = child?;
        println!("{indent}[{}]", child.name);
        print(&key.open(&child.name)?, &format!("{indent}    "))?;
    }
    Ok(())
}

fn shown(value: &Value) -> String {
    let shown = match value.kind {
        Kind::SZ | Kind::EXPAND_SZ => String::try_from(value).map(|text| format!("{text:?}")),
        Kind::MULTI_SZ => Vec::<String>::try_from(value).map(|texts| format!("{texts:?}")),
        _ => u64::try_from(value).map(|number| number.to_string()),
    };
    // What can't be read as its type says is shown as it is.
    shown.unwrap_or_else(|_| format!("{} {:02X?}", value.kind, value.bytes))
}
