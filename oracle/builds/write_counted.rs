//! Writes the files of the counted build: the given ones with every insertion.
//! Arguments: the folder of the given files, the folder to write to, which holds none of these files yet.

use std::env;
use std::fmt::Display;
use std::fs::{self, File};
use std::io::Write;
use std::path::{Path, PathBuf};
use std::process::ExitCode;

use hooks::{Hook, HOOKED_FILES};

fn main() -> ExitCode {
    match write_files() {
        Ok(()) => ExitCode::SUCCESS,
        Err(fault) => {
            eprintln!("oracle: {fault}");
            ExitCode::FAILURE
        }
    }
}

fn write_files() -> Result<(), String> {
    let folders: Vec<PathBuf> = env::args_os().skip(1).map(PathBuf::from).collect();
    let [given, output] = &folders[..] else {
        return Err("write_counted takes two folders".to_string());
    };
    for (name, hooks) in HOOKED_FILES {
        write_counted(&given.join(name), &output.join(name), hooks)?;
    }
    Ok(())
}

/// Only a new file is written, so that a link to a given one can not be written through.
fn write_counted(given: &Path, output: &Path, hooks: &[Hook]) -> Result<(), String> {
    let named = |fault: &dyn Display| format!("{}: {fault}", given.display());
    let text = fs::read_to_string(given).map_err(|fault| named(&fault))?;
    let counted = hooks::insert_counters(hooks, &text).map_err(|fault| named(&fault))?;
    File::create_new(output)
        .and_then(|mut file| file.write_all(counted.as_bytes()))
        .map_err(|fault| format!("{}: {fault}", output.display()))
}
