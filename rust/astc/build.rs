//! Links the archive of the proved decoder, libastc.a.
//!
//! Where ASTC_ARCHIVE is set, it is the one in the folder of that name. Otherwise it is that of target/native at the repository's
//! root: tools/archive, which needs the Rattle kit, proves and writes it where it is not there yet or its crates have changed. Without
//! the kit an archive that is there is linked as it is.

use std::collections::VecDeque;
use std::env;
use std::fs::{self, File, OpenOptions};
use std::io::{self, BufRead, BufReader, Write};
use std::path::{self, Path, PathBuf};
use std::process::{exit, Child, Command, Stdio};
use std::time::SystemTime;

/// The lines of tools/archive that are told as the reason where it fails.
const REASON: usize = 20;

fn main() {
    println!("cargo:rerun-if-env-changed=ASTC_ARCHIVE");
    let given = env::var_os("ASTC_ARCHIVE").filter(|name| !name.is_empty());
    let folder = match given {
        Some(name) => given_folder(Path::new(&name)),
        None => own_folder(),
    };
    match folder {
        Ok(folder) => {
            println!("cargo:rustc-link-search=native={}", folder.display());
            println!("cargo:rustc-link-lib=static=astc");
        }
        Err(reason) => {
            eprintln!("the proved decoder was not linked: {reason}");
            exit(1);
        }
    }
}

/// Has cargo run this script anew when a file, or one in a folder, has changed.
fn watch(path: &Path) {
    println!("cargo:rerun-if-changed={}", path.display());
}

/// The folder that ASTC_ARCHIVE names, if it has an archive.
fn given_folder(name: &Path) -> Result<PathBuf, String> {
    // rustc reads a relative name from another folder than this script
    let folder = path::absolute(name).map_err(|error| format!("ASTC_ARCHIVE: {error}"))?;
    let archive = folder.join("libastc.a");
    watch(&archive);
    if archive.is_file() {
        return Ok(folder);
    }
    Err(format!(
        "there is no {}, where ASTC_ARCHIVE says that it is",
        archive.display()
    ))
}

/// The repository's own folder of the archive, which is up to date where the kit is there.
fn own_folder() -> Result<PathBuf, String> {
    let root = Path::new("../..")
        .canonicalize()
        .map_err(|error| format!("the repository's root was not found: {error}"))?;
    let folder = root.join("target/native");
    let archive = folder.join("libastc.a");
    for part in ["crates.txt", "tools/archive"] {
        watch(&root.join(part));
    }
    let sources = sources(&root);
    for source in &sources {
        watch(source);
    }
    watch(&archive);
    if has_kit() {
        make(&root)?;
    } else if archive.is_file() {
        warn_if_old(&root, &sources, &archive);
    }
    if archive.is_file() {
        return Ok(folder);
    }
    Err(format!(
        "there is no {}. tools/archive makes it, where the Rattle kit (rt) is installed; or set ASTC_ARCHIVE to a folder that has a \
         libastc.a",
        archive.display()
    ))
}

/// Whether the kit's command is there to be run.
fn has_kit() -> bool {
    let path = env::var_os("PATH").unwrap_or_default();
    env::split_paths(&path).any(|folder| folder.join("rt").is_file())
}

/// What stands in the folders of the crates, but for what rt made there, in out.
fn sources(root: &Path) -> Vec<PathBuf> {
    let crates = paths_in(&root.join("crates"));
    crates
        .iter()
        .flat_map(|folder| paths_in(folder))
        .filter(|path| !path.ends_with("out"))
        .collect()
}

/// What stands in a folder.
fn paths_in(folder: &Path) -> Vec<PathBuf> {
    let entries = fs::read_dir(folder).into_iter().flatten().flatten();
    entries.map(|entry| entry.path()).collect()
}

/// Says where an archive that cannot be made anew is older than what it is made of.
fn warn_if_old(root: &Path, sources: &[PathBuf], archive: &Path) {
    let Ok(made) = fs::metadata(archive).and_then(|file| file.modified()) else {
        return;
    };
    if sources
        .iter()
        .any(|source| newest(source).is_some_and(|changed| changed > made))
    {
        println!(
            "cargo:warning=target/native/libastc.a is older than the newest file of crates/, and the Rattle kit (rt), which makes it \
             anew, is not installed"
        );
        // a file that is never there: cargo runs this script each time, and sees when the kit is installed
        watch(&root.join("target/native/no-such-file"));
    }
}

/// When a file, or the newest file of a folder, was changed.
fn newest(path: &Path) -> Option<SystemTime> {
    if path.is_dir() {
        return paths_in(path)
            .iter()
            .filter_map(|inner| newest(inner))
            .max();
    }
    fs::metadata(path).ok()?.modified().ok()
}

/// Runs tools/archive, which leaves an archive that is up to date.
///
/// cargo shows nothing of a build script until it ends, and takes some words on standard output for its own. What tools/archive says
/// goes to the terminal itself, where there is one, as it comes.
fn make(root: &Path) -> Result<(), String> {
    let mut terminal = OpenOptions::new().write(true).open("/dev/tty").ok();
    show(
        &mut terminal,
        "tools/archive proves the decoder where target/native/libastc.a is not up to date; the first time this takes some minutes",
    );
    let not_run = |error: io::Error| format!("tools/archive was not run: {error}");
    let mut child = start(&root.join("tools/archive")).map_err(not_run)?;
    let last = pass_on(&mut child, &mut terminal);
    let status = child.wait().map_err(not_run)?;
    if status.success() {
        return Ok(());
    }
    let last = last.join("\n");
    Err(format!("tools/archive ended with {status}:\n{last}"))
}

/// Starts a command whose output and errors are to be read as one.
fn start(command: &Path) -> io::Result<Child> {
    Command::new("sh")
        .args(["-c", "exec \"$0\" 2>&1"])
        .arg(command)
        .stdin(Stdio::null())
        .stdout(Stdio::piped())
        .spawn()
}

/// Shows each line of a command as it comes; the last of them.
fn pass_on(child: &mut Child, terminal: &mut Option<File>) -> Vec<String> {
    let mut last = VecDeque::new();
    let lines = child.stdout.take().into_iter().flat_map(|output| {
        let lines = BufReader::new(output).split(b'\n');
        lines.map_while(Result::ok)
    });
    for line in lines {
        let line = String::from_utf8_lossy(&line).into_owned();
        show(terminal, &line);
        last.push_back(line);
        if last.len() > REASON {
            last.pop_front();
        }
    }
    last.into()
}

/// Shows a line on the terminal, in place of what cargo has shown of its progress there.
fn show(terminal: &mut Option<File>, line: &str) {
    if let Some(terminal) = terminal {
        // a terminal that takes no more words is no reason to fail
        let _ = writeln!(terminal, "\r\x1b[K{line}");
    }
}
