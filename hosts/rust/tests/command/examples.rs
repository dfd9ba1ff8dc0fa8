//! Every example of the documents and of `hall help` prints what it shows: the commands as typed, those of the documents in the repository's
//! folder, those of `hall help` in an empty one.
use crate::{answer, text};
use std::path::{Path, PathBuf};
use std::process::Command;

struct Example {
    command: String,
    shown: String,
}

/// The commands in the blocks of a text that are indented by four spaces, each with the lines behind it.
fn examples(document: &str) -> Vec<Example> {
    let mut examples: Vec<Example> = Vec::new();
    let mut in_block = false;
    for line in document.lines() {
        let code = line.strip_prefix("    ");
        if let Some(command) = code.and_then(|code| code.strip_prefix("$ ")) {
            examples.push(Example { command: command.to_string(), shown: String::new() });
            in_block = true;
        } else if let (Some(code), true) = (code, in_block) {
            let shown = &mut examples.last_mut().unwrap().shown;
            shown.push_str(code);
            shown.push('\n');
        } else {
            in_block = false;
        }
    }
    examples
}

fn repository() -> PathBuf {
    Path::new(env!("CARGO_MANIFEST_DIR")).join("../..")
}

/// What a shell in a folder shows, standard error among it. `./hall` is the program, built already.
fn shown(command: &str, folder: &Path) -> String {
    let program = Path::new(env!("CARGO_BIN_EXE_hall"));
    let path = format!("{}:{}", program.parent().unwrap().display(), std::env::var("PATH").unwrap());
    let script = format!("exec 2>&1; {}", command.replace("./hall", "hall"));
    let got = Command::new("sh").arg("-c").arg(script).current_dir(folder).env("PATH", path).output().unwrap();
    text(&got.stdout).to_string()
}

/// Tries the examples in which `hall` is named, and answers how many there are.
fn tried(document: &str, folder: &Path) -> usize {
    let examples = examples(document).into_iter().filter(|example| example.command.contains("hall"));
    examples.map(|example| assert_eq!(shown(&example.command, folder), example.shown, "$ {}", example.command)).count()
}

#[test]
fn in_help() {
    let folder = Path::new(env!("CARGO_TARGET_TMPDIR")).join("help");
    let _ = std::fs::remove_dir_all(&folder);
    std::fs::create_dir_all(&folder).unwrap();
    for (command, least) in [
        ("path", 1),
        ("next", 4),
        ("child", 3),
        ("limit", 4),
        ("plan", 2),
        ("draw", 1),
        ("trace", 4),
        ("journal", 7),
        ("header", 3),
        ("ipv6", 2),
        ("nsa", 3),
    ] {
        let got = answer(&["help", command], "");
        assert!(tried(text(&got.stdout), &folder) >= least, "help {command} has too few examples");
    }
}

#[test]
fn in_documents() {
    for (document, least) in [("README.md", 2), ("docs/HALL.md", 38), ("docs/JOURNAL.md", 1)] {
        let text = std::fs::read_to_string(repository().join(document)).unwrap();
        assert!(tried(&text, &repository()) >= least, "{document} has too few examples");
    }
}
