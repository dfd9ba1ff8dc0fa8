use crate::{answer, misuses, misuses_words, says, text, words};

fn said(line: &str) -> String {
    let got = answer(&words(line), "");
    assert_eq!((text(&got.stderr), got.status.code()), ("", Some(0)), "hall {line}");
    text(&got.stdout).to_string()
}

const NAMES: [&str; 12] = ["path", "next", "child", "limit", "plan", "draw", "trace", "journal", "header", "ipv6", "nsa", "help"];

#[test]
fn help_lists_every_command() {
    let list = said("help");
    for name in NAMES {
        assert!(list.contains(&format!("\n  {name} ")), "{name} is missing in\n{list}");
    }
    assert!(list.contains("\n  --version "), "{list}");
    assert_eq!(said("--help"), list);
    assert_eq!(said("-h"), list);
}

#[test]
fn help_of_a_command() {
    for name in NAMES {
        let help = said(&format!("help {name}"));
        assert!(help.starts_with(&format!("usage: hall {name}")), "{help}");
        assert_eq!(said(&format!("{name} --help")), help);
    }
    assert_eq!(said("help header read"), said("help header"));
}

#[test]
fn the_version() {
    says("--version", &format!("hall {}, interface {}\n", env!("CARGO_PKG_VERSION"), pasa::interface()));
}

#[test]
fn wrong_usage() {
    misuses("", "a command");
    misuses("paths 1 1", "a command (path, next, child, limit, plan, draw, trace, journal, header, ipv6, nsa, help), found 'paths'");
    misuses("help paths", "a command (path, next, child, limit, plan, draw, trace, journal, header, ipv6, nsa, help), found 'paths'");
    misuses_words(&["--versions"], "a command");
}
