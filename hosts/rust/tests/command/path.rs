use crate::{misuses, misuses_words, refuses, says, REFUSED_9};

#[test]
fn hops_and_the_list() {
    says("path 10011 101011", "hops 4\n10011\n100\n10\n1010\n101011\n");
    says("path 1001 111", "hops 4\n1001\n100\n10\n1\n111\n");
    says("path 110 110", "hops 0\n110\n");
}

#[test]
fn numbers_for_addresses() {
    says("path 0x13 0b101011", "hops 4\n10011\n100\n10\n1010\n101011\n");
    says("path 0x00D 0b0011", "hops 3\n1101\n110\n1\n11\n");
    let ones = "1".repeat(64);
    says(&format!("path {ones} 0xffffffffffffffff"), &format!("hops 0\n{ones}\n"));
}

#[test]
fn the_longest_path() {
    let (first, second) = ("0x8000000000000000", "0xc000000000000000");
    let listed: Vec<String> = (0..63).map(|k| format!("{:b}", 1u64 << (63 - k))).chain(["1".to_string()]).collect();
    let down = (2..=63).map(|k| format!("{:b}", 3u64 << (k - 1)));
    let lines: Vec<String> = listed.into_iter().chain(down).collect();
    says(&format!("path {first} {second}"), &format!("hops 125\n{}\n", lines.join("\n")));
}

#[test]
fn zero_is_refused() {
    refuses("path 0 1", REFUSED_9);
    refuses("path 1 0x0", REFUSED_9);
    refuses("path 0b00 0", REFUSED_9);
}

#[test]
fn wrong_usage() {
    misuses("path", "two addresses");
    misuses("path 1", "two addresses");
    misuses("path 1 10 11", "two addresses");
    misuses("path 12 1", "an address, binary digits");
    misuses("path 1 0x", "an address, binary digits");
    misuses("path 1 0b12", "an address, binary digits");
    misuses("path 1 +1", "an address, binary digits");
    misuses("path 1 0x+1", "an address, binary digits");
    misuses("path 011 1", "an address whose first digit is 1");
    misuses("path 00 1", "an address whose first digit is 1");
    misuses(&format!("path 1 {}", "1".repeat(65)), "an address of at most 64 bits");
    misuses("path 0x10000000000000000 1", "an address of at most 64 bits");
    misuses_words(&["path", "", "1"], "an address, binary digits");
}

#[cfg(unix)]
#[test]
fn a_word_that_is_no_text() {
    use std::ffi::OsStr;
    use std::os::unix::ffi::OsStrExt;
    let got = crate::answer(&[OsStr::new("path"), OsStr::from_bytes(b"1\xff"), OsStr::new("1")], "");
    assert_eq!(got.status.code(), Some(2));
}

#[cfg(target_os = "linux")]
#[test]
fn output_that_cannot_be_written() {
    let full = std::fs::File::options().write(true).open("/dev/full").unwrap();
    let got = crate::hall(&["path", "1", "1"]).stdout(full).output().unwrap();
    assert_eq!(got.status.code(), Some(2));
    assert!(crate::text(&got.stderr).starts_with("hall: cannot write: "), "{}", crate::text(&got.stderr));
}
