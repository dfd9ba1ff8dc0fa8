use crate::{answer, misuses, refuses, says, text, REFUSED_14, REFUSED_4, REFUSED_6, REFUSED_9};

const FIELDS: &str = "length      1280\nsource      111110 (0x3e)\ndestination 101011 (0x2b)\nplace       5\n";

#[test]
fn writes() {
    says("nsa write 0 1 1", "00 01 01\n");
    says("nsa write 1280 111110 0x2b", "fe 04 04 3e 2b\n");
    says("nsa write 0x500 0b111110 0x2b", "fe 04 04 3e 2b\n");
    // decimal digits, where an address has binary ones
    says("nsa write 11 11 11", "0b 03 03\n");
    says("nsa write 252 0xfc 0xfd", "fc fc fd 00 fd\n");
    says("nsa write 253 0xffff 0x10000", "fd 01 fd ff ff fe 00 01 00 00\n");
    says("nsa write 507 0xffffffff 1", "fd ff fe ff ff ff ff 01\n");
    says("nsa write 508 0x100000000 1", "fe 01 00 ff 05 01 00 00 00 00 01\n");
    says("nsa write 65787 1 0xffffffffffffffff", "fe ff ff 01 ff 08 ff ff ff ff ff ff ff ff\n");
    says("nsa write 000065787 1 1", "fe ff ff 01 01\n");
    let ones = "ff 08 ff ff ff ff ff ff ff ff";
    says("nsa write 0x100fb 0xffffffffffffffff 0xffffffffffffffff", &format!("fe ff ff {ones} {ones}\n"));
}

#[test]
fn reads() {
    says("nsa read fe 04 04 3e 2b", &format!("{FIELDS}behind      0 octets\n"));
    says("nsa read FE04043E2B68", &format!("{FIELDS}behind      1 octet\n"));
    says("nsa read fe:04:04:3e:2b:68:69", &format!("{FIELDS}behind      2 octets\n"));
    says("nsa read fe04 043e 2b 68:69", &format!("{FIELDS}behind      2 octets\n"));
    says("nsa read 000101", "length      0\nsource      1 (0x1)\ndestination 1 (0x1)\nplace       3\nbehind      0 octets\n");
    let long = format!(
        "length      65787\nsource      {} (0x100000000)\ndestination {} (0xffffffffffffffff)\nplace       20\nbehind      0 octets\n",
        format_args!("1{}", "0".repeat(32)),
        "1".repeat(64),
    );
    says("nsa read feffff ff050100000000 ff08ffffffffffffffff", &long);
}

#[test]
fn reads_standard_input() {
    let got = answer(&["nsa", "read", "-"], "fe 04 04\n3e 2b\n");
    assert_eq!((text(&got.stdout), got.status.code()), (format!("{FIELDS}behind      0 octets\n").as_str(), Some(0)));
    let got = answer(&["nsa", "read", "-"], "");
    assert_eq!((text(&got.stderr), got.status.code()), (format!("{REFUSED_4}\n").as_str(), Some(1)));
}

#[test]
fn what_is_written_is_read() {
    for (length, source, destination) in [("0", "1", "10"), ("300", "11111111", "100000000"), ("65787", "1010101", "0x123456789a")] {
        let got = answer(&["nsa", "write", length, source, destination], "");
        let got = answer(&["nsa", "read", "-"], &got.stdout);
        let read = text(&got.stdout);
        assert!(read.starts_with(&format!("length      {length}\nsource      {source} (")), "{read}");
        let shown = read.lines().find_map(|line| line.strip_prefix("destination ")).unwrap();
        assert!(shown.starts_with(&format!("{destination} (")) || shown.ends_with(&format!(" ({destination})")), "{read}");
        assert!(read.ends_with("\nbehind      0 octets\n"), "{read}");
    }
}

#[test]
fn refusals() {
    refuses("nsa read :", REFUSED_4);
    refuses("nsa read 00", REFUSED_4);
    refuses("nsa read 00ff0500", REFUSED_4);
    refuses("nsa read ff", REFUSED_6);
    refuses("nsa read fd00", REFUSED_6);
    refuses("nsa read 00 fd00fc 01", REFUSED_6);
    refuses("nsa read 00 fe0000ffff 01", REFUSED_6);
    refuses("nsa read 00 ff04", REFUSED_6);
    refuses("nsa read 00 fd0000 01", REFUSED_6);
    refuses("nsa read 0000", REFUSED_9);
    refuses("nsa read 000100", REFUSED_9);
    refuses("nsa write 0 0 1", REFUSED_9);
    refuses("nsa write 65787 1 0x0", REFUSED_9);
}

/// "A length to write above 65,787 is 14, checked first; then 9": also one that no number of 64 bits holds.
#[test]
fn the_length_comes_first() {
    for length in ["65788", "0x100fc", "4294967296", "18446744073709551615", "18446744073709551616", "0x10000000000000000"] {
        for ends in ["1 1", "0 1", "1 0", "0 0"] {
            refuses(&format!("nsa write {length} {ends}"), REFUSED_14);
        }
    }
}

#[test]
fn wrong_usage() {
    misuses("nsa", "'write' or 'read'");
    misuses("nsa show 1", "'write' or 'read'");
    misuses("nsa write 1 1", "a payload length, a source and a destination");
    misuses("nsa write 1 1 1 1", "a payload length, a source and a destination");
    for length in ["x", "0x", "0xg", "-1", "+1", "1.0", "1,280", "0b1"] {
        misuses(
            &format!("nsa write {length} 1 1"),
            &format!("a payload length, decimal digits as 1280 or a number as 0x500, found '{length}'"),
        );
    }
    misuses("nsa write 1 3 1", "an address, binary digits");
    misuses("nsa write 1 1 3", "an address, binary digits");
    // nothing is asked before all of it can be read
    misuses("nsa write 65788 1 3", "an address, binary digits");
    misuses("nsa write 99999999999999999999 0 3", "an address, binary digits");
    misuses("nsa read", "the octets of the fields");
    misuses("nsa read 00 1", "octets, each two hexadecimal digits");
    misuses("nsa read 00 0x1", "octets, each two hexadecimal digits");
}
