use crate::{answer, misuses, refuses, says, text, REFUSED_16, REFUSED_4, REFUSED_5, REFUSED_6, REFUSED_9};

const ROUTER: &str = "address 111110 (0x3e)\nkind    router\ndepth   1\nparent  1\nplace   4\n";

#[test]
fn writes() {
    says("header write 111110", "f1 80 0f 3e\n");
    says("header write 0xff", "f1 80 0f ff\n");
    says("header write 0x100", "f1 81 0f 01 00\n");
    says("header write 0xffff", "f1 81 0f ff ff\n");
    says("header write 0x10000", "f1 82 0f 01 00 00\n");
    says("header write 0xffffffffffffffff", "f1 87 0f ff ff ff ff ff ff ff ff\n");
}

#[test]
fn reads() {
    says("header read f1 80 0f 3e 00", &format!("{ROUTER}payload 1 octet\n"));
    says("header read F1800F3E68", &format!("{ROUTER}payload 1 octet\n"));
    says("header read f1:80:0f:3e:68:69", &format!("{ROUTER}payload 2 octets\n"));
    says("header read f180 0f3e 68:69", &format!("{ROUTER}payload 2 octets\n"));
    says("header read f1800f0100", "address 1 (0x1)\nkind    root\ndepth   0\nparent  none\nplace   4\npayload 1 octet\n");
    says("header read f1800f2bff", "address 101011 (0x2b)\nkind    host\ndepth   3\nparent  1010\nplace   4\npayload 1 octet\n");
    let router = "address 10000000000000000 (0x10000)\nkind    router\ndepth   16\nparent  1000000000000000\nplace   6\npayload 1 octet\n";
    says("header read f1820f01000000", router);
}

/// The header alone, of each of the packets above.
#[test]
fn an_empty_payload() {
    for header in ["f1 80 0f 3e", "F1800F3E", "f1:80:0f:3e", "f180 0f3e", "f1800f01", "f1800f2b", "f1820f010000"] {
        refuses(&format!("header read {header}"), REFUSED_16);
    }
    for address in ["1", "111110", "0x100", "0x10000", "0xffffffffffffffff"] {
        let written = answer(&["header", "write", address], "");
        refuses(&format!("header read {}", text(&written.stdout).trim_end()), REFUSED_16);
    }
}

#[test]
fn reads_standard_input() {
    let got = answer(&["header", "read", "-"], "f1 80\n0f 3e\n68\n");
    assert_eq!((text(&got.stdout), got.status.code()), (format!("{ROUTER}payload 1 octet\n").as_str(), Some(0)));
    let got = answer(&["header", "read", "-"], "f1 80\n0f 3e\n");
    assert_eq!((text(&got.stdout), text(&got.stderr), got.status.code()), ("", format!("{REFUSED_16}\n").as_str(), Some(1)));
    let got = answer(&["header", "read", "-"], "");
    assert_eq!((text(&got.stderr), got.status.code()), (format!("{REFUSED_4}\n").as_str(), Some(1)));
}

#[test]
fn refusals() {
    refuses("header write 0", REFUSED_9);
    refuses("header read f1800f00", REFUSED_9);
    refuses("header read f1810f003e", REFUSED_6);
    refuses("header read f1810f0000", REFUSED_6);
    refuses("header read f1830f0000003e", REFUSED_6);
    refuses("header read f1880f", REFUSED_6);
    refuses("header read f1820f", REFUSED_4);
    refuses("header read f1810f00", REFUSED_4);
    refuses("header read f1a1", REFUSED_5);
    refuses("header read :", REFUSED_4);
}

#[test]
fn wrong_usage() {
    misuses("header", "'write' or 'read'");
    misuses("header show 1", "'write' or 'read'");
    misuses("header write", "one address");
    misuses("header write 1 1", "one address");
    misuses("header write 3", "an address, binary digits");
    misuses("header read", "the octets of a packet");
    misuses("header read f1 8", "octets, each two hexadecimal digits");
    misuses("header read f1 8g", "octets, each two hexadecimal digits");
    misuses("header read 0xf1", "octets, each two hexadecimal digits");
    misuses("header read f1 é", "octets, each two hexadecimal digits");
}
