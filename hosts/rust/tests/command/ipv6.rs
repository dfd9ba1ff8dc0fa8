use crate::{misuses, refuses, says, REFUSED_12, REFUSED_8, REFUSED_9};

const ROUTER: &str = "address 111110 (0x3e)\nkind    router\ndepth   1\nparent  1\n";

#[test]
fn writes() {
    says("ipv6 write 2001:db8:: 111110", "2001:db8::3e\n");
    says("ipv6 write 2001:db8::/64 0x3e", "2001:db8::3e\n");
    says("ipv6 write 2001:db8:1:2:: 0x8000000000000001", "2001:db8:1:2:8000::1\n");
    says("ipv6 write :: 1", "::1\n");
}

#[test]
fn reads() {
    says("ipv6 read 2001:db8:: 2001:db8::3e", ROUTER);
    says("ipv6 read 2001:db8::/64 2001:0DB8:0:0:0:0:0:003E", ROUTER);
}

#[test]
fn refusals() {
    refuses("ipv6 write 2001:db8:: 0", REFUSED_9);
    refuses("ipv6 read 2001:db8:: 2001:db8::", REFUSED_9);
    refuses("ipv6 read 2001:db8:: 2001:db9::3e", REFUSED_8);
    refuses("ipv6 read 2001:db8:: 2001:db8:0:1::3e", REFUSED_8);
    // 12 comes before all others
    refuses("ipv6 write 2001:db8::/48 0", REFUSED_12);
    refuses("ipv6 read 2001:db8::/48 2001:db9::", REFUSED_12);
    refuses("ipv6 read 2001:db8::/128 2001:db8::3e", REFUSED_12);
    refuses("ipv6 read 2001:db8::/0 2001:db8::3e", REFUSED_12);
}

#[test]
fn wrong_usage() {
    misuses("ipv6", "'write' or 'read'");
    misuses("ipv6 write 2001:db8::", "a prefix and an address");
    misuses("ipv6 write 2001:db8 1", "a prefix of 64 bits");
    misuses("ipv6 write 2001:db8::/129 1", "a prefix of 64 bits");
    misuses("ipv6 write 2001:db8::/ 1", "a prefix of 64 bits");
    misuses("ipv6 write 2001:db8::/+64 1", "a prefix of 64 bits");
    misuses("ipv6 write 2001:db8::1 1", "a prefix of 64 bits");
    misuses("ipv6 write 2001:db8:: 9", "an address, binary digits");
    misuses("ipv6 read 2001:db8::", "a prefix and an IPv6 address");
    misuses("ipv6 read 2001:db8:: 1.2.3.4", "an IPv6 address");
    misuses("ipv6 read 2001:db8:: 2001:db8::3e/64", "an IPv6 address");
}
