use crate::{misuses, refuses, says, REFUSED_1, REFUSED_7, REFUSED_9};

#[test]
fn deliver_parent_child() {
    says("next 10:2,2 10", "deliver at 10\n");
    says("next 11 110", "pass to parent 1\n");
    says("next 1:2,2 110", "pass to child 110\n");
    says("next 10:2,2 101011", "pass to child 1010\n");
    says("next 0x2:2,2 0b101011", "pass to child 1010\n");
}

/// A limit is nothing to a packet.
#[test]
fn at_a_node_with_limits() {
    says("next 1:2/2,2/2 110", "pass to child 110\n");
    says("next 10:0/0,0/0 1", "pass to parent 1\n");
    says("next 11:0/0,0 11", "deliver at 11\n");
    refuses("next 1:2/5,2/5 1110", REFUSED_7);
}

#[test]
fn a_child_that_is_not_given() {
    refuses("next 1:2,2 1110", REFUSED_7);
    refuses("next 1 10", REFUSED_7);
}

#[test]
fn bad_records_come_first() {
    refuses("next 11:1,0 1", REFUSED_1);
    refuses("next 11:1,0 0", REFUSED_1);
    refuses("next 10:63,0 1", REFUSED_1);
    refuses("next 0 1", REFUSED_1);
    refuses("next 0:0,0 0", REFUSED_1);
    refuses("next 1:255,0 10", REFUSED_1);
    refuses("next 1:256,0 10", REFUSED_1);
    refuses("next 1:0,99999999999999999999999 10", REFUSED_1);
    for record in ["1:0/65,0", "1:0,0/65", "1:3/2,0", "1:0,3/2", "11:0/65,0", "1:0/256,0"] {
        refuses(&format!("next {record} 1"), REFUSED_1);
        refuses(&format!("next {record} 0"), REFUSED_1);
    }
    refuses("next 1:2,2 0", REFUSED_9);
    refuses("next 11 0", REFUSED_9);
}

#[test]
fn wrong_usage() {
    misuses("next 1:2,2", "a record and a destination");
    misuses("next 1:2 1", "a record, an address with its routers and hosts");
    misuses("next 1:2,2,2 1", "a record, an address with its routers and hosts");
    misuses("next 1:-1,2 1", "a record, an address with its routers and hosts");
    misuses("next 1:+1,2 1", "a record, an address with its routers and hosts");
    misuses("next 1:,2 1", "a record, an address with its routers and hosts");
    misuses("next 1: 1", "a record, an address with its routers and hosts");
    misuses("next 2:0,0 1", "an address, binary digits");
    // nothing is asked before all of it can be read
    misuses("next 11:1,0 x", "an address, binary digits");
}
