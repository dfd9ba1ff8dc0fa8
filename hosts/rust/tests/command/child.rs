use crate::{misuses, refuses, says, REFUSED_1, REFUSED_15, REFUSED_2, REFUSED_3};

#[test]
fn children_and_the_records_behind_them() {
    says("child 1 router", "child  10\nrecord 1:1,0\n");
    says("child 1:1,0 host", "child  11\nrecord 1:1,1\n");
    says("child 0x2:1,1 host", "child  1011\nrecord 10:1,2\n");
    says("child 1:2/3,1 router", "child  1110\nrecord 1:3/3,1\n");
    says("child 1:2/2,1/5 host", "child  111\nrecord 1:2/2,2/5\n");
    says("child 1:0/64,62/63 host", &format!("child  {}\nrecord 1:0,63/63\n", "1".repeat(64)));
}

#[test]
fn in_the_papers_order() {
    refuses("child 11:0/0,0/0 host", REFUSED_2);
    refuses("child 11 router", REFUSED_2);
    refuses("child 1:2/2,1 router", REFUSED_15);
    refuses("child 1:0,0/0 host", REFUSED_15);
    refuses("child 0x8000000000000000:0/0,0 router", REFUSED_15);
    refuses("child 0x8000000000000000:0/0,0 host", REFUSED_3);
    refuses("child 1:0,63/63 host", REFUSED_15);
    refuses("child 1:0,63/64 host", REFUSED_3);
    refuses("child 1:0,63 host", REFUSED_3);
}

#[test]
fn bad_records_come_first() {
    refuses("child 0 router", REFUSED_1);
    refuses("child 11:1,0 host", REFUSED_1);
    refuses("child 1:64,0 host", REFUSED_1);
    for record in ["1:0/65,0", "1:0,0/65", "1:0/255,0", "1:0/256,0", "1:0/320,0", "1:3/2,0", "1:0,3/2", "11:0/65,0"] {
        refuses(&format!("child {record} router"), REFUSED_1);
        refuses(&format!("child {record} host"), REFUSED_1);
    }
    refuses("child 1:0/99999999999999999999999,0 host", REFUSED_1);
}

#[test]
fn wrong_usage() {
    misuses("child", "a record, and 'router' or 'host'");
    misuses("child 1", "a record, and 'router' or 'host'");
    misuses("child 1 router 2", "a record, and 'router' or 'host'");
    misuses("child 1 routers", "'router' or 'host', found 'routers'");
    for record in ["1:2/,1", "1:/3,1", "1:2/3/4,1", "1:2/x,1", "1:2/-1,1", "1:2/+1,1", "1:2/3", "1:2,1/"] {
        misuses(&format!("child {record} router"), "a record, an address with its routers and hosts");
    }
    misuses("child 1/3 router", "an address, binary digits");
    misuses(
        "child 1:2/,1 router",
        "a record, an address with its routers and hosts as 110:2,1, or with a limit as 110:2/3,1, found '1:2/,1'",
    );
    // nothing is asked before all of it can be read
    misuses("child 11:1,0 x", "'router' or 'host', found 'x'");
}
