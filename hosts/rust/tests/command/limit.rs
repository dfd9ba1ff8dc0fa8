use crate::{answer, misuses, refuses, says, text, words, REFUSED_1};

#[test]
fn limits_are_set() {
    says("limit 1 routers 0", "record 1:0/0,0\n");
    says("limit 1 hosts 0", "record 1:0,0/0\n");
    says("limit 1:2,1 routers 3", "record 1:2/3,1\n");
    says("limit 1:2,1 routers 2", "record 1:2/2,1\n");
    says("limit 1:2/3,1 hosts 63", "record 1:2/3,1/63\n");
    says("limit 1:2/3,1/5 routers 64", "record 1:2,1/5\n");
    says("limit 1:2/3,1/5 routers 3", "record 1:2/3,1/5\n");
    says("limit 11 hosts 5", "record 11:0,0/5\n");
    says("limit 0x8000000000000000 hosts 63", &format!("record 1{}:0,0/63\n", "0".repeat(63)));
}

#[test]
fn settings_that_are_refused() {
    for limit in ["65", "255", "256", "257", "320", "18446744073709551615", "18446744073709551616", "18446744073709551680"] {
        refuses(&format!("limit 1 routers {limit}"), REFUSED_1);
        refuses(&format!("limit 1 hosts {limit}"), REFUSED_1);
    }
    refuses("limit 1:2,1 routers 1", REFUSED_1);
    refuses("limit 1:2,1 hosts 0", REFUSED_1);
    // a bad record is not mended
    refuses("limit 1:3/2,0 routers 3", REFUSED_1);
    refuses("limit 1:0/65,0 routers 64", REFUSED_1);
    refuses("limit 1:0/65,0 hosts 64", REFUSED_1);
    refuses("limit 11:1,0 hosts 5", REFUSED_1);
    refuses("limit 0 hosts 5", REFUSED_1);
}

/// A record that is printed is one that is read: a hall goes on from its own answers.
#[test]
fn records_can_be_handed_on() {
    let mut record = "1".to_string();
    for line in
        ["limit # hosts 2", "child # host", "child # router", "limit # routers 1", "child # host", "limit # hosts 64", "child # host"]
    {
        let got = answer(&words(&line.replace('#', &record)), "");
        assert_eq!(text(&got.stderr), "", "hall {line} with {record}");
        record = text(&got.stdout).trim_end().rsplit(' ').next().unwrap().to_string();
    }
    assert_eq!(record, "1:1/1,3");
}

#[test]
fn wrong_usage() {
    misuses("limit", "a record, 'routers' or 'hosts', and a limit");
    misuses("limit 1 hosts", "a record, 'routers' or 'hosts', and a limit");
    misuses("limit 1 hosts 1 1", "a record, 'routers' or 'hosts', and a limit");
    misuses("limit 1 host 1", "'routers' or 'hosts', found 'host'");
    misuses("limit 1 hosts x", "a limit, 0 to 64, found 'x'");
    misuses("limit 1 hosts -1", "a limit, 0 to 64, found '-1'");
    misuses("limit 1 hosts +1", "a limit, 0 to 64, found '+1'");
    misuses("limit 2 hosts 1", "an address, binary digits");
    // nothing is asked before all of it can be read
    misuses("limit 11:1,0 hosts x", "a limit, 0 to 64, found 'x'");
}
