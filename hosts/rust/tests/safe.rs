//! The safe types over the exports.
use pasa::{Address, Hop, Node, Refusal};
use std::error::Error;

fn address(digits: &str) -> Address {
    Address::new(u64::from_str_radix(digits, 2).unwrap()).unwrap()
}

#[test]
fn zero_is_no_address() {
    assert_eq!(Address::new(0), Err(Refusal::ZeroAddress));
    assert_eq!(Address::new(1), Ok(Address::ROOT));
}

#[test]
fn what_an_address_answers() {
    let router = address("111110");
    assert_eq!((router.parent(), router.depth(), router.bit_length(), router.is_host()), (Some(Address::ROOT), 1, 6, false));
    let host = address("101011");
    assert_eq!((host.parent(), host.depth(), host.bit_length(), host.is_host()), (Some(address("1010")), 3, 6, true));
    let root = Address::ROOT;
    assert_eq!((root.parent(), root.depth(), root.bit_length(), root.is_host()), (None, 0, 1, false));
    assert_eq!(pasa::interface(), 2);
}

/// The numbers that the documents give so far.
const NUMBERS: [u8; 17] = [1, 2, 3, 4, 5, 6, 7, 8, 9, 10, 11, 12, 13, 14, 15, 16, 17];

#[test]
fn refusals_have_the_documents_numbers() {
    assert_eq!(Refusal::of(0), None);
    for number in NUMBERS {
        let refusal = Refusal::of(number).unwrap();
        assert_eq!(refusal.number(), number);
        assert_ne!(refusal, Refusal::Unknown(number));
    }
    for number in [18, 19, 255] {
        assert_eq!(Refusal::of(number), Some(Refusal::Unknown(number)));
    }
    let error: Box<dyn Error> = Box::new(Refusal::ChildNotGiven);
    assert_eq!(error.to_string(), "refused 7: destination below this node, child not given");
    assert_eq!((Refusal::of(16), Refusal::EmptyPayload.number()), (Some(Refusal::EmptyPayload), 16));
    assert_eq!(Refusal::EmptyPayload.to_string(), "refused 16: the payload is empty");
}

/// The README's table has the documents' words.
#[test]
fn refusals_have_the_documents_words() {
    let readme = include_str!("../../../README.md");
    for number in NUMBERS {
        let refusal = Refusal::of(number).unwrap();
        let row = format!("\n| {number} | {} |\n", refusal.text());
        assert!(readme.contains(&row), "no such row: {row}");
        assert_eq!(refusal.to_string(), format!("refused {number}: {}", refusal.text()));
    }
}

#[test]
fn a_refused_child_leaves_the_record() {
    let mut host = Node::fresh(address("11"));
    assert_eq!(host.router_child(), Err(Refusal::HostAsked));
    assert_eq!(host, Node::fresh(address("11")));
    let mut root = Node::restore(Address::ROOT, 0, 62);
    assert_eq!(root.host_child().unwrap().number(), u64::MAX);
    assert_eq!(root.host_child(), Err(Refusal::TooLong));
    assert_eq!(root.hosts(), 63);
}

#[test]
fn a_stored_record_goes_on_where_it_was() {
    let (at, routers, hosts) = {
        let mut root = Node::fresh(Address::ROOT);
        root.router_child().unwrap();
        (root.address(), root.routers(), root.hosts())
    };
    let mut restored = Node::restore(at, routers, hosts);
    assert_eq!(restored.router_child(), Ok(address("110")));
    assert_eq!(Node::restore(address("11"), 1, 0).router_child(), Err(Refusal::BadRecord));
}

#[test]
fn limits() {
    let mut root = Node::fresh(Address::ROOT);
    assert_eq!((root.router_limit(), root.host_limit(), pasa::NO_CAP), (64, 64, 64));
    assert_eq!(root.set_router_limit(1), Ok(()));
    assert_eq!((root.router_limit(), root.host_limit()), (1, 64));
    assert_eq!(root.router_child(), Ok(address("10")));
    assert_eq!(root.router_child(), Err(Refusal::AtLimit));
    assert_eq!(root.host_child(), Ok(address("11")));
    assert_eq!(root.set_host_limit(1), Ok(()));
    assert_eq!(root.host_child(), Err(Refusal::AtLimit));
    for limit in [0, 65, 255, 256, 257, u64::MAX] {
        assert_eq!((root.set_router_limit(limit), root.set_host_limit(limit)), (Err(Refusal::BadRecord), Err(Refusal::BadRecord)));
        assert_eq!((root.routers(), root.hosts(), root.router_limit(), root.host_limit()), (1, 1, 1, 1));
    }
    assert_eq!(root.next_hop(address("10")), Ok(Hop::Child(address("10"))));
    assert_eq!(root.set_router_limit(64), Ok(()));
    assert_eq!(root.router_child(), Ok(address("110")));
    // a host's limits are set as any other's, and it gives no child; a bad record is not mended
    let mut host = Node::fresh(address("11"));
    assert_eq!((host.set_host_limit(0), host.host_child()), (Ok(()), Err(Refusal::HostAsked)));
    let mut bad = Node::restore(address("11"), 1, 0);
    assert_eq!((bad.set_router_limit(5), bad.router_limit()), (Err(Refusal::BadRecord), 64));
    assert_eq!(Refusal::AtLimit.to_string(), "refused 15: a node is asked for a child at its limit");
}

/// "The journal holds no limits, so recovered nodes have 64 and 64."
#[test]
fn limits_are_set_again_after_a_recovery() {
    let mut journal = [0xFF; pasa::SLOT];
    let mut root = Node::fresh(Address::ROOT);
    root.set_host_limit(1).unwrap();
    pasa::write_block(&mut journal, &[root.host_child().unwrap().number()]).unwrap();
    let mut words = [0; pasa::NODES];
    let nodes = pasa::recover_journal(&journal, &mut words).unwrap();
    let mut again = pasa::recovered_record(&words[..nodes], Address::ROOT).unwrap();
    assert_eq!((again.hosts(), again.router_limit(), again.host_limit()), (1, 64, 64));
    again.set_host_limit(1).unwrap();
    assert_eq!(again, root);
    assert_eq!(again.host_child(), Err(Refusal::AtLimit));
}

#[test]
fn next_hops() {
    let root = Node::restore(Address::ROOT, 2, 2);
    assert_eq!(root.next_hop(Address::ROOT), Ok(Hop::Deliver(Address::ROOT)));
    assert_eq!(root.next_hop(address("110")), Ok(Hop::Child(address("110"))));
    assert_eq!(root.next_hop(address("1110")), Err(Refusal::ChildNotGiven));
    assert_eq!(Node::fresh(address("11")).next_hop(address("110")), Ok(Hop::Parent(Address::ROOT)));
    assert_eq!(root.packet_next_hop(&[0xF1, 0x81, 0x0F, 0x00]), Err(Refusal::EndsEarly));
    assert_eq!(root.packet_next_hop(&[0xF1, 0x80, 0x0F, 0x06, 0x00]), Ok(Hop::Child(address("110"))));
    assert_eq!(root.packet_next_hop(&[0xF1, 0x80, 0x0F, 0x0E, 0x00]), Err(Refusal::ChildNotGiven));
    // an empty packet: for this node, for a child, for a child that is not given, at a bad record
    for last in [0x01, 0x06, 0x0E] {
        assert_eq!(root.packet_next_hop(&[0xF1, 0x80, 0x0F, last]), Err(Refusal::EmptyPayload));
        assert_eq!(Node::restore(address("11"), 1, 0).packet_next_hop(&[0xF1, 0x80, 0x0F, last]), Err(Refusal::BadRecord));
    }
    let (mut nodes, mut actions, mut refusals) = ([9; 2], [9; 3], [9; 3]);
    assert_eq!(root.next_hops(&[0b110, 0b1110, 1], &mut nodes, &mut actions, &mut refusals), 2);
    assert_eq!((nodes, actions, refusals), ([0b110, 0], [3, 0, 9], [0, 7, 9]));
}

#[test]
fn headers_and_ipv6_forms() {
    let mut out = [0; 16];
    assert_eq!(pasa::write_header(address("111110"), &mut out), Ok(4));
    assert_eq!(out[..4], [0xF1, 0x80, 0x0F, 0x3E]);
    assert_eq!(pasa::read_header(&out), Ok((address("111110"), 4)));
    assert_eq!(pasa::read_header(&out[..5]), Ok((address("111110"), 4)));
    assert_eq!(pasa::read_header(&out[..4]), Err(Refusal::EmptyPayload));
    assert_eq!(pasa::read_header(&[0xF1, 0x80, 0x0F, 0x00]), Err(Refusal::ZeroAddress));
    assert_eq!(pasa::read_header(&[0xF1, 0x81, 0x0F, 0x00, 0x3E]), Err(Refusal::WrongSize));
    assert_eq!(pasa::write_header(address("111110"), &mut out[..3]), Err(Refusal::NoRoom));
    let prefix = [0x20, 0x01, 0x0d, 0xb8, 0, 0, 0, 0];
    assert_eq!(pasa::write_ipv6(&prefix, address("111110"), &mut out), Ok(16));
    assert_eq!(std::net::Ipv6Addr::from(out).to_string(), "2001:db8::3e");
    assert_eq!(pasa::read_ipv6(&prefix, &out), Ok(address("111110")));
    assert_eq!(pasa::read_ipv6(&prefix[..7], &out), Err(Refusal::WrongLength));
}

#[test]
fn older_fields() {
    let fields = |length| pasa::NsaFields { length, source: address("111110"), destination: address("100000000") };
    let mut out = [0; pasa::NSA_MOST];
    assert_eq!(pasa::write_nsa(fields(253), &mut out), Ok(6));
    assert_eq!(out[..7], [0xFD, 0x01, 0x3E, 0xFD, 0x01, 0x00, 0x00]);
    assert_eq!(pasa::read_nsa(&out), Ok((fields(253), 6)));
    assert_eq!(pasa::read_nsa(&out[..6]), Ok((fields(253), 6)));
    assert_eq!(pasa::read_nsa(&out[..5]), Err(Refusal::EndsEarly));
    assert_eq!(pasa::read_nsa(&[0xFF]), Err(Refusal::WrongSize));
    assert_eq!(pasa::read_nsa(&[0x00, 0xFD, 0x00, 0x3E, 0x01]), Err(Refusal::WrongSize));
    assert_eq!(pasa::read_nsa(&[0x00, 0x00]), Err(Refusal::ZeroAddress));
    let before = out;
    assert_eq!(pasa::write_nsa(fields(0), &mut out[..4]), Err(Refusal::NoRoom));
    assert_eq!(pasa::write_nsa(fields(65_788), &mut out), Err(Refusal::TooMany));
    assert_eq!(pasa::write_nsa(fields(u64::MAX), &mut out[..0]), Err(Refusal::TooMany));
    assert_eq!(out, before);
    let last = Address::new(u64::MAX).unwrap();
    let most = pasa::NsaFields { length: 65_787, source: last, destination: last };
    assert_eq!(pasa::write_nsa(most, &mut out), Ok(pasa::NSA_MOST));
    assert_eq!(pasa::read_nsa(&out), Ok((most, pasa::NSA_MOST)));
}

#[test]
fn paths() {
    let mut words = [0; 126];
    assert_eq!(pasa::path(address("10011"), address("101011"), &mut words), Ok(4));
    assert_eq!(words[..5], [0b10011, 0b100, 0b10, 0b1010, 0b101011]);
    assert_eq!(pasa::path(address("10011"), address("101011"), &mut words[..4]), Err(Refusal::NoRoom));
}

#[test]
fn plans() {
    let mut words = [9; 6];
    assert_eq!(pasa::read_plan(b"R(R(H)H)", &mut words), Ok(4));
    assert_eq!(words, [0b1, 0b10, 0b101, 0b11, 9, 9]);
    let mut refused = |text: &[u8], room: usize| {
        let refused = pasa::read_plan(text, &mut words[..room]).unwrap_err();
        (refused.refusal(), refused.place())
    };
    assert_eq!(refused(b"R(R(H)H)", 3), (Refusal::NoRoom, None));
    assert_eq!(refused(b"", 3), (Refusal::BadPlan, Some(0)));
    assert_eq!(refused(b"R(H))", 6), (Refusal::BadPlan, Some(4)));
    assert_eq!(refused(&[b'x'; pasa::PLAN_BYTES], 0), (Refusal::BadPlan, Some(0)));
    assert_eq!(refused(&[b'x'; pasa::PLAN_BYTES + 1], 0), (Refusal::TooMany, None));
    let hosts = |count| format!("R({})", "H".repeat(count));
    assert_eq!(refused(hosts(64).as_bytes(), 6), (Refusal::TooLong, None));
    assert_eq!(refused(hosts(pasa::PLAN_NODES).as_bytes(), 6), (Refusal::TooMany, None));
    assert_eq!(words, [0b1, 0b10, 0b101, 0b11, 9, 9]);
    let error: Box<dyn Error> = Box::new(pasa::read_plan(b"R(H", &mut words).unwrap_err());
    assert_eq!(error.to_string(), "refused 13: a plan's text is outside the grammar, at place 3");
}

#[test]
fn journals() {
    let mut journal = [0xFF; 3 * pasa::SLOT];
    assert_eq!(pasa::write_block(&mut journal, &[0b10, 0b11, 0b101]), Ok(0));
    assert_eq!(pasa::write_block(&mut journal, &[0b11]), Err(Refusal::BadJournal));
    assert_eq!(pasa::write_block(&mut journal, &[]), Err(Refusal::WrongLength));
    assert_eq!(pasa::write_block(&mut journal[..700], &[0b110]), Err(Refusal::WrongLength));
    let mut words = [9; pasa::NODES + 1];
    assert_eq!(pasa::recover_journal(&journal, &mut words[..pasa::NODES - 1]), Err(Refusal::NoRoom));
    assert_eq!(words, [9; pasa::NODES + 1]);
    assert_eq!(pasa::recover_journal(&journal, &mut words), Ok(4));
    assert_eq!((words[..4].to_vec(), words[4..].iter().all(|word| *word == 0)), (vec![0b1, 0b10, 0b11, 0b101], true));
    assert_eq!(pasa::recovered_record(&words, address("10")), Some(Node::restore(address("10"), 0, 1)));
    assert_eq!(pasa::recovered_record(&words, address("100")), None);
    // torn, and then the block in the next slot
    journal[pasa::SLOT] = 0x50;
    assert_eq!(pasa::write_block(&mut journal, &[0b110]), Ok(2));
    assert_eq!(pasa::recover_journal(&journal, &mut words), Ok(5));
    assert_eq!(pasa::write_block(&mut journal, &[0b1110]), Err(Refusal::NoRoom));
    assert_eq!(pasa::write_block(&mut journal, &[0b110]), Err(Refusal::BadJournal));
    journal[2] ^= 1;
    assert_eq!(pasa::recover_journal(&journal, &mut words), Err(Refusal::BadJournal));
    assert_eq!(words, [0; pasa::NODES + 1]);
    assert_eq!((pasa::crc(b"123456789"), pasa::crc(&[])), (0x29B1, 0xFFFF));
}
