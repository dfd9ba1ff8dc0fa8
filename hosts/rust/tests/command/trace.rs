use crate::plan::most;
use crate::{answer, file, hall, misuses, text};
use std::collections::{BTreeMap, VecDeque};
use std::fmt::Write as _;
use std::io::{BufRead, BufReader, Write};
use std::path::Path;

const FIGURE_6: &str = include_str!("figure-6.txt");
const FIGURE_6_ANSWERS: &str = include_str!("figure-6.out");

/// Answers to a text that can be read to its end.
fn traced(input: &str) -> String {
    let got = answer(&["trace"], input);
    assert_eq!((text(&got.stderr), got.status.code()), ("", Some(0)), "for {input}");
    text(&got.stdout).to_string()
}

/// The text cannot be read at a line: what came before is answered.
fn stops(input: &str, line: usize, before: &str) {
    let got = answer(&["trace"], input);
    assert_eq!((text(&got.stdout), got.status.code()), (before, Some(2)), "for {input:?}");
    let said = text(&got.stderr);
    assert!(said.starts_with(&format!("bad input at line {line}\nexpected ")), "for {input:?} it says {said}");
}

#[test]
fn the_tree_of_figure_6() {
    assert_eq!(traced(FIGURE_6), FIGURE_6_ANSWERS);
}

#[test]
fn a_named_file() {
    let file = Path::new(env!("CARGO_MANIFEST_DIR")).join("tests/command/figure-6.txt");
    let got = answer(&["trace".as_ref(), file.as_os_str()], "router 1\n");
    assert_eq!((text(&got.stdout), text(&got.stderr), got.status.code()), (FIGURE_6_ANSWERS, "", Some(0)));
    let got = answer(&["trace", "-"], FIGURE_6);
    assert_eq!(text(&got.stdout), FIGURE_6_ANSWERS);
}

#[test]
fn a_file_that_cannot_be_read() {
    for name in ["no/such/file", env!("CARGO_MANIFEST_DIR")] {
        let got = answer(&["trace", name], "");
        assert_eq!((text(&got.stdout), got.status.code()), ("", Some(2)));
        assert!(text(&got.stderr).starts_with(&format!("hall: cannot read {name}: ")), "{}", text(&got.stderr));
    }
    misuses("trace one two", "one file, or none for standard input");
}

#[test]
fn nothing_asked() {
    assert_eq!(traced(""), "");
    assert_eq!(traced("\n# a comment\n\n#"), "");
    assert_eq!(traced("tree"), "tree\n1 routers 0 hosts 0\n");
}

#[test]
fn the_last_newline_may_be_missing() {
    assert_eq!(traced("router 1\nsend 1 10"), "router of 1: 10\nsend 1 to 10: 1 10 delivered, 1 hop\n");
}

#[test]
fn hops_are_counted() {
    let ways = traced("router 1\nhost 1\nsend 1 1\nsend 10 1\nsend 10 11\nsend 1 1110\nsend 10 1110\n");
    let expected = "\
router of 1: 10
host of 1: 11
send 1 to 1: 1 delivered, 0 hops
send 10 to 1: 10 1 delivered, 1 hop
send 10 to 11: 10 1 11 delivered, 2 hops
send 1 to 1110: 1 refused 7, 0 hops
send 10 to 1110: 10 1 refused 7, 1 hop
";
    assert_eq!(ways, expected);
}

#[test]
fn refusals_are_answers() {
    assert_eq!(
        traced("host 1\nhost 11\nrouter 10\nsend 10 1\n"),
        "host of 1: 11\nhost of 11: refused 2\nrouter of 10: no such node\nsend 10 to 1: no such node\n"
    );
    let all = traced(&"host 1\n".repeat(64));
    assert_eq!(all.lines().nth(62), Some(format!("host of 1: {}", "1".repeat(64)).as_str()));
    assert_eq!(all.lines().nth(63), Some("host of 1: refused 3"));
}

#[test]
fn limits_anywhere() {
    let list = "limit 1 routers 1\nrouter 1\nrouter 1\nhost 1\nlimit 10 hosts 0\nhost 10\nlimit 1 routers 0\nlimit 1 routers 65\n\
                limit 110 hosts 1\nlimit 11 hosts 63\nhost 11\nlimit 1 routers 2\nrouter 1\nrouter 1\ntree\nlimit 1 routers 64\nrouter 1\n\
                send 11 1110\nsend 1110 101\ntree\n";
    let expected = "\
limit 1 routers 1: set
router of 1: 10
router of 1: refused 15
host of 1: 11
limit 10 hosts 0: set
host of 10: refused 15
limit 1 routers 0: refused 1
limit 1 routers 65: refused 1
limit 110 hosts 1: no such node
limit 11 hosts 63: set
host of 11: refused 2
limit 1 routers 2: set
router of 1: 110
router of 1: refused 15
tree
1 routers 2/2 hosts 1
  10 routers 0 hosts 0/0
  11 routers 0 hosts 0/63
  110 routers 0 hosts 0
limit 1 routers 64: set
router of 1: 1110
send 11 to 1110: 11 1 1110 delivered, 2 hops
send 1110 to 101: 1110 1 10 refused 7, 2 hops
tree
1 routers 3 hosts 1
  10 routers 0 hosts 0/0
  11 routers 0 hosts 0/63
  110 routers 0 hosts 0
  1110 routers 0 hosts 0
";
    assert_eq!(traced(list), expected);
    for limit in ["66", "255", "256", "257", "18446744073709551615"] {
        assert_eq!(
            traced(&format!("limit 1 hosts {limit}\ntree\n")),
            format!("limit 1 hosts {limit}: refused 1\ntree\n1 routers 0 hosts 0\n")
        );
    }
}

/// A hall by the papers' sentences, on strings of digits: of each node the children given and the limit, routers first.
struct Strings {
    nodes: BTreeMap<String, [(usize, usize); 2]>,
}

const FRESH: [(usize, usize); 2] = [(0, 64), (0, 64)];

impl Strings {
    /// The answer to a request: the child, or the refusal.
    fn request(&mut self, asked: &str, host: usize) -> String {
        let Some(counts) = self.nodes.get_mut(asked) else {
            return "no such node".to_string();
        };
        if asked.len() > 1 && asked.ends_with('1') {
            return "refused 2".to_string();
        }
        let (given, limit) = counts[host];
        if given == limit {
            return "refused 15".to_string();
        }
        let child = format!("{asked}{}{host}", "1".repeat(given));
        if child.len() > 64 {
            return "refused 3".to_string();
        }
        counts[host].0 += 1;
        self.nodes.insert(child.clone(), FRESH);
        child
    }

    fn set_limit(&mut self, asked: &str, host: usize, limit: usize) -> &str {
        match self.nodes.get_mut(asked) {
            None => "no such node",
            Some(counts) if limit > 64 || limit < counts[host].0 => "refused 1",
            Some(counts) => {
                counts[host].1 = limit;
                "set"
            }
        }
    }

    fn row(&self, address: &str) -> String {
        let zeros = address.bytes().filter(|digit| *digit == b'0').count();
        let depth = zeros + usize::from(address.len() > 1 && address.ends_with('1'));
        let [routers, hosts] =
            self.nodes[address].map(|(given, limit)| if limit == 64 { given.to_string() } else { format!("{given}/{limit}") });
        format!("{}{address} routers {routers} hosts {hosts}\n", "  ".repeat(depth))
    }
}

/// Requests and settings in any order, refused ones and nodes that are not there among them.
#[test]
fn lists_of_requests_and_settings() {
    let mut state = 20_u64;
    let mut below = |n: usize| {
        state = state.wrapping_mul(6_364_136_223_846_793_005).wrapping_add(1_442_695_040_888_963_407);
        (state >> 33) as usize % n
    };
    let mut hall = Strings { nodes: BTreeMap::from([("1".to_string(), FRESH)]) };
    let (mut list, mut expected) = (String::new(), String::new());
    for _ in 0..20_000 {
        let asked = match below(16) {
            0 => format!("1{:b}", below(1 << 12)),
            1..=6 => "1".to_string(),
            _ => hall.nodes.keys().nth(below(hall.nodes.len().min(60))).unwrap().clone(),
        };
        let host = below(2);
        let kind = ["router", "host"][host];
        if below(3) > 0 {
            writeln!(list, "{kind} {asked}").unwrap();
            writeln!(expected, "{kind} of {asked}: {}", hall.request(&asked, host)).unwrap();
        } else {
            let given = hall.nodes.get(&asked).map_or(0, |counts| counts[host].0);
            let limit = [given, given + 1, given.saturating_sub(1), 64, 65, below(66), 256 + given, usize::MAX][below(8)];
            writeln!(list, "limit {asked} {kind}s {limit}").unwrap();
            writeln!(expected, "limit {asked} {kind}s {limit}: {}", hall.set_limit(&asked, host, limit)).unwrap();
        }
    }
    for answer in [" set\n", " refused 1\n", " refused 2\n", " refused 3\n", " refused 15\n", " no such node\n"] {
        let times = expected.matches(answer).count();
        assert!(times >= 20, "{answer:?} is the answer {times} times: the lists are too much alike");
    }
    let rows: String = hall.nodes.keys().map(|address| hall.row(address)).collect();
    assert_eq!(traced(&(list + "tree\n")), expected + "tree\n" + &rows);
}

/// A list with settings gives the children that the same list without them gives, in its order, but for those at a limit.
#[test]
fn a_limited_hall_is_the_front_of_an_unlimited_one() {
    for (limit, given) in [(0, 0), (1, 1), (62, 62), (63, 63), (64, 63)] {
        let all = traced(&format!("limit 1 hosts {limit}\n{}", "host 1\n".repeat(65)));
        let answers: Vec<&str> = all.lines().skip(1).collect();
        let free = traced(&"host 1\n".repeat(given));
        assert!(answers[..given].iter().copied().eq(free.lines()));
        let refused = if limit == 64 { "host of 1: refused 3" } else { "host of 1: refused 15" };
        assert!(answers[given..].iter().all(|answer| *answer == refused), "under {limit}: {answers:?}");
    }
}

#[test]
fn text_that_is_none_of_the_commands() {
    for bad in [
        "routers 1",
        "Router 1",
        "router",
        "router ",
        "router  1",
        "router 1 ",
        " router 1",
        "router 1 1",
        "router 12",
        "router 0",
        "router 01",
        "router 0x1",
        "router 1\r",
        "host\t1",
        "send 1",
        "send 1 ",
        "send  1 1",
        "send 1 1 1",
        "send 1 0",
        "send 2 1",
        "limit 1",
        "limit 1 hosts",
        "limit 1 hosts ",
        "limit 1 host 5",
        "limit 1 routers 5 ",
        "limit 1 routers  5",
        "limit 1 routers 05",
        "limit 1 routers 00",
        "limit 1 routers x",
        "limit 1 routers 5x",
        "limit 1 routers -1",
        "limit 1 routers +1",
        "limit 1 routers 5 5",
        "limit 1 routers 18446744073709551616",
        "limit 01 routers 5",
        "limit 0 routers 5",
        "limit routers 1 5",
        "limits 1 routers 5",
        "tree ",
        "trees",
        " ",
        "\u{e9}",
        " # not at the front",
    ] {
        stops(&format!("{bad}\n"), 1, "");
        stops(&format!("router 1\n\n{bad}\nrouter 1\n"), 3, "router of 1: 10\n");
    }
    stops(&format!("router {}\n", "1".repeat(65)), 1, "");
    assert_eq!(traced(&format!("router {}\n", "1".repeat(64))), format!("router of {}: no such node\n", "1".repeat(64)));
}

/// Requests that grow a tree of so many nodes: each router is asked for seven routers and a host in turn. And the addresses to expect, in the
/// order in which they are given.
fn grown(nodes: usize) -> (String, Vec<String>) {
    let mut requests = String::new();
    let mut given = Vec::new();
    let mut routers = VecDeque::from(["1".to_string()]);
    while given.len() + 1 < nodes {
        let asked = routers.pop_front().unwrap();
        writeln!(requests, "host {asked}").unwrap();
        given.push(format!("{asked}1"));
        for k in 0..7 {
            writeln!(requests, "router {asked}").unwrap();
            let child = format!("{asked}{}0", "1".repeat(k));
            routers.push_back(child.clone());
            given.push(child);
        }
    }
    (requests, given)
}

#[test]
fn as_many_nodes_as_memory_holds() {
    let (requests, mut given) = grown(100_000);
    let answers = traced(&(requests + "tree\n"));
    let lines: Vec<&str> = answers.lines().collect();
    let answered = lines[..given.len()].iter().map(|line| line.rsplit(' ').next().unwrap());
    assert!(answered.eq(given.iter()));
    assert_eq!(lines[given.len()], "tree");
    given.push("1".to_string());
    given.sort();
    let rows = lines[given.len()..].iter().map(|row| row.trim_start().split(' ').next().unwrap());
    assert!(rows.eq(given.iter()));
}

/// Whoever types the lines sees each answer before the next line.
#[test]
fn an_answer_comes_before_the_next_line() {
    let mut child = hall(&["trace"]).spawn().unwrap();
    let mut input = child.stdin.take().unwrap();
    let mut output = BufReader::new(child.stdout.take().unwrap());
    for (line, expected) in [("router 1\n", "router of 1: 10\n"), ("send 10 1\n", "send 10 to 1: 10 1 delivered, 1 hop\n")] {
        input.write_all(line.as_bytes()).unwrap();
        let mut got = String::new();
        output.read_line(&mut got).unwrap();
        assert_eq!(got, expected);
    }
    drop(input);
    assert!(child.wait().unwrap().success());
}

/// The message shows the front of it alone.
#[test]
fn a_long_line_that_cannot_be_read() {
    let got = answer(&["trace"], &"x".repeat(1_000_000));
    assert_eq!(got.status.code(), Some(2));
    assert!(text(&got.stderr).len() < 400, "{} octets of message", got.stderr.len());
}

#[test]
fn a_closed_pipe_ends_it_quietly() {
    let (requests, _) = grown(100_000);
    let file = file("grown.txt", requests);
    let mut child = hall(&["trace".as_ref(), file.as_os_str()]).spawn().unwrap();
    let mut first = String::new();
    BufReader::new(child.stdout.take().unwrap()).read_line(&mut first).unwrap();
    assert_eq!(first, "host of 1: 11\n");
    let got = child.wait_with_output().unwrap();
    assert_eq!((text(&got.stderr), got.status.code()), ("", Some(0)));
}

const FIGURE_6_PLAN: &str = include_str!("figure-6.plan");

/// The tree of a plan, and that of its requests in the order of the plan, by `tree`.
#[test]
fn a_plan_for_a_start() {
    let plan = file("figure-6.plan", FIGURE_6_PLAN);
    let requests = FIGURE_6.lines().filter(|line| line.starts_with("router ") || line.starts_with("host ")).take(12);
    let grown = traced(&(requests.collect::<Vec<_>>().join("\n") + "\ntree\n"));
    let tree = grown.split_once("tree\n").unwrap().1;
    let got = answer(&["trace".as_ref(), "--plan".as_ref(), plan.as_os_str()], "tree\n");
    assert_eq!((text(&got.stdout), text(&got.stderr), got.status.code()), (format!("tree\n{tree}").as_str(), "", Some(0)));
}

#[test]
fn a_trace_goes_on_from_a_plan() {
    let plan = file("on.plan", "R(R(H)H)\n");
    let lines = "send 101 11\nhost 10\nrouter 1\nhost 1\nhost 11\nsend 1011 111\nsend 10 1110\n";
    let expected = "\
send 101 to 11: 101 10 1 11 delivered, 3 hops
host of 10: 1011
router of 1: 110
host of 1: 111
host of 11: refused 2
send 1011 to 111: 1011 10 1 111 delivered, 3 hops
send 10 to 1110: 10 1 refused 7, 1 hop
";
    let got = answer(&["trace".as_ref(), "--plan".as_ref(), plan.as_os_str()], lines);
    assert_eq!((text(&got.stdout), text(&got.stderr), got.status.code()), (expected, "", Some(0)));
    let got = answer(&["trace".as_ref(), "--plan".as_ref(), plan.as_os_str(), "-".as_ref()], lines);
    assert_eq!(text(&got.stdout), expected);
    let lines = file("on.txt", lines);
    let got = answer(&["trace".as_ref(), "--plan".as_ref(), "-".as_ref(), lines.as_os_str()], "R(R(H)H)");
    assert_eq!((text(&got.stdout), text(&got.stderr), got.status.code()), (expected, "", Some(0)));
}

#[test]
fn a_plan_of_4096_nodes_for_a_start() {
    let plan = file("4096.plan", most());
    let got = answer(&["trace".as_ref(), "--plan".as_ref(), plan.as_os_str()], "tree\n");
    let listed = answer(&["plan".as_ref(), plan.as_os_str()], "");
    let addresses = |shown: &str| -> Vec<String> {
        let mut addresses: Vec<String> = shown.lines().skip(1).map(|line| line.trim_start().split(' ').next().unwrap().into()).collect();
        addresses.sort();
        addresses
    };
    assert_eq!(addresses(text(&got.stdout)), addresses(text(&listed.stdout)));
    assert_eq!(addresses(text(&got.stdout)).len(), 4096);
}

#[test]
fn plans_that_cannot_be_read() {
    misuses("trace --plan", "a plan's file behind --plan");
    misuses("trace --plan one two three", "one file, or none for standard input");
    misuses("trace --plan -", "a file for the plan or for the trace");
    misuses("trace --plan - -", "a file for the plan or for the trace");
    let plan = file("alone.plan", "R()");
    for words in [["no/such/plan", "-"], [plan.to_str().unwrap(), "no/such/trace"]] {
        let got = answer(&["trace", "--plan", words[0], words[1]], "tree\n");
        assert_eq!((text(&got.stdout), got.status.code()), ("", Some(2)));
        assert!(text(&got.stderr).starts_with("hall: cannot read no/such/"), "{}", text(&got.stderr));
    }
}
