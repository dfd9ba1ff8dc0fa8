use crate::{answer, file, misuses, text, REFUSED_13, REFUSED_14, REFUSED_3};

/// What `hall plan -` lists of a text that is read.
fn listed(plan: &[u8]) -> String {
    let got = answer(&["plan", "-"], plan);
    assert_eq!((text(&got.stderr), got.status.code()), ("", Some(0)), "for {plan:?}");
    text(&got.stdout).to_string()
}

/// A plan is refused by each command that reads one, in the same words and with nothing on standard output.
fn refused(plan: &[u8]) -> String {
    let trace = file("a-trace-that-is-not-reached.txt", "tree\n");
    let commands: [&[&str]; 3] = [&["plan", "-"], &["draw", "-"], &["trace", "--plan", "-", trace.to_str().unwrap()]];
    let said = commands.map(|words| {
        let got = answer(words, plan);
        assert_eq!((text(&got.stdout), got.status.code()), ("", Some(1)), "hall {words:?} for {plan:?}");
        text(&got.stderr).to_string()
    });
    assert_eq!((&said[1], &said[2]), (&said[0], &said[0]));
    said[0].clone()
}

/// Outside the grammar: the lines behind the refusal are these.
fn faulty(plan: &[u8], expected: &str) {
    assert_eq!(refused(plan), format!("{REFUSED_13}\n{expected}\n"), "for {plan:?}");
}

/// A root with so many routers, each with as many routers with as many hosts as the second number says.
fn three_levels(routers: usize, each: usize) -> String {
    let inner = format!("R({})", "H".repeat(each)).repeat(each);
    format!("R({})", format!("R({inner})").repeat(routers))
}

/// A plan of 4,096 nodes: a root with 15 routers, each with 16 routers of 16 hosts.
pub fn most() -> String {
    three_levels(15, 16)
}

#[test]
fn lists_the_nodes() {
    let example = "nodes 4\n1   root   depth 0\n10  router depth 1\n101 host   depth 2\n11  host   depth 1\n";
    assert_eq!(listed(b"R(R(H)H)\n"), example);
    assert_eq!(listed(b"R(R(H)H)"), example);
    assert_eq!(listed(b"R()"), "nodes 1\n1 root   depth 0\n");
    let got = answer(&["plan".as_ref(), file("example.plan", "R(R(H)H)\n").as_os_str()], "");
    assert_eq!((text(&got.stdout), text(&got.stderr), got.status.code()), (example, "", Some(0)));
}

#[test]
fn lists_as_many_as_a_plan_may_have() {
    let list = listed(most().as_bytes());
    let lines: Vec<&str> = list.lines().collect();
    assert_eq!((lines[0], lines.len()), ("nodes 4096", 4097));
    let last = ["1", "111111111111110", "1111111111111110", "1111111111111111"].concat();
    assert_eq!(lines[4096], format!("{last} host   depth 3"));
    assert!(lines[1..].iter().all(|line| line.len() == lines[4096].len()), "the columns are not aligned:\n{list}");
    // the most before request Six, and one more
    let before = three_levels(7, 8);
    let list = listed(before.as_bytes());
    assert!(list.starts_with("nodes 512\n") && list.ends_with("\n111111101111111011111111 host   depth 3\n"), "{list}");
    let more = before.replacen("R(R(", "R(HR(", 1);
    assert!(listed(more.as_bytes()).starts_with("nodes 513\n"));
    let deepest = listed(["R(".repeat(64), ")".repeat(64)].concat().as_bytes());
    assert_eq!(deepest.lines().last(), Some(format!("1{} router depth 63", "0".repeat(63)).as_str()));
}

#[test]
fn each_refusal() {
    assert_eq!(refused(&[b'x'; 32_769]), format!("{REFUSED_14}\n"));
    assert_eq!(refused(most().replacen("R(R(", "R(HR(", 1).as_bytes()), format!("{REFUSED_14}\n"));
    assert_eq!(refused(format!("R({})", "H".repeat(64)).as_bytes()), format!("{REFUSED_3}\n"));
    faulty(b"R(R(H)h)", "at place 6, found 'h'\nR(R(H)h)\n      ^");
    faulty(b"", "at place 0, where it ends\n\n^");
    faulty(b"H", "at place 0, found 'H'\nH\n^");
    faulty(b"R(H))", "at place 4, found ')'\nR(H))\n    ^");
    faulty(b"R(H )", "at place 3, found ' '\nR(H )\n   ^");
    faulty(b"R(H", "at place 3, where it ends\nR(H\n   ^");
}

#[test]
fn one_newline_ends_a_file() {
    faulty(b"\n", "at place 0, where it ends\n\n^");
    faulty(b"R(H\n", "at place 3, where it ends\nR(H\n   ^");
    faulty(b"R()\n\n", "at place 3, found byte 0x0a\nR()\n   ^");
    faulty(b"R()\r\n", "at place 3, found byte 0x0d\nR()?\n   ^");
    faulty(b"R(\nH)\n", "at place 2, found byte 0x0a\nR(\n  ^");
    faulty(b"R(R()xH\nH)\n", "at place 5, found 'x'\nR(R()xH\n     ^");
}

#[test]
fn bytes_without_a_sign_take_a_column_each() {
    faulty(b"R(\tH)", "at place 2, found byte 0x09\nR(?H)\n  ^");
    faulty(b"R(H\0\xff\x7f)", "at place 3, found byte 0x00\nR(H???)\n   ^");
    faulty("R(é)".as_bytes(), "at place 2, found byte 0xc3\nR(??)\n  ^");
    faulty("R(xé\u{1b}[2J)".as_bytes(), "at place 2, found 'x'\nR(x???[2J)\n  ^");
}

/// A text of any length with one wrong byte: what is shown of it fits on a line, and the mark is under that byte.
#[test]
fn the_mark_is_under_the_place() {
    for length in [20, 75, 76, 77, 78, 79, 200, 32_768] {
        for place in (2..length).filter(|place| *place < 90 || length - place < 90) {
            let mut plan = format!("R({}", "H".repeat(length - 2)).into_bytes();
            plan[place] = b'x';
            let said = if place == 30 { refused(&plan) } else { text(&answer(&["plan", "-"], &plan).stderr).to_string() };
            let [_, at, shown, mark] = said.lines().collect::<Vec<_>>()[..] else { panic!("{said}") };
            assert_eq!(at, format!("at place {place}, found 'x'"));
            assert_eq!(shown.find('x').map(|column| " ".repeat(column) + "^").as_deref(), Some(mark), "{said}");
            assert!(shown.len() <= 76 && shown.len() == length.min(76), "{said}");
            assert_eq!(shown.contains(".."), length > 76, "{said}");
        }
    }
    let long = format!("R({}", "H".repeat(32_766));
    faulty(long.as_bytes(), &format!("at place 32768, where it ends\n..{}\n{}^", "H".repeat(74), " ".repeat(76)));
}

/// No more is read than shows that there is too much.
#[cfg(target_os = "linux")]
#[test]
fn a_file_without_end() {
    for words in [["plan", "/dev/zero"], ["draw", "/dev/zero"]] {
        let got = answer(&words, "");
        assert_eq!((text(&got.stdout), text(&got.stderr), got.status.code()), ("", format!("{REFUSED_14}\n").as_str(), Some(1)));
    }
}

/// A file of 32,768 bytes with a newline behind them is judged as its text, and one byte more is too much, whatever it is.
#[test]
fn files_about_the_limit() {
    let nonsense = |count| vec![b'x'; count];
    let judged = refused(&nonsense(32_768));
    assert!(judged.starts_with(REFUSED_13), "{judged}");
    assert_eq!(refused(&[nonsense(32_768), b"\n".to_vec()].concat()), judged);
    for behind in [b"x".to_vec(), b"\n\n".to_vec(), b"x\n".to_vec(), b"x\nx".to_vec(), b"\nx\n".to_vec()] {
        assert_eq!(refused(&[nonsense(32_768), behind].concat()), format!("{REFUSED_14}\n"));
    }
}

#[test]
fn files_that_cannot_be_read() {
    for command in ["plan", "draw"] {
        for name in ["no/such/file", env!("CARGO_MANIFEST_DIR")] {
            let got = answer(&[command, name], "");
            assert_eq!((text(&got.stdout), got.status.code()), ("", Some(2)));
            assert!(text(&got.stderr).starts_with(&format!("hall: cannot read {name}: ")), "{}", text(&got.stderr));
        }
        misuses(command, "one file, or - for standard input");
        misuses(&format!("{command} one two"), "one file, or - for standard input");
    }
}
