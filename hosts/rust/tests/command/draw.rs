use crate::plan::most;
use crate::xml::{self, Element};
use crate::{answer, file, text};
use std::collections::HashMap;

fn drawn(plan: &str) -> String {
    let got = answer(&["draw", "-"], plan);
    assert_eq!((text(&got.stderr), got.status.code()), ("", Some(0)), "for {plan}");
    text(&got.stdout).to_string()
}

/// A root with 62 routers and 62 hosts, and 63 groups one in the other with hosts beside them.
fn broad_and_deep() -> [String; 2] {
    let broad = format!("R({})", "R()H".repeat(62));
    let deep = format!("{}R(){}", "R(H".repeat(62), ")".repeat(62));
    [broad, deep]
}

/// The nodes of a picture: each is a group that begins with its title.
fn nodes(picture: &Element) -> impl Iterator<Item = &Element> {
    picture.children.iter().filter(|element| element.children.first().is_some_and(|child| child.name == "title"))
}

/// What is under the pointer at each node.
fn titles(picture: &Element) -> Vec<String> {
    nodes(picture).map(|node| node.children[0].text.clone()).collect()
}

#[test]
fn the_example() {
    let picture = xml::read(&drawn("R(R(H)H)\n"));
    assert_eq!(
        titles(&picture),
        ["1: root, depth 0, parent none", "10: router, depth 1, parent 1", "101: host, depth 2, parent 10", "11: host, depth 1, parent 1"]
    );
    let shown: Vec<String> = picture.named("text").iter().map(|text| text.whole_text()).collect();
    for expected in
        ["Hall of 4 nodes", "the root, 1 router and 2 hosts, down to depth 2", "root", "router", "host", "depth", "1", "10", "101"]
    {
        assert!(shown.iter().any(|text| text == expected), "no '{expected}' in {shown:?}");
    }
    // each kind has a sign of its own, once more in the legend; the ground is a rectangle too, and so is that of each level's number
    assert_eq!(picture.named("circle").len(), 2 + 1);
    assert_eq!(picture.named("rect").len(), 1 + 1 + 1 + 3);
    let diamonds = picture.named("path").iter().filter(|path| path.attribute("d").unwrap().ends_with('Z')).count();
    assert_eq!(diamonds, 1 + 1);
    // a link for each node but the root, and a line for each level
    assert_eq!(picture.named("path").len() - diamonds, 3 + 3);
}

#[test]
fn every_node_has_a_title_and_its_address() {
    let [broad, deep] = broad_and_deep();
    for (plan, count) in [("R()", 1), (&most(), 4096), (&broad, 125), (&deep, 125)] {
        let picture = xml::read(&drawn(plan));
        let listed = answer(&["plan", "-"], plan);
        let addresses: Vec<&str> = text(&listed.stdout).lines().skip(1).map(|line| line.split(' ').next().unwrap()).collect();
        let titles = titles(&picture);
        assert_eq!((titles.len(), picture.named("title").len()), (count, count + 1));
        let of_titles = titles.iter().map(|title| title.split(':').next().unwrap());
        assert!(of_titles.eq(addresses.iter().copied()), "{titles:?}");
        assert!(nodes(&picture).map(|node| node.named("text")[0].whole_text()).eq(addresses.iter().copied()));
    }
}

/// A text's left and right ends, if its letters are not wider than those of the usual fonts, and its baseline.
fn extent(text: &Element, anchor: Option<&str>) -> (usize, usize, usize) {
    let (x, y) = (text.number("x"), text.number("y"));
    let size = text.attribute("font-size").map_or(13, |size| size.parse().unwrap());
    let width = (text.whole_text().len() * size * 61).div_ceil(100);
    match text.attribute("text-anchor").or(anchor) {
        Some("middle") => (x - width / 2, x + width / 2, y),
        _ => (x, x + width, y),
    }
}

/// Every text of a picture with its extent.
fn texts(picture: &Element) -> Vec<(usize, usize, usize)> {
    let in_groups = picture.children.iter().flat_map(|group| {
        let anchor = group.attribute("text-anchor");
        group.named("text").into_iter().map(move |text| extent(text, anchor))
    });
    in_groups.collect()
}

#[test]
fn no_text_meets_another_or_the_edge() {
    let [broad, deep] = broad_and_deep();
    for plan in ["R()", "R(R(H)H)", &most(), &broad, &deep] {
        let picture = xml::read(&drawn(plan));
        let (width, height) = (picture.number("width"), picture.number("height"));
        assert_eq!(picture.attribute("viewBox"), Some(format!("0 0 {width} {height}").as_str()));
        let mut texts = texts(&picture);
        texts.sort_by_key(|text| text.2);
        for (i, (left, right, y)) in texts.iter().enumerate() {
            assert!(*right <= width && *y + 4 <= height, "a text at {left}, {y} leaves the picture of {plan}");
            for (other_left, other_right, _) in texts[i + 1..].iter().take_while(|other| other.2 < y + 13) {
                assert!(right <= other_left || other_right <= left, "texts meet at {left}, {y} in the picture of {plan}");
            }
        }
    }
}

/// The lines down a picture, by their column and their ends: those of the levels, and those of the links, which turn off.
fn lines_down(picture: &Element) -> [Vec<(usize, usize, usize)>; 2] {
    let mut lines = [Vec::new(), Vec::new()];
    for path in picture.named("path") {
        let whole = path.attribute("d").unwrap();
        let (line, turn) = whole.split_once('q').unwrap_or((whole, ""));
        if let [x, top, bottom] = line[1..].split([' ', 'V']).map(|number| number.parse().ok()).collect::<Vec<_>>()[..] {
            lines[usize::from(!turn.is_empty())].push((x.unwrap(), top.unwrap(), bottom.unwrap()));
        }
    }
    lines
}

/// So a browser draws each once, and of the tallest picture no more than it shows.
#[test]
fn no_line_lies_on_another() {
    let [broad, deep] = broad_and_deep();
    for (plan, count, levels, blocks) in [("R()", 1, 1, 1), (&most(), 4096, 4, 128), (&broad, 125, 2, 4), (&deep, 125, 63, 4)] {
        let [mut of_levels, mut links] = lines_down(&xml::read(&drawn(plan)));
        assert_eq!((of_levels.len(), links.len()), (levels * blocks, count - 1), "in the picture of {plan}");
        for lines in [&mut of_levels, &mut links] {
            lines.sort();
            let meet = lines.windows(2).any(|pair| pair[0].0 == pair[1].0 && pair[0].2 > pair[1].1);
            assert!(!meet, "a line lies on another in the picture of {plan}");
        }
        assert!(of_levels.iter().all(|(_, top, bottom)| bottom - top <= 660), "a level's line is long in the picture of {plan}");
    }
}

/// The middle of a node's sign.
fn middle(node: &Element) -> (usize, usize) {
    let sign = &node.children[1];
    match sign.name.as_str() {
        "circle" => (sign.number("cx"), sign.number("cy")),
        "rect" => (sign.number("x") + sign.number("width") / 2, sign.number("y") + sign.number("height") / 2),
        _ => match numbers(sign.attribute("d").unwrap())[..] {
            [_, y, x, ..] => (x, y),
            _ => panic!("a sign without places"),
        },
    }
}

/// The numbers of a path.
fn numbers(path: &str) -> Vec<usize> {
    path.split(|letter: char| !letter.is_ascii_digit()).filter_map(|number| number.parse().ok()).collect()
}

/// Each begins at the parent's sign, or where the link to the child before turns off, and ends at the node's own.
#[test]
fn every_link_joins_a_node_with_its_parent() {
    let [broad, deep] = broad_and_deep();
    for plan in ["R(R(H)H)", &most(), &broad, &deep] {
        let picture = xml::read(&drawn(plan));
        let paths = picture.named("path").into_iter().map(|path| path.attribute("d").unwrap());
        let links: Vec<Vec<usize>> = paths.filter(|path| path.contains('q')).map(numbers).collect();
        let mut nodes = nodes(&picture);
        let mut begins = HashMap::from([("1".to_string(), middle(nodes.next().unwrap()))]);
        let mut joined = 0;
        for (node, link) in nodes.zip(&links) {
            let title = node.children[0].text.clone();
            let (address, parent) = (title.split(':').next().unwrap(), title.rsplit(' ').next().unwrap());
            let [x, from, turn, _, across, right, down, to_x] = link[..] else { panic!("a link of other parts: {link:?}") };
            assert_eq!((x, from), begins[parent], "the link to {address} begins elsewhere");
            assert_eq!((to_x, turn + down), middle(node), "the link to {address} ends elsewhere");
            assert!(from <= turn && across == down && x + right <= to_x, "the link to {address}: {link:?}");
            begins.insert(parent.to_string(), (x, turn));
            begins.insert(address.to_string(), middle(node));
            joined += 1;
        }
        assert_eq!((joined, links.len()), (titles(&picture).len() - 1, joined), "in the picture of {plan}");
    }
}

#[test]
fn a_picture_needs_nothing_else() {
    let picture = drawn(&most());
    let without_namespace = picture.replacen("http://www.w3.org/2000/svg", "", 1);
    for word in ["script", "href", "url(", "http", "style", "<image", "<!"] {
        assert!(!without_namespace.contains(word), "{word} in the picture");
    }
}

#[test]
fn a_picture_is_the_same_each_time() {
    let plan = most();
    let first = drawn(&plan);
    assert_eq!(drawn(&plan), first);
    assert_eq!(drawn(&(plan.clone() + "\n")), first);
    let got = answer(&["draw".as_ref(), file("most.plan", &plan).as_os_str()], "");
    assert_eq!(text(&got.stdout), first);
}
