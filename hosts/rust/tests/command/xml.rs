//! A small reader of XML: it panics where a document is not well-formed. What `hall` has no need of (comments, other sections, other
//! declarations) it doesn't know.

/// An element: its name, its attributes, and what it holds.
pub struct Element {
    pub name: String,
    pub attributes: Vec<(String, String)>,
    pub children: Vec<Element>,
    pub text: String,
}

impl Element {
    pub fn attribute(&self, name: &str) -> Option<&str> {
        self.attributes.iter().find(|attribute| attribute.0 == name).map(|attribute| attribute.1.as_str())
    }

    /// A number among the attributes.
    pub fn number(&self, name: &str) -> usize {
        let value = self.attribute(name).unwrap_or_else(|| panic!("a {} without {name}", self.name));
        value.parse().unwrap_or_else(|_| panic!("{name} of a {} is no number: {value}", self.name))
    }

    /// The element and all that is in it.
    pub fn all(&self) -> Vec<&Element> {
        let mut all = vec![self];
        all.extend(self.children.iter().flat_map(Element::all));
        all
    }

    pub fn named(&self, name: &str) -> Vec<&Element> {
        self.all().into_iter().filter(|element| element.name == name).collect()
    }

    /// Its text with that of the elements in it.
    pub fn whole_text(&self) -> String {
        self.all().iter().map(|element| element.text.as_str()).collect()
    }
}

struct Reader<'a> {
    rest: &'a str,
}

impl<'a> Reader<'a> {
    fn expect(&mut self, text: &str) {
        let rest = self.rest.strip_prefix(text);
        self.rest = rest.unwrap_or_else(|| panic!("expected {text} at {:.60}", self.rest));
    }

    fn is_at(&self, text: &str) -> bool {
        self.rest.starts_with(text)
    }

    /// What stands before a letter for which this holds.
    fn until(&mut self, ends: impl Fn(char) -> bool) -> &'a str {
        let end = self.rest.find(ends).expect("the document ends early");
        let (front, rest) = self.rest.split_at(end);
        self.rest = rest;
        front
    }

    fn name(&mut self) -> String {
        let name = self.until(|letter| !letter.is_ascii_alphanumeric() && letter != '-');
        assert!(name.starts_with(|letter: char| letter.is_ascii_alphabetic()), "'{name}' is no name");
        name.to_string()
    }

    fn spaces(&mut self) {
        self.rest = self.rest.trim_start();
    }

    fn attributes(&mut self) -> Vec<(String, String)> {
        let mut attributes: Vec<(String, String)> = Vec::new();
        while self.is_at(" ") {
            self.spaces();
            let name = self.name();
            self.expect("=\"");
            let value = self.until(|letter| "\"<&".contains(letter)).to_string();
            self.expect("\"");
            assert!(attributes.iter().all(|other| other.0 != name), "{name} twice");
            attributes.push((name, value));
        }
        attributes
    }

    fn element(&mut self) -> Element {
        self.expect("<");
        let name = self.name();
        let mut element = Element { name, attributes: self.attributes(), children: Vec::new(), text: String::new() };
        if self.is_at("/>") {
            self.expect("/>");
            return element;
        }
        self.expect(">");
        loop {
            let text = self.until(|letter| "<&".contains(letter));
            assert!(!text.contains("]]>"), "]]> in a text");
            element.text.push_str(text);
            if self.is_at("</") {
                break;
            }
            element.children.push(self.element());
        }
        self.expect("</");
        self.expect(&element.name);
        self.expect(">");
        element
    }
}

/// The element of a document.
pub fn read(document: &str) -> Element {
    let mut reader = Reader { rest: document };
    reader.expect("<?xml version=\"1.0\" encoding=\"UTF-8\"?>");
    reader.spaces();
    let element = reader.element();
    reader.spaces();
    assert_eq!(reader.rest, "", "behind the document's element");
    element
}
