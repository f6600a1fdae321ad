//! A small reader of pages: every element is closed in its turn, and nothing stands there that a page isn't to have.

/// An element: its name, its attributes and the text within it, that of its parts included.
#[derive(Clone, Debug)]
pub struct Element {
    pub name: String,
    pub attributes: Vec<(String, String)>,
    pub text: String,
    /// The number of elements around it.
    pub depth: usize,
}

impl Element {
    pub fn attribute(&self, name: &str) -> Option<&str> {
        self.attributes.iter().find(|(other, _)| other == name).map(|(_, value)| value.as_str())
    }
}

const WITHOUT_END: [&str; 1] = ["meta"];
const ELEMENTS: [&str; 35] = [
    "html", "head", "meta", "title", "style", "body", "main", "header", "section", "h1", "h2", "p", "b",
    "bdi", "strong", "span", "small", "div", "dl", "dt", "dd", "ul", "li", "table", "caption", "thead",
    "tbody", "tfoot", "tr", "th", "td", "pre", "code", "em", "abbr",
];
const ATTRIBUTES: [&str; 10] =
    ["lang", "charset", "name", "content", "class", "style", "scope", "tabindex", "role", "aria-label"];
const ENTITIES: [(&str, char); 5] =
    [("&amp;", '&'), ("&lt;", '<'), ("&gt;", '>'), ("&quot;", '"'), ("&#39;", '\'')];

/// The elements of a page in the order of their starts.
pub fn elements(page: &str) -> Vec<Element> {
    let mut rest = page.strip_prefix("<!DOCTYPE html>\n").expect("the page begins with its type");
    let (mut elements, mut open): (Vec<Element>, Vec<usize>) = (Vec::new(), Vec::new());
    while let Some(start) = rest.find('<') {
        let text = unescaped(&rest[..start]);
        open.iter().for_each(|&element| elements[element].text += &text);
        let (tag, after) = rest[start + 1..].split_once('>').expect("a tag has an end");
        rest = after;
        if let Some(name) = tag.strip_prefix('/') {
            let last = open.pop().unwrap_or_else(|| panic!("nothing is open at </{name}>"));
            assert_eq!(elements[last].name, name, "an element is closed in its turn");
            continue;
        }
        let element = Element { depth: open.len(), ..start_of(tag) };
        if !WITHOUT_END.contains(&element.name.as_str()) {
            open.push(elements.len());
        }
        elements.push(element);
    }
    assert!(open.is_empty() && rest.trim().is_empty(), "something is left open: {rest}");
    elements
}

/// The element that a tag starts.
fn start_of(tag: &str) -> Element {
    let (name, mut rest) = tag.split_once(' ').unwrap_or((tag, ""));
    assert!(ELEMENTS.contains(&name), "<{tag}>");
    let mut attributes = Vec::new();
    while !rest.is_empty() {
        let (name, after) = rest.trim_start().split_once("=\"").expect("an attribute has a quoted value");
        let (value, after) = after.split_once('"').expect("a value has an end");
        assert!(ATTRIBUTES.contains(&name), "<{tag}>");
        attributes.push((name.to_string(), unescaped(value)));
        rest = after;
    }
    Element { name: name.to_string(), attributes, text: String::new(), depth: 0 }
}

/// Text without its escapes, of which there are five.
fn unescaped(text: &str) -> String {
    let mut parts = text.split('&');
    let mut plain = parts.next().unwrap_or_default().to_string();
    for part in parts {
        let part = format!("&{part}");
        let (entity, character) =
            ENTITIES.iter().find(|(entity, _)| part.starts_with(entity)).unwrap_or_else(|| panic!("{part}"));
        plain.push(*character);
        plain += &part[entity.len()..];
    }
    assert!(!text.contains(['>', '\u{0}']), "{text}");
    plain
}

/// The elements of a name.
pub fn named<'page>(elements: &'page [Element], name: &str) -> Vec<&'page Element> {
    elements.iter().filter(|element| element.name == name).collect()
}

/// The rows of the table of a class, each as the text of its cells.
pub fn rows(elements: &[Element], class: &str) -> Vec<Vec<String>> {
    let is_table = |element: &&Element| element.name == "table" && element.attribute("class") == Some(class);
    let Some(at) = elements.iter().position(|element| is_table(&element)) else { return Vec::new() };
    let depth = elements[at].depth;
    let mut rows: Vec<Vec<String>> = Vec::new();
    for element in elements[at + 1..].iter().take_while(|element| element.depth > depth) {
        match element.name.as_str() {
            "tr" => rows.push(Vec::new()),
            "th" | "td" => rows.last_mut().expect("a cell is in a row").push(element.text.clone()),
            _ => {}
        }
    }
    rows
}

/// What holds of every page.
pub fn assert_sound(page: &str) -> Vec<Element> {
    let elements = elements(page);
    for part in ["http", "//", "url(", "@import", "<script", "javascript"] {
        assert!(!page.contains(part), "the page has {part}");
    }
    let count = |name: &str| named(&elements, name).len();
    assert_eq!(named(&elements, "html")[0].attribute("lang"), Some("en"));
    assert_eq!((count("title"), count("h1"), count("main")), (1, 1, 1));
    assert_eq!(count("table"), count("caption"));
    for head in named(&elements, "th") {
        assert!(matches!(head.attribute("scope"), Some("col" | "row")), "{head:?}");
    }
    for bar in elements.iter().filter_map(|element| element.attribute("style")) {
        let width = bar.strip_prefix("width:").and_then(|width| width.strip_suffix('%'));
        let width: f64 = width.expect("a width").parse().expect("a number");
        assert!((0.0..=100.0).contains(&width), "{bar}");
    }
    elements
}
