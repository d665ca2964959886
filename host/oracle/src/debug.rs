//! Reads the text of a derived `Debug` as a tree, and so the private fields of the Rust's structs.
//!
//! `Debug` prints a float in the shortest form that reads back the same, so no bit of a number is lost; of a NaN only
//! that it is one.

/// The text of a derived `Debug` of structs with named fields, arrays and numbers.
#[derive(Debug, PartialEq)]
pub enum Tree<'a> {
    Leaf(&'a str),
    List(Vec<Tree<'a>>),
    Fields(Vec<(&'a str, Tree<'a>)>),
}

impl<'a> Tree<'a> {
    /// Reads the whole text, and panics where it is not of the form.
    pub fn read(text: &'a str) -> Self {
        let mut rest = text;
        let tree = value(&mut rest);
        assert!(rest.is_empty(), "left over in a Debug text: {rest}");
        tree
    }

    /// The field of that name, and panics where there is none.
    pub fn field(&self, name: &str) -> &Self {
        let Tree::Fields(fields) = self else { panic!("no field {name}: not a struct") };
        match fields.iter().find(|(field, _)| *field == name) {
            Some((_, tree)) => tree,
            None => panic!("no field {name}"),
        }
    }

    /// The elements of an array, and panics where it is none.
    pub fn items(&self) -> &[Self] {
        match self {
            Tree::List(items) => items,
            _ => panic!("not an array"),
        }
    }

    /// The number as an f32, and panics where it is none.
    pub fn float(&self) -> f32 {
        self.number("an f32")
    }

    /// The number as a usize, and panics where it is none.
    pub fn index(&self) -> usize {
        self.number("a usize")
    }

    /// The elements of an array of f32.
    pub fn floats(&self) -> Vec<f32> {
        self.items().iter().map(Tree::float).collect()
    }

    fn number<T: std::str::FromStr>(&self, kind: &str) -> T {
        match self {
            Tree::Leaf(text) => text.parse().unwrap_or_else(|_| panic!("not {kind}: {text}")),
            _ => panic!("not {kind} but a struct or an array"),
        }
    }
}

fn value<'a>(rest: &mut &'a str) -> Tree<'a> {
    if take(rest, "[") {
        return Tree::List(sequence(rest, "]", value));
    }
    let leaf = leaf(rest);
    if take(rest, " {") {
        return Tree::Fields(sequence(rest, "}", named));
    }
    Tree::Leaf(leaf)
}

fn named<'a>(rest: &mut &'a str) -> (&'a str, Tree<'a>) {
    let name = leaf(rest);
    assert!(take(rest, ": "), "no value of the field {name}");
    (name, value(rest))
}

fn sequence<'a, T>(rest: &mut &'a str, end: &str, item: fn(&mut &'a str) -> T) -> Vec<T> {
    let mut items = Vec::new();
    loop {
        *rest = rest.trim_start_matches([',', ' ']);
        if take(rest, end) {
            return items;
        }
        items.push(item(rest));
    }
}

/// The text up to the next mark, and panics where it is empty.
fn leaf<'a>(rest: &mut &'a str) -> &'a str {
    let end = rest.find([',', ' ', ':', ']', '}']).unwrap_or(rest.len());
    assert!(end > 0, "nothing to read in a Debug text at: {rest}");
    let (leaf, after) = rest.split_at(end);
    *rest = after;
    leaf
}

fn take(rest: &mut &str, mark: &str) -> bool {
    match rest.strip_prefix(mark) {
        Some(after) => {
            *rest = after;
            true
        }
        None => false,
    }
}
