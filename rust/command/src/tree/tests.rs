use super::*;
use comparison::made_up;
use comparison::random::Random;
use comparison::worked::from_hex;
use std::collections::BTreeSet;
use std::collections::VecDeque;

fn leaf(number: u8) -> Rc<Tree> {
    Rc::new(Tree::Name(number))
}

fn text(tree: &Tree) -> String {
    tree.text(&Names::default())
}

/// The text of a sheet's last record.
#[track_caller]
fn assert_last(hex: &str, expected: &str) {
    let sheet = from_hex(hex);
    let trees = trees(&sheet);
    assert_eq!(trees.len(), records(&sheet).count(), "{hex}");
    assert_eq!(text(trees.last().expect("a record")), expected);
}

#[test]
fn each_kind_of_record() {
    assert_last("01", "everything");
    assert_last("02", "nothing");
    assert_last("03 0B", "t11");
    assert_last("03 00 04 00", "not t0");
    assert_last("03 00 03 01 05 00 01", "t0 and t1");
    assert_last("03 00 03 01 06 00 01", "t0 or t1");
    assert_last("03 00 10 00 07 01 00", "some k0 . t0");
    assert_last("02 11 00 08 01 00", "only k0 reversed . nothing");
    assert_last("10 03", "k3");
    assert_last("11 03", "k3 reversed");
    assert_last("11 03 12 00", "not k3 reversed");
    assert_last("10 00 11 01 13 00 01", "k0 and k1 reversed");
    assert_last("10 00 11 01 14 00 01", "k0 or k1 reversed");
    assert_last("03 00 01 20 00 01", "every t0 is everything");
    assert_last("10 00 10 01 21 00 01", "k0 within k1");
    assert_last("10 00 11 00 21 01 00", "k0 reversed within k0");
    assert_last("10 00 10 01 12 01 21 00 02", "k0 within not k1");
    let sheet = "10 00 10 01 11 02 12 01 13 00 03 14 02 01 21 04 05";
    assert_last(sheet, "(k0 and not k1) within (k2 reversed or k1)");
    let sheet = "10 00 10 01 12 01 13 00 02 03 00 03 01 04 05 05 04 06 07 03 07 20 04 08";
    let expected = "every t0 is some (k0 and not k1) . (t0 and not t1)";
    assert_last(sheet, expected);
}

#[test]
fn trees_go_as_far_as_they_can() {
    for (hex, count) in [
        ("", 0),
        ("01 09 01", 1),
        ("01 03", 1),
        ("01 04 01 02", 1),
        ("01 05 00 01 02", 1),
        ("01 02 20 01", 2),
        ("10 00 21 00 01 01", 1),
    ] {
        assert_eq!(trees(&from_hex(hex)).len(), count, "{hex}");
    }
}

type Make = fn(Rc<Tree>) -> Tree;

/// Operators with one place for an operand, and their text around it.
const OPERATORS: [(&str, Make, &str); 9] = [
    ("not ", Tree::Not, ""),
    ("", |c| Tree::And(c, leaf(8)), " and t8"),
    ("t8 and ", |c| Tree::And(leaf(8), c), ""),
    ("", |c| Tree::Or(c, leaf(8)), " or t8"),
    ("t8 or ", |c| Tree::Or(leaf(8), c), ""),
    (
        "some k0 . ",
        |c| Tree::Exists(Rc::new(Tree::Role(0)), c),
        "",
    ),
    (
        "only k0 . ",
        |c| Tree::Forall(Rc::new(Tree::Role(0)), c),
        "",
    ),
    ("some ", |u| Tree::Exists(u, leaf(8)), " . t8"),
    ("only ", |u| Tree::Forall(u, leaf(8)), " . t8"),
];

/// For each operator, those around whose text its operand needs no parentheses;
/// operators by their places in [`OPERATORS`].
const BARE: [&[usize]; 9] = [
    &[0, 5, 6, 7, 8],
    &[0, 1, 2, 5, 6, 7, 8],
    &[0, 5, 6, 7, 8],
    &[0, 1, 2, 3, 4, 5, 6, 7, 8],
    &[0, 1, 2, 5, 6, 7, 8],
    &[0, 5, 6, 7, 8],
    &[0, 5, 6, 7, 8],
    &[0, 5, 6, 7, 8],
    &[0, 5, 6, 7, 8],
];

#[test]
fn parentheses_stand_where_they_are_needed_and_nowhere_else() {
    for ((before, make, after), bare) in OPERATORS.into_iter().zip(BARE) {
        assert_eq!(text(&make(leaf(0))), format!("{before}t0{after}"));
        for (inner, (inner_before, inner_make, inner_after)) in OPERATORS.into_iter().enumerate() {
            let operand = format!("{inner_before}t0{inner_after}");
            let expected = match bare.contains(&inner) {
                true => format!("{before}{operand}{after}"),
                false => format!("{before}({operand}){after}"),
            };
            let tree = make(Rc::new(inner_make(leaf(0))));
            assert_eq!(text(&tree), expected);
            assert_eq!(parse(&text(&tree), &Names::default()), tree);
        }
        let sides = Tree::Axiom(Rc::new(make(leaf(0))), Rc::new(make(leaf(1))));
        let expected = format!("every {before}t0{after} is {before}t1{after}");
        assert_eq!(text(&sides), expected);
    }
}

#[test]
fn the_normal_form_of_each_operator() {
    let normal = |hex: &str, negated| {
        let trees = trees(&from_hex(hex));
        text(&trees.last().expect("a record").normal(negated))
    };
    let rows = [
        ("01", "everything", "nothing"),
        ("02", "nothing", "everything"),
        ("03 00", "t0", "not t0"),
        ("03 00 04 00", "not t0", "t0"),
        ("03 00 04 00 04 01", "t0", "not t0"),
        (
            "03 00 01 05 00 01",
            "t0 and everything",
            "not t0 or nothing",
        ),
        (
            "03 00 02 06 00 01",
            "t0 or nothing",
            "not t0 and everything",
        ),
        ("03 00 10 00 07 01 00", "some k0 . t0", "only k0 . not t0"),
        ("03 00 10 00 08 01 00", "only k0 . t0", "some k0 . not t0"),
        (
            "03 00 04 00 10 00 12 02 12 03 07 04 01",
            "some not not k0 . not t0",
            "only not not k0 . t0",
        ),
    ];
    for (hex, plain, negated) in rows {
        assert_eq!(normal(hex, false), plain);
        assert_eq!(normal(hex, true), negated);
    }
}

#[test]
fn a_tree_as_deep_as_a_sheet_has_records() {
    let mut sheet = vec![0x03, 0];
    (0..254).for_each(|record| sheet.extend([0x04, record]));
    let trees = trees(&sheet);
    assert_eq!(trees.len(), 255);
    assert_eq!(text(&trees[254]), format!("{}t0", "not ".repeat(254)));
    assert_eq!(text(&trees[254].normal(true)), "not t0");
}

#[test]
fn made_up_sheets_are_read_back_from_their_text() {
    let names = "t0 = reheat coil\nt1 = not\nt2 = t3\nt3 = pump's\nk0 = feeds\nk1 = is (not) on\n\
                 k2 = within\n";
    let names = Names::parse(names).expect("names");
    let (mut random, mut seen) = (Random::seeded(230), BTreeSet::new());
    for _ in 0..500 {
        let sheet = made_up::sheet(&mut random).bytes;
        let trees = trees(&sheet);
        assert_eq!(trees.len(), records(&sheet).count());
        for tree in trees {
            for names in [&Names::default(), &names] {
                let text = tree.text(names);
                assert_eq!(parse(&text, names), *tree, "{text}");
                seen.insert(text);
            }
        }
    }
    assert!(seen.len() > 10_000, "{} texts", seen.len());
}

/// Reads a text back.
fn parse(text: &str, names: &Names) -> Tree {
    let mut parser = Parser {
        tokens: tokens(text),
        names,
    };
    let tree = match parser.takes("every") {
        true => {
            let left = parser.or();
            parser.wants("is");
            Tree::Axiom(left.into(), parser.or().into())
        }
        false => parser.or(),
    };
    let tree = match parser.takes("within") {
        true => Tree::Inclusion(tree.into(), parser.operand().into()),
        false => tree,
    };
    assert!(parser.tokens.is_empty(), "{text}: {:?} left", parser.tokens);
    tree
}

/// Words, names in quotes and parentheses.
fn tokens(text: &str) -> VecDeque<String> {
    let (mut tokens, mut token, mut quotes) = (VecDeque::new(), String::new(), 0);
    for c in text.chars().chain([' ']) {
        quotes += usize::from(c == '\'');
        if quotes % 2 == 1 || !"() ".contains(c) {
            token.push(c);
            continue;
        }
        if !token.is_empty() {
            tokens.push_back(std::mem::take(&mut token));
        }
        if c != ' ' {
            tokens.push_back(c.into());
        }
    }
    tokens
}

struct Parser<'a> {
    tokens: VecDeque<String>,
    names: &'a Names,
}

impl Parser<'_> {
    fn takes(&mut self, word: &str) -> bool {
        let there = self.tokens.front().is_some_and(|token| token == word);
        if there {
            self.tokens.pop_front();
        }
        there
    }

    #[track_caller]
    fn wants(&mut self, word: &str) {
        assert!(self.takes(word), "{word} wanted, {:?} left", self.tokens);
    }

    fn or(&mut self) -> Tree {
        let mut tree = self.and();
        while self.takes("or") {
            tree = Tree::Or(tree.into(), self.and().into());
        }
        tree
    }

    fn and(&mut self) -> Tree {
        let mut tree = self.operand();
        while self.takes("and") {
            tree = Tree::And(tree.into(), self.operand().into());
        }
        tree
    }

    fn operand(&mut self) -> Tree {
        if self.takes("not") {
            return Tree::Not(self.operand().into());
        }
        for (word, make) in [
            ("some", Tree::Exists as fn(_, _) -> _),
            ("only", Tree::Forall),
        ] {
            if self.takes(word) {
                let role = self.operand();
                self.wants(".");
                return make(role.into(), self.operand().into());
            }
        }
        if self.takes("(") {
            let tree = self.or();
            self.wants(")");
            return tree;
        }
        self.leaf()
    }

    fn leaf(&mut self) -> Tree {
        let token = self.tokens.pop_front().expect("a word");
        if let Some(number) = (0..4).find(|&number| self.names.role(number) == token) {
            return match self.takes("reversed") {
                true => Tree::Inverse(number),
                false => Tree::Role(number),
            };
        }
        match &*token {
            "everything" => Tree::Top,
            "nothing" => Tree::Bottom,
            name => {
                let number = (0..12).find(|&number| self.names.name(number) == name);
                Tree::Name(number.unwrap_or_else(|| panic!("{name} is no name")))
            }
        }
    }
}
