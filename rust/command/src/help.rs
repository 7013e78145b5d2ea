//! What `--help` prints.

/// What help is asked about.
#[derive(Clone, Copy, Debug, PartialEq, Eq)]
pub enum Topic {
    Whole,
    Judge,
    Show,
    Strike,
    Check,
    Draw,
    Import,
    Export,
}

impl Topic {
    pub const SUBCOMMANDS: [Topic; 7] = [
        Topic::Judge,
        Topic::Show,
        Topic::Strike,
        Topic::Check,
        Topic::Draw,
        Topic::Import,
        Topic::Export,
    ];

    /// The subcommand as it is typed; nothing for the whole.
    pub fn word(self) -> &'static str {
        match self {
            Topic::Whole => "",
            Topic::Judge => "judge",
            Topic::Show => "show",
            Topic::Strike => "strike",
            Topic::Check => "check",
            Topic::Draw => "draw",
            Topic::Import => "import",
            Topic::Export => "export",
        }
    }

    /// The whole text.
    pub fn text(self) -> String {
        let own = match self {
            Topic::Whole => return [WHOLE, SHEETS, STATUS].concat(),
            Topic::Judge => JUDGE,
            Topic::Show => SHOW,
            Topic::Strike => STRIKE,
            Topic::Check => return [CHECK, NAMES, SHEETS, PLANTS, STATUS].concat(),
            Topic::Draw => DRAW,
            Topic::Import => return [IMPORT, NAMES, STATUS].concat(),
            Topic::Export => EXPORT,
        };
        [own, NAMES, SHEETS, STATUS].concat()
    }
}

const WHOLE: &str = "\
lodhrussi decides whether the rules of a sheet can all be kept at once: by some
finite plant of at least one item, or by none; draws such a plant; and tells
whether a drawn plant keeps them.

    lodhrussi judge FILE...            whether the sheets can be met
    lodhrussi show FILE                what a sheet says, record by record
    lodhrussi strike FILE NUMBER...    why pairings of a sheet cannot stand
    lodhrussi check SHEET PLANT        whether a drawn plant keeps a sheet
    lodhrussi draw FILE                a plant that keeps a sheet
    lodhrussi import FILE              the sheet of an OWL text
    lodhrussi export FILE              the rules of a sheet as OWL text

    lodhrussi SUBCOMMAND --help        more about one of them
    lodhrussi --version

Example:
    lodhrussi judge sheets/s1.hex
";

const JUDGE: &str = "\
lodhrussi judge [OPTION...] FILE...

Tells of each sheet whether it can be met, or why and where it is refused. One
FILE: the verdict, the counts and a sentence. Several: a line each, in the order
given, then the totals.

    --lines         print what the evening program (one FILE) or the queue
                    program (several) prints; a sheet whose marks and links come
                    to more than 9 is refused 10 there
    --json          print an object a line, for programs
    --jobs N        judge so many sheets at a time; else one for each core
    --names FILE    the trade's own words, for the picture of a refusal

Example:
    lodhrussi judge sheets/s1.hex sheets/s2.hex
";

const SHOW: &str = "\
lodhrussi show [OPTION...] FILE

Prints each record of a sheet with its byte, its kind and what it stands for,
then the rules, the counts and the marks. A record that no rule reaches is
marked as unused.

    --json          print one object, for programs
    --names FILE    the trade's own words for traits and links

Example:
    lodhrussi show sheets/s6.hex
";

const STRIKE: &str = "\
lodhrussi strike [OPTION...] FILE NUMBER...

Opens the sheet's set of pairings and strikes those of the given numbers, one
after another, each in the set that the last one left: whether the pairing was
absent, is kept, or is struck and by which condition; and its left marks, links
and right marks.

    --json          print an object for each number, for programs
    --names FILE    the trade's own words for traits and links

Example:
    lodhrussi strike sheets/s1.hex 32 34
";

const CHECK: &str = "\
lodhrussi check [OPTION...] SHEET PLANT

Tells whether a drawn plant keeps every rule of a sheet, how many items and
connections it has, a repeated one counted once, and how many different
pairings. If it breaks a rule: the first item that does, or else the first pair
of items that breaks a link rule, as the proved library finds them; and which
rules as written these break, which the command works out by itself and says
so. There is no --lines, since no program prints lines for a plant.

    --json          print one object, for programs
    --names FILE    the trade's own words for traits and links

Example:
    lodhrussi check sheets/coil.hex sheets/coil.plant
";

const DRAW: &str = "\
lodhrussi draw [OPTION...] FILE

Draws a finite plant that keeps every rule of a sheet, or tells that there is
none. For each survivor of judging the plant has three items, one in each of
three layers, and connections join items of different layers alone. Its items
and connections are printed as two tables. A sheet with more than 341 survivors
is refused, since a plant has at most 1,024 items.

    --records       print the plant as hex text instead, which lodhrussi check
                    takes
    --dot           print it as DOT text, which Graphviz takes
    --svg OUT       put a picture of it into the file OUT, which takes the
                    program dot of Graphviz; - is standard output
    --json          print one object, for programs
    --names FILE    the trade's own words for traits and links

Example:
    lodhrussi draw sheets/boiler.hex
";

const IMPORT: &str = "\
lodhrussi import [OPTION...] FILE

Prints the sheet of an OWL text as hex text: a record a line, with what it
stands for in a comment. The text is OWL 2 functional-style syntax, of this
part: axioms SubClassOf(C D) in a row; for C and D :t0 to :t11, owl:Thing,
owl:Nothing, ObjectComplementOf(C), ObjectIntersectionOf(C D),
ObjectUnionOf(C D), ObjectSomeValuesFrom(R C), ObjectAllValuesFrom(R C); for R
:k0 to :k3 and ObjectInverseOf(:k0). Words are parted by spaces or line feeds.

    --json          print one object, for programs
    --names FILE    the trade's own words, for the comments

A FILE is OWL text; - is standard input.

Example:
    lodhrussi import sheets/coil.ofn
";

const EXPORT: &str = "\
lodhrussi export [OPTION...] FILE

Prints the rules of a sheet as OWL text, a line each: what lodhrussi import
reads. A link rule is refused, and so is a rule with a link that has not, and,
or: such a text has neither.

    --ontology IRI  print an ontology of that IRI, which Protege and Konclude
                    open as it is: prefixes, and declarations of the classes
                    and object properties used; lodhrussi reads no ontologies
    --json          print one object, for programs
    --names FILE    the trade's own words, for the picture of a refusal

Example:
    lodhrussi export --ontology http://example.org/coil sheets/coil.hex
";

const NAMES: &str = "
Names stand in a file of lines such as 't0 = reheat coil' and 'k0 = feeds'.
Without --names the file beside the sheet is read if it is there: for
sheets/coil.hex that is sheets/coil.names.
";

const SHEETS: &str = "
A FILE is OWL text if its first word is SubClassOf, Prefix or Ontology; else hex
text (pairs of hex digits, blanks, # comments) or a sheet's raw bytes; - is
standard input.
";

const PLANTS: &str = "
A SHEET is such a FILE. A PLANT is hex text if it holds nothing but pairs of hex
digits, blanks and # comments, else a plant's raw bytes. A plant without a fault
begins with an item, the byte 40 or '@', so its raw bytes are never hex text.
A plant has at most 32 MB.
";

const STATUS: &str = "
Exit status: 0 every sheet can be met, the plant keeps the sheet, or the
question is answered; 1 a sheet cannot be met, or the plant breaks a rule; 2 a
sheet, a plant, a text or a number is refused; 3 trouble with a file, the
arguments, the output or Graphviz. The largest counts.
";

#[cfg(test)]
mod tests {
    use super::*;

    #[test]
    fn every_text_has_its_usage_an_example_and_the_exit_status() {
        for topic in [&[Topic::Whole][..], &Topic::SUBCOMMANDS].concat() {
            let text = topic.text();
            let usage = ["lodhrussi", topic.word()].join(" ");
            assert!(text.starts_with(usage.trim_end()), "{text}");
            let example = format!("\nExample:\n    {usage}");
            assert!(text.contains(example.trim_end()), "{text}");
            assert!(text.contains("\nExit status: 0 "), "{text}");
            assert!(text.ends_with(".\n"), "{text}");
            assert!(text.lines().all(|line| line.len() <= 80), "{text}");
        }
    }

    #[test]
    fn the_whole_names_every_subcommand() {
        let text = Topic::Whole.text();
        for topic in Topic::SUBCOMMANDS {
            let operand = if topic == Topic::Check {
                "SHEET PLANT"
            } else {
                "FILE"
            };
            let usage = format!("\n    lodhrussi {} {operand}", topic.word());
            assert!(text.contains(&usage), "{usage}");
        }
    }
}
