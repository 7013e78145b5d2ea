//! Fixed texts and sheets: document 02's, and what its words decide.

/// What is written, or a refusal's number and place.
pub type Outcome = Result<&'static str, (u64, u64)>;

/// A line and its sheet, which go both ways: text, then hex.
pub const BOTH_WAYS: [(&str, &str); 6] = [
    (
        "SubClassOf(:t0 ObjectComplementOf(:t1))\n",
        "03 00 03 01 04 01 20 00 02",
    ),
    (
        "SubClassOf(ObjectSomeValuesFrom(ObjectInverseOf(:k3) owl:Thing) \
         ObjectAllValuesFrom(:k0 owl:Nothing))\n",
        "11 03 01 07 00 01 10 00 02 08 03 04 20 02 05",
    ),
    (
        "SubClassOf(ObjectIntersectionOf(:t0 :t11) ObjectUnionOf(:t0 :t0))\n",
        "03 00 03 0B 05 00 01 03 00 03 00 06 03 04 20 02 05",
    ),
    (
        "SubClassOf(owl:Thing :t9)\nSubClassOf(:t10 owl:Nothing)\n",
        "01 03 09 20 00 01 03 0A 02 20 03 04",
    ),
    (
        "SubClassOf(ObjectUnionOf(ObjectComplementOf(:t2) ObjectIntersectionOf(:t3 :t4)) :t5)\n",
        "03 02 04 00 03 03 03 04 05 02 03 06 01 04 03 05 20 05 06",
    ),
    ("", ""),
];

/// A text, and what import writes of it in hex.
pub const IMPORTED: [(&str, Outcome); 36] = [
    // document 02's, with fewer and more blanks
    (
        "SubClassOf(:t0 ObjectComplementOf(:t1))",
        Ok("03 00 03 01 04 01 20 00 02"),
    ),
    (
        "\n SubClassOf ( \n:t0 ObjectComplementOf\n(\n:t1 ))\n \n",
        Ok("03 00 03 01 04 01 20 00 02"),
    ),
    (
        "SubClassOf(ObjectComplementOf(:t0)ObjectComplementOf(:t1))SubClassOf(:t1 :t1)",
        Ok("03 00 04 00 03 01 04 02 20 01 03 03 01 03 01 20 05 06"),
    ),
    (" \n", Ok("")),
    ("", Ok("")),
    // as ontologies have them: a domain, a range, classes that are disjoint; a class put together, with indents
    (
        "SubClassOf(ObjectSomeValuesFrom(:k0 owl:Thing) :t3)\n\
         SubClassOf(owl:Thing ObjectAllValuesFrom(:k0 :t4))\n\
         SubClassOf(ObjectIntersectionOf(:t3 :t4) owl:Nothing)\n",
        Ok(
            "10 00 01 07 00 01 03 03 20 02 03 01 10 00 03 04 08 06 07 20 05 08 \
            03 03 03 04 05 0A 0B 02 20 0C 0D",
        ),
    ),
    (
        "SubClassOf(\n    :t0\n    ObjectIntersectionOf(\n        :t1\n        \
         ObjectSomeValuesFrom(\n            ObjectInverseOf( :k1 )\n            \
         ObjectIntersectionOf( :t2 ObjectSomeValuesFrom( :k0 :t5 ) )\n        )\n    )\n)\n",
        Ok("03 00 03 01 11 01 03 02 10 00 03 05 07 04 05 05 03 06 07 02 07 05 01 08 20 00 09"),
    ),
    // words that are not known
    ("SubClassOf(:t0 :t12)", Err((18, 15))),
    ("SubClassOf(:t0 :t01)", Err((18, 15))),
    (
        "SubClassOf(ObjectSomeValuesFrom(:k4 :t0) :t0)",
        Err((18, 32)),
    ),
    ("SubClassOf(:t :t0)", Err((18, 11))),
    ("SubClassOf(owl:thing :t0)", Err((18, 11))),
    ("subclassof(:t0 :t0)", Err((18, 0))),
    ("SubClassOf x", Err((18, 11))),
    ("x", Err((18, 0))),
    ("Prefix(:=<a#>)", Err((18, 0))),
    ("SubClassOf(:t0 :t1) Ontology", Err((18, 20))),
    // a tab, a carriage return and a zero belong to a word
    ("SubClassOf(:t0\t:t1)", Err((18, 11))),
    ("SubClassOf(:t0 :t1)\r\n", Err((18, 19))),
    ("\tSubClassOf(:t0 :t1)", Err((18, 0))),
    ("SubClassOf(:t0 :t1\0)", Err((18, 15))),
    ("SubClassOf(:t0:t1)", Err((18, 11))),
    ("\u{feff}SubClassOf(:t0 :t1)", Err((18, 0))),
    // known words and parentheses where they cannot stand
    ("SubClassOf(:t0 :k0)", Err((19, 15))),
    ("SubClassOf(:t0 :t1 :t2)", Err((19, 19))),
    ("SubClassOf(:t0)", Err((19, 14))),
    ("(", Err((19, 0))),
    (":t0", Err((19, 0))),
    ("SubClassOf(:t0 :t1))", Err((19, 19))),
    (
        "SubClassOf(ObjectSomeValuesFrom(:t0 :t0) :t0)",
        Err((19, 32)),
    ),
    (
        "SubClassOf(ObjectAllValuesFrom(ObjectInverseOf(ObjectInverseOf(:k0)) :t0) :t0)",
        Err((19, 47)),
    ),
    ("SubClassOf(ObjectInverseOf(:k0) :t0)", Err((19, 11))),
    // texts that end inside a form
    ("SubClassOf", Err((19, 10))),
    ("SubClassOf ", Err((19, 11))),
    ("SubClassOf(:t0 \n\n", Err((19, 17))),
    ("SubClassOf(:t0 :t1", Err((19, 18))),
];

/// A sheet in hex, and what export writes of it.
pub const EXPORTED: [(&str, Outcome); 17] = [
    ("03 00 04 00 05 01 01", Err((7, 6))),
    ("04 00", Err((5, 1))),
    ("03 0B 10 00", Err((9, 0))),
    // a role with and in the second axiom, the same in no axiom, in both
    (
        "01 10 00 10 01 13 01 02 07 03 00 20 00 00 20 00 04",
        Err((20, 14)),
    ),
    (
        "01 10 00 10 01 13 01 02 07 03 00 20 00 00",
        Ok("SubClassOf(owl:Thing owl:Thing)\n"),
    ),
    ("01 10 00 13 01 01 07 02 00 20 00 03 20 00 00", Err((20, 9))),
    // with or, and with two nots, under other concepts
    ("01 10 00 14 01 01 08 02 00 04 03 20 04 00", Err((20, 11))),
    (
        "01 10 00 12 01 12 02 07 03 00 05 00 04 06 05 00 20 00 06",
        Err((20, 16)),
    ),
    // too many parts come before the role
    ("03 0A 10 00 10 01 13 01 02 07 03 00 20 00 04", Err((9, 0))),
    // records that are unused, and leaves that are named often
    ("03 0A 10 03 03 00 04 02 20 02 02", Err((9, 0))),
    (
        "03 02 10 01 03 00 04 02 20 02 02",
        Ok("SubClassOf(:t0 :t0)\n"),
    ),
    // document 02's sheet with a role inclusion (N8), and an inclusion alone
    (
        "01 10 00 10 01 02 07 01 00 20 00 04 08 02 03 20 00 06 21 01 02",
        Err((20, 18)),
    ),
    ("10 00 21 00 00", Err((20, 2))),
    // after an axiom with a Boolean role, and before one
    ("01 10 00 13 01 01 07 02 00 20 00 03 21 01 01", Err((20, 9))),
    ("01 10 00 21 01 01 13 01 01 07 03 00 20 00 04", Err((20, 3))),
    // faults of the sheet come first
    ("10 00 21 00 00 03 0C", Err((4, 5))),
    ("10 00 21 00 00 03 0B", Err((9, 0))),
];
