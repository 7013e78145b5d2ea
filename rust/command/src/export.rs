//! The axioms (document 01: rules) of a sheet as OWL text.

use crate::arguments::Export;
use crate::sheet::{trouble, Sheet};
use crate::status::Status;
use std::collections::HashSet;
use std::io::{self, Write};

/// Writes the text of a sheet, or an ontology of it.
///
/// # Errors
///
/// Standard output cannot be written.
pub fn run(options: &Export, out: &mut dyn Write) -> io::Result<Status> {
    let (file, json) = (&options.file, options.json);
    let sheet = match Sheet::read(file, options.names.as_deref(), json) {
        Ok(sheet) => sheet,
        Err(sentence) => return trouble(file, &sentence, json, out),
    };
    let text = match sheet.sheet().and_then(lodhrussi::exported) {
        Ok(text) => text,
        Err(refusal) => return sheet.tell_refused(&refusal, out),
    };
    let text = match &options.ontology {
        Some(iri) => ontology(iri, &text),
        None => text,
    };
    if json {
        writeln!(out, "{}", sheet.object("exported").text("text", &text))?;
    } else {
        out.write_all(text.as_bytes())?;
    }
    Ok(Status::Answered)
}

/// The ontology of that IRI with the axioms of a text, and declarations of the
/// classes and object properties that these use. Its names are below its IRI.
fn ontology(iri: &str, text: &str) -> String {
    let below = if iri.ends_with(['#', '/']) { "" } else { "#" };
    let declarations = declarations(text);
    format!(
        "Prefix(:=<{iri}{below}>)\n\
         Prefix(owl:=<http://www.w3.org/2002/07/owl#>)\n\
         Ontology(<{iri}>\n{declarations}{text})\n"
    )
}

fn declarations(text: &str) -> String {
    let words: HashSet<_> = text.split([' ', '\n', '(', ')']).collect();
    let classes = (0..12).map(|number| ("Class", format!(":t{number}")));
    let properties = (0..4).map(|number| ("ObjectProperty", format!(":k{number}")));
    let used = classes.chain(properties);
    let used = used.filter(|(_, name)| words.contains(&name[..]));
    used.map(|(sort, name)| format!("Declaration({sort}({name}))\n"))
        .collect()
}

#[cfg(test)]
mod tests {
    use super::*;

    #[test]
    fn what_is_used_is_declared() {
        let text = "SubClassOf(:t10 ObjectSomeValuesFrom(ObjectInverseOf(:k3) :t2))\n\
                    SubClassOf(:t2 ObjectAllValuesFrom(:k0 owl:Nothing))\n";
        let expected = "Prefix(:=<urn:a#>)\n\
            Prefix(owl:=<http://www.w3.org/2002/07/owl#>)\n\
            Ontology(<urn:a>\n\
            Declaration(Class(:t2))\n\
            Declaration(Class(:t10))\n\
            Declaration(ObjectProperty(:k0))\n\
            Declaration(ObjectProperty(:k3))\n\
            SubClassOf(:t10 ObjectSomeValuesFrom(ObjectInverseOf(:k3) :t2))\n\
            SubClassOf(:t2 ObjectAllValuesFrom(:k0 owl:Nothing))\n\
            )\n";
        assert_eq!(ontology("urn:a", text), expected);
    }

    #[test]
    fn names_are_below_the_iri() {
        for (iri, below) in [
            ("http://a.example/b", "http://a.example/b#"),
            ("http://a.example/b/", "http://a.example/b/"),
            ("http://a.example/b#", "http://a.example/b#"),
        ] {
            let expected = format!(
                "Prefix(:=<{below}>)\n\
                 Prefix(owl:=<http://www.w3.org/2002/07/owl#>)\n\
                 Ontology(<{iri}>\n)\n"
            );
            assert_eq!(ontology(iri, ""), expected);
        }
    }
}
