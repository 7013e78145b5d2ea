//! What is said on standard error.

use std::io::{self, Write};

/// Says some sentences.
pub fn say_all(sentences: &[String]) {
    sentences.iter().for_each(|sentence| say(sentence));
}

/// Says a sentence. Where standard error cannot be written there is nobody to
/// tell, and the exit status still tells.
pub fn say(sentence: &str) {
    let _ = writeln!(io::stderr(), "lodhrussi: {sentence}");
}
