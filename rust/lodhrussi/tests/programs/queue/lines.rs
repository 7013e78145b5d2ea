//! The lines of a queue, from what its slots say after their numbers.

/// The slots' lines, numbered from 0.
pub fn slot_lines<S: AsRef<str>>(says: &[S]) -> String {
    let numbered = says.iter().enumerate();
    numbered
        .map(|(number, says)| format!("{number} {}\n", says.as_ref()))
        .collect()
}

/// The line of the totals.
pub fn totals<S: AsRef<str>>(says: &[S]) -> String {
    let (mut counts, mut survivors) = ([0; 3], 0);
    for says in says {
        let (answer, value) = says.as_ref().split_once(' ').expect("two words");
        let value: u64 = value.parse().expect("a number");
        let answers = ["met", "unmet", "refused"];
        let which = answers.iter().position(|word| *word == answer);
        let which = which.expect("an answer");
        counts[which] += 1;
        survivors += if which < 2 { value } else { 0 };
    }
    let [met, unmet, refused] = counts;
    let sheets = says.len();
    format!("sheets {sheets} met {met} unmet {unmet} refused {refused} survivors {survivors}\n")
}

/// All lines of a queue that ends as it should.
pub fn whole<S: AsRef<str>>(says: &[S]) -> String {
    slot_lines(says) + &totals(says)
}
