/// So many things.
pub fn count(number: u64, thing: &str) -> String {
    let plural = if number == 1 { "" } else { "s" };
    format!("{number} {thing}{plural}")
}

#[cfg(test)]
mod tests {
    use super::count;

    #[test]
    fn one_is_no_plural() {
        let counted = [0, 1, 2, 21].map(|number| count(number, "sheet"));
        assert_eq!(counted, ["0 sheets", "1 sheet", "2 sheets", "21 sheets"]);
    }
}
