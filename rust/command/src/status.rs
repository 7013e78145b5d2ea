/// The exit status. Of several files the largest counts.
#[derive(Clone, Copy, Debug, PartialEq, Eq, PartialOrd, Ord)]
pub enum Status {
    /// Every sheet can be met, the plant keeps the sheet, or the question is
    /// answered.
    Answered = 0,
    /// A sheet cannot be met, or the plant breaks a rule.
    Unmet = 1,
    /// A refusal.
    Refused = 2,
    /// A file, the usage, the output or Graphviz.
    Trouble = 3,
}

#[cfg(test)]
mod tests {
    use super::Status::{Answered, Refused, Trouble, Unmet};

    #[test]
    fn statuses_are_in_the_order_of_their_numbers() {
        let statuses = [Answered, Unmet, Refused, Trouble];
        assert!(statuses.is_sorted());
        assert_eq!(statuses.map(|status| status as u8), [0, 1, 2, 3]);
    }
}
