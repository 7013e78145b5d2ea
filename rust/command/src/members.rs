//! The members of a set of bits, in words.

use crate::json::Object;
use crate::names::Names;

/// A member of a set: its bit and what it is called.
pub type Member = (u8, String);

/// The members of a set of bits.
pub fn members(bits: u64, word: &dyn Fn(u8) -> String) -> Vec<Member> {
    let members = (0..64).filter(|bit| bits >> bit & 1 == 1);
    members.map(|bit| (bit, word(bit))).collect()
}

/// The members of a role set: roles and inverses of roles.
pub fn roles(bits: u64, names: &Names) -> Vec<Member> {
    let word = |bit| match role(bit) {
        (role, false) => names.role(role),
        (role, true) => names.inverse(role),
    };
    members(bits, &word)
}

/// The role of a bit of a role set, and whether it is its inverse.
fn role(bit: u8) -> (u8, bool) {
    (bit / 2, bit % 2 == 1)
}

/// Members for people.
pub fn list(members: &[Member]) -> String {
    let texts: Vec<_> = members.iter().map(|(_, text)| &**text).collect();
    match &texts[..] {
        [] => "none".into(),
        texts => texts.join(", "),
    }
}

/// A member for programs, its bit under that key.
pub fn member_object(key: &str, (bit, text): &Member) -> Object {
    let object = Object::default().number(key, u64::from(*bit));
    object.text("text", text)
}

/// A member of a role set for programs.
pub fn role_object((bit, text): &Member) -> Object {
    let (role, inverse) = role(*bit);
    let object = Object::default().number("link", u64::from(role));
    object.truth("reversed", inverse).text("text", text)
}

#[cfg(test)]
mod tests {
    use super::*;

    #[test]
    fn members_by_their_bits() {
        let word = |bit| format!("b{bit}");
        assert_eq!(members(0, &word), []);
        let both_ends = [(0, "b0".to_string()), (63, "b63".to_string())];
        assert_eq!(members(1 << 63 | 1, &word), both_ends);
        assert_eq!(list(&both_ends), "b0, b63");
        assert_eq!(list(&[]), "none");
        let expected = r#"{"trait":63,"text":"b63"}"#;
        assert_eq!(member_object("trait", &both_ends[1]).to_string(), expected);
    }

    #[test]
    fn roles_in_both_directions() {
        let names = Names::parse("k1 = feeds").expect("a name");
        let roles = roles(0b1110, &names);
        assert_eq!(list(&roles), "k0 reversed, feeds, feeds reversed");
        let objects: Vec<_> = roles.iter().map(|r| role_object(r).to_string()).collect();
        let expected = [
            r#"{"link":0,"reversed":true,"text":"k0 reversed"}"#,
            r#"{"link":1,"reversed":false,"text":"feeds"}"#,
            r#"{"link":1,"reversed":true,"text":"feeds reversed"}"#,
        ];
        assert_eq!(objects, expected);
    }
}
