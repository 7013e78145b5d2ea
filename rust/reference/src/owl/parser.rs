//! The axioms of a text, token by token, up to the first that is refused.

use super::tokens::{Token, Tokens};
use crate::fault::{Fault, Refusal};
use crate::written::{Axiom, Concept, Role};
use std::rc::Rc;

const MAX_RECORDS: usize = 255;

/// The axioms that stand in a row.
pub(super) fn axioms(text: &[u8]) -> Result<Vec<Axiom>, Refusal> {
    let mut parser = Parser {
        length: text.len(),
        tokens: Tokens::of(text),
        begun: 0,
    };
    let mut axioms = Vec::new();
    while let Some((place, token)) = parser.tokens.next().transpose()? {
        if token != Token::SubClassOf {
            return Err(cannot_stand(place));
        }
        parser.begin()?;
        let [left, right] = parser.concepts()?;
        axioms.push(Axiom { left, right });
    }
    Ok(axioms)
}

fn cannot_stand(place: usize) -> Refusal {
    Refusal::at(place, Fault::CannotStand)
}

struct Parser<'a> {
    length: usize,
    tokens: Tokens<'a>,
    /// The records begun so far: an inverse and its name are one.
    begun: usize,
}

impl Parser<'_> {
    /// The next token inside a form.
    fn inside(&mut self) -> Result<(usize, Token), Refusal> {
        let end = Err(cannot_stand(self.length));
        self.tokens.next().unwrap_or(end)
    }

    /// The next token inside a form, which must be this.
    fn expect(&mut self, wanted: Token) -> Result<(), Refusal> {
        match self.inside()? {
            (_, token) if token == wanted => Ok(()),
            (place, _) => Err(cannot_stand(place)),
        }
    }

    /// Counts a record that begins where it may stand.
    fn begin(&mut self) -> Result<(), Refusal> {
        if self.begun == MAX_RECORDS {
            return Err(Refusal::of_whole(Fault::TooManyRecords));
        }
        self.begun += 1;
        Ok(())
    }

    fn concept(&mut self) -> Result<Rc<Concept>, Refusal> {
        let (place, token) = self.inside()?;
        if !begins_concept(token) {
            return Err(cannot_stand(place));
        }
        self.begin()?;
        Ok(Rc::new(match token {
            Token::Thing => Concept::Top,
            Token::Nothing => Concept::Bottom,
            Token::Name(number) => Concept::Name(number),
            Token::ComplementOf => {
                self.expect(Token::Open)?;
                let concept = self.concept()?;
                self.expect(Token::Close)?;
                Concept::Not(concept)
            }
            Token::IntersectionOf => {
                let [c, d] = self.concepts()?;
                Concept::And(c, d)
            }
            Token::UnionOf => {
                let [c, d] = self.concepts()?;
                Concept::Or(c, d)
            }
            Token::SomeValuesFrom => {
                let (role, filler) = self.role_and_concept()?;
                Concept::Exists(role, filler)
            }
            _ => {
                let (role, filler) = self.role_and_concept()?;
                Concept::Forall(role, filler)
            }
        }))
    }

    /// Two concepts in parentheses.
    fn concepts(&mut self) -> Result<[Rc<Concept>; 2], Refusal> {
        self.expect(Token::Open)?;
        let concepts = [self.concept()?, self.concept()?];
        self.expect(Token::Close)?;
        Ok(concepts)
    }

    /// A role and a concept in parentheses.
    fn role_and_concept(&mut self) -> Result<(Rc<Role>, Rc<Concept>), Refusal> {
        self.expect(Token::Open)?;
        let (role, concept) = (self.role()?, self.concept()?);
        self.expect(Token::Close)?;
        Ok((role, concept))
    }

    fn role(&mut self) -> Result<Rc<Role>, Refusal> {
        let (place, token) = self.inside()?;
        let role = match token {
            Token::RoleName(number) => {
                self.begin()?;
                Role::Name(number)
            }
            Token::InverseOf => {
                self.begin()?;
                self.expect(Token::Open)?;
                let number = self.role_name()?;
                self.expect(Token::Close)?;
                Role::Inverse(number)
            }
            _ => return Err(cannot_stand(place)),
        };
        Ok(Rc::new(role))
    }

    fn role_name(&mut self) -> Result<usize, Refusal> {
        match self.inside()? {
            (_, Token::RoleName(number)) => Ok(number),
            (place, _) => Err(cannot_stand(place)),
        }
    }
}

fn begins_concept(token: Token) -> bool {
    match token {
        Token::Thing | Token::Nothing | Token::Name(_) => true,
        Token::IntersectionOf | Token::UnionOf | Token::ComplementOf => true,
        Token::SomeValuesFrom | Token::AllValuesFrom => true,
        Token::Open | Token::Close | Token::SubClassOf => false,
        Token::InverseOf | Token::RoleName(_) => false,
    }
}
