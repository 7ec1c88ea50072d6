//! An entry in the list of what is compared: an operation with inputs of some kind, or a law over several operations.

use crate::answer::{agree, Answer, By};
use crate::asked::Asked;
use crate::call::call;
use crate::operation::Operation;
use crate::random::Random;
use crate::refused::Refused;
use crate::tally::{Tally, Wanted};

/// This program's own answer, and every refusal that was due on the input, in 01's order; the first of these is the
/// one given. A line here may name a place that the refusal itself does not carry, so that the tally tells them
/// apart.
pub struct Own {
    pub answer: Answer,
    pub due: Vec<Refused>,
}

impl Own {
    /// The answer, or the first refusal that is due. One more may be due if nothing is found; that is known only when
    /// nothing else is due.
    pub fn new(
        operation: Operation,
        asked: &Asked,
        mut due: Vec<Refused>,
        find: impl FnOnce() -> Result<Answer, Refused>,
    ) -> Own {
        let found = match due.first() {
            // No. 1 names no place, though it is tested at one.
            Some(&first) => Err(if first.number == 1 { Refused::plain(1) } else { first }),
            None => find().inspect_err(|&nothing| due.push(nothing)),
        };
        let answer = found.unwrap_or_else(|refused| operation.refused(refused, asked));
        Own { answer, due }
    }
}

/// What the way in which an input was made tells: which kind an answer is, or that it cannot be the answer.
pub type Made = Box<dyn Fn(&Answer) -> Option<&'static str>>;

pub struct Input {
    pub asked: Asked,
    pub made: Option<Made>,
}

impl From<Asked> for Input {
    fn from(asked: Asked) -> Input {
        Input { asked, made: None }
    }
}

#[derive(Clone, Copy)]
pub struct Entry {
    pub name: &'static str,
    pub operation: Operation,
    /// The inputs in a usual run: the cheaper they are, the more.
    pub usual: fn() -> u64,
    /// Whether there are no more than that, since they are a list and not at random.
    pub is_list: bool,
    /// Input number `index`: the first ones may go through a list, the others are random.
    pub input: fn(u64, &mut Random) -> Input,
    /// The answer by 01, without the desk; there is none for a law.
    pub own: Option<fn(&Asked) -> Own>,
    /// The desk's answer; an error is about memory it had no right to write, or about a law that does not hold.
    pub desk: fn(Operation, &Asked, &mut Random) -> Result<Answer, String>,
    /// Whether the modulus is 2^32, or one of the moduli.
    pub at_2_32: fn(&Asked) -> bool,
    /// Which of the wanted kinds this is.
    pub kinds: fn(&Asked, &Answer) -> Vec<&'static str>,
    pub wanted: fn() -> Wanted,
}

impl Entry {
    /// What most have.
    pub const USUAL: Entry = Entry {
        name: "",
        operation: Operation::Check,
        usual: || 0,
        is_list: false,
        input: |_, _| unreachable!("each entry has inputs of its own"),
        own: None,
        desk: call,
        at_2_32: Asked::at_2_32,
        kinds: |_, _| Vec::new(),
        wanted: Wanted::default,
    };

    /// Compares one input.
    pub fn compare(&self, seed: u64, index: u64, tally: &mut Tally) -> Result<(), String> {
        let mut random = Random::for_input(seed, self.name, index);
        let Input { asked, made } = (self.input)(index, &mut random);
        let place = format!("seed {seed}, input {index}");
        let (answer, due) =
            self.compared(&asked, &mut random).map_err(|what| self.difference(&place, &asked, &what))?;
        let mut kinds = (self.kinds)(&asked, &answer);
        if let Some(made) = made {
            kinds.push(made(&answer).expect("the own answer is not the one that was made"));
        }
        let given = due.first().copied().unwrap_or(answer.refused);
        tally.count(given, &due, &kinds, (self.at_2_32)(&asked));
        Ok(())
    }

    fn compared(&self, asked: &Asked, random: &mut Random) -> Result<(Answer, Vec<Refused>), String> {
        let Some(own) = self.own.map(|own| own(asked)) else {
            return Ok(((self.desk)(self.operation, asked, random)?, Vec::new()));
        };
        let desk = (self.desk)(self.operation, asked, random)?;
        agree(By("own", &own.answer), By("desk", &desk))?;
        Ok((own.answer, own.due))
    }

    /// The report of a difference: name, place and input, and what differs.
    pub fn difference(&self, place: &str, asked: &Asked, what: &str) -> String {
        format!("DIFFERENCE in {}, {place}\ninput: {asked}{what}\n", self.name)
    }
}
