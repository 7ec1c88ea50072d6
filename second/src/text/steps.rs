//! What a good text says is to be done, step after step as on a calculator that is told the numbers first and then
//! what to do with them: 2*x+3 is "2, x, times, 3, plus". Brackets are gone then, and so is the question what binds
//! closer.

use super::language::value;

/// Done with the values that were made last and are not used yet.
#[derive(Clone, Copy, Debug)]
pub enum Step {
    /// A new value.
    Number(u64),
    X,
    /// Of the last value.
    Power(usize),
    Negative,
    /// Of the last two.
    Times,
    Plus,
    Minus,
}

/// Of a text that is in the language.
pub fn of_text(text: &[u8]) -> Vec<Step> {
    let mut order = Order::of(text);
    order.do_down_to(Binds::Bracket);
    order.steps
}

/// Of bytes that a text may begin with: as much as is to be done whatever may follow.
pub fn of_beginning(bytes: &[u8]) -> Vec<Step> {
    Order::of(bytes).steps
}

/// How close what waits to be done binds.
#[derive(Clone, Copy, PartialEq, Eq, PartialOrd, Ord)]
enum Binds {
    /// Nothing from outside it is done inside.
    Bracket,
    Sum,
    Product,
}

#[derive(Default)]
struct Order {
    steps: Vec<Step>,
    /// What waits for its right side; a bracket waits for nothing but its end.
    waiting: Vec<(Binds, Option<Step>)>,
}

impl Order {
    fn of(bytes: &[u8]) -> Order {
        let mut order = Order::default();
        let mut rest = bytes;
        let mut sum_begins = true;
        while let Some(&byte) = rest.first() {
            if !byte.is_ascii_digit() {
                rest = &rest[1..];
            }
            match byte {
                b'(' => order.waiting.push((Binds::Bracket, None)),
                b')' => {
                    order.do_down_to(Binds::Sum);
                    order.waiting.pop();
                }
                b'-' if sum_begins => order.wait(Binds::Sum, Step::Negative),
                b'-' => order.wait(Binds::Sum, Step::Minus),
                b'+' => order.wait(Binds::Sum, Step::Plus),
                b'*' => order.wait(Binds::Product, Step::Times),
                b'^' => {
                    let power = digits(&mut rest);
                    order.steps.extend(power.map(|p| Step::Power(p as usize)));
                }
                b'x' => order.steps.push(Step::X),
                _ => order.steps.extend(digits(&mut rest).map(Step::Number)),
            }
            sum_begins = byte == b'(';
        }
        order
    }

    /// "Left to right, one term or factor at a time": what binds as close and came earlier is done first.
    fn wait(&mut self, binds: Binds, step: Step) {
        self.do_down_to(binds);
        self.waiting.push((binds, Some(step)));
    }

    fn do_down_to(&mut self, least: Binds) {
        while let Some((_, step)) = self.waiting.pop_if(|(binds, _)| *binds >= least) {
            self.steps.extend(step);
        }
    }
}

/// The number that the bytes begin with, if they do, is taken away from them.
fn digits(bytes: &mut &[u8]) -> Option<u64> {
    let is_other = |byte: &u8| !byte.is_ascii_digit();
    let end = bytes.iter().position(is_other).unwrap_or(bytes.len());
    let (digits, rest) = bytes.split_at(end);
    *bytes = rest;
    let number = |sum: u64, digit: &u8| 10 * sum + value(*digit) as u64;
    (!digits.is_empty()).then(|| digits.iter().fold(0, number))
}
