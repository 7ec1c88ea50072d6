//! What the steps of a text come to modulo m, and whether anything on the way was too high.

use super::steps::Step;
use super::terms::Terms;
use crate::desk::LIMIT;
use crate::modulus::Modulus;
use crate::polynomial::Polynomial;

pub struct Built {
    /// All zero if the steps are none.
    pub polynomial: Polynomial,
    /// "If any sum, product or power .. has a nonzero coefficient above the limit." What is above is left out then,
    /// and building goes on.
    pub too_high: bool,
    /// Whether some product had a formal degree above the limit, and vanished there modulo m.
    pub vanished: bool,
}

pub fn built(steps: &[Step], m: Modulus) -> Built {
    let mut building = Building { m, values: Vec::new(), too_high: false, vanished: false };
    for &step in steps {
        let value = building.after(step);
        building.values.push(value);
    }
    let Building { values, too_high, vanished, .. } = building;
    Built { polynomial: values.last().map_or(Polynomial::ZERO, Terms::polynomial), too_high, vanished }
}

struct Building {
    m: Modulus,
    /// Those that were made and are not used yet.
    values: Vec<Terms>,
    too_high: bool,
    vanished: bool,
}

impl Building {
    /// The value that the step makes of the last ones.
    fn after(&mut self, step: Step) -> Terms {
        let m = self.m;
        match step {
            Step::Number(number) => Terms::one(number, 0, m),
            Step::X => Terms::one(1, 1, m),
            Step::Power(power) => self.power(power),
            Step::Negative => self.last().negative(m),
            Step::Times => {
                let (left, right) = self.last_two();
                self.product(&left, &right)
            }
            Step::Plus => {
                let (left, right) = self.last_two();
                left.plus(&right, m)
            }
            Step::Minus => {
                let (left, right) = self.last_two();
                left.plus(&right.negative(m), m)
            }
        }
    }

    fn last(&mut self) -> Terms {
        self.values.pop().expect("a step follows what it is done with")
    }

    fn last_two(&mut self) -> (Terms, Terms) {
        let right = self.last();
        (self.last(), right)
    }

    /// "A power by its base": its powers 1, 2 and so on, each tested; "anything to the power 0 is 1".
    fn power(&mut self, power: usize) -> Terms {
        let base = self.last();
        match power {
            0 => Terms::one(1, 0, self.m),
            _ => (1..power).fold(base.clone(), |raised, _| self.product(&raised, &base)),
        }
    }

    /// A sum is no higher than its terms, so only here can something be too high.
    fn product(&mut self, left: &Terms, right: &Terms) -> Terms {
        let product = left.times(right, self.m);
        let formal = left.degree().zip(right.degree()).map(|(n, k)| n + k);
        self.too_high |= product.too_high();
        self.vanished |= formal > Some(LIMIT) && !product.too_high();
        product.cut_off()
    }
}
