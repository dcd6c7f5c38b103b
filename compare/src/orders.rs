//! An accepted sheet whose stores are performed in orders of their own: a card may write a
//! store's placed elements in any order, each once.

use crate::random::Random;
use crate::reference::{Checked, Outcome, Registers, Step};
use crate::stores::{is_store, Stores};

/// The orders in which each store is performed.
const ORDERS: [Order; 3] = [Order::Reversed, Order::Shuffled, Order::Shuffled];

/// An order of the placed elements that is not that of rows.
#[derive(Clone, Copy, PartialEq, Eq, Debug)]
pub enum Order {
    Reversed,
    Shuffled,
}

impl Order {
    /// The placed elements among some outcomes in this order.
    fn of(self, outcomes: &[Outcome], random: &mut Random) -> Vec<usize> {
        let is_placed = |&element: &usize| outcomes[element].byte().is_some();
        let mut order: Vec<usize> = (0..outcomes.len()).filter(is_placed).collect();
        match self {
            Order::Reversed => order.reverse(),
            Order::Shuffled => random.shuffle(&mut order),
        }
        order
    }
}

/// A card that performs each store in an order of its own.
pub struct Card {
    pub order: Order,
    random: Random,
    pub registers: Registers,
    pub memory: Vec<u8>,
    pub byte_elements: u32,
    /// The step of each store so far, and its elements in the order in which they were written.
    pub performed: Vec<(usize, Vec<usize>)>,
}

impl Card {
    fn new(order: Order, random: Random, memory: &[u8]) -> Card {
        let (registers, memory) = (Registers::default(), memory.to_vec());
        Card { order, random, registers, memory, byte_elements: 0, performed: Vec::new() }
    }

    /// Performs a step of an accepted sheet.
    fn perform(&mut self, stores: &dyn Stores, checked: &Checked, number: usize) {
        let outcomes = &checked.outcomes[number];
        let Step::Store { register, .. } = checked.sheet.steps[number] else {
            checked.do_step(number, &mut self.registers, &mut self.memory);
            self.byte_elements += outcomes.iter().filter_map(|o| o.byte()).count() as u32;
            return;
        };
        let order = self.order.of(outcomes, &mut self.random);
        let matrix = self.registers[register].as_ref().expect("accepted");
        stores.write(&order, matrix, outcomes, &mut self.memory);
        self.byte_elements += order.len() as u32;
        self.performed.push((number, order));
    }
}

/// Performs an accepted sheet on cards, none if it has no stores. After each store the memory of
/// each card is that which the order of rows leaves, or the difference is told.
pub fn perform(
    stores: &dyn Stores,
    checked: &Checked,
    memory: &[u8],
    seed: u64,
) -> Result<Vec<Card>, String> {
    let steps = &checked.sheet.steps;
    if !steps.iter().any(is_store) {
        return Ok(Vec::new());
    }
    let card = |(number, order)| Card::new(order, Random::of_case(seed, number), memory);
    let mut cards: Vec<Card> = (0..).zip(ORDERS).map(card).collect();
    let (mut registers, mut by_rows) = (Registers::default(), memory.to_vec());
    for (number, step) in steps.iter().enumerate() {
        checked.do_step(number, &mut registers, &mut by_rows);
        for card in &mut cards {
            card.perform(stores, checked, number);
            if is_store(step) && card.memory != by_rows {
                let order = card.order;
                return Err(format!("{order:?} order of step {number} leaves another memory"));
            }
        }
    }
    Ok(cards)
}

#[cfg(test)]
mod tests {
    use super::*;

    #[test]
    fn an_order_names_each_placed_element_once() {
        let place = |element: usize| match element % 4 {
            0 => Outcome::Skipped,
            1 => Outcome::Discarded,
            _ => Outcome::Placed(element),
        };
        let outcomes: Vec<Outcome> = (0..40).map(place).collect();
        let by_rows: Vec<usize> = (0..40).filter(|element| element % 4 > 1).collect();
        let random = &mut Random::of_case(1, 0);
        let mut order = |order: Order| order.of(&outcomes, random);
        let reversed: Vec<usize> = by_rows.iter().rev().copied().collect();
        assert_eq!(order(Order::Reversed), reversed);
        let mut shuffles = [order(Order::Shuffled), order(Order::Shuffled)];
        assert_ne!(shuffles[0], shuffles[1]);
        for shuffle in &mut shuffles {
            assert_ne!(*shuffle, by_rows);
            shuffle.sort();
            assert_eq!(*shuffle, by_rows);
        }
    }
}
