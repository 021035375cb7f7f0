//! Orders of a rule's variables, admissible and not.

use reference::rule::Rule;
use reference::verdict::named;

use crate::damage;
use crate::random::Random;

/// An admissible order at random.
pub fn admissible(random: &mut Random, rule: &Rule) -> Vec<u8> {
    let count = rule.variables.len();
    let mut order: Vec<usize> = Vec::new();
    while order.len() < count {
        let next = random.below(count);
        let names = named(&rule.variables[next].set, rule);
        if !order.contains(&next) && names.iter().all(|name| order.contains(name)) {
            order.push(next);
        }
    }
    order.iter().map(|&variable| variable as u8 + 1).collect()
}

/// An order of some sort: most often admissible, sometimes shuffled or damaged.
pub fn any(random: &mut Random, rule: &Rule) -> Vec<u8> {
    let mut order = admissible(random, rule);
    match random.below(8) {
        0 => random.shuffle(&mut order),
        1 => damage::bytes(random, &mut order),
        2 => order = (1..=rule.variables.len() as u8).collect(),
        _ => {}
    }
    order
}
