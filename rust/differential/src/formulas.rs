//! Formulas of rules, and texts that come close to one.

use crate::damage;
use crate::random::Random;
use crate::rules;

/// A formula of some sort: of a rule, near one, or made to hurt.
pub fn any(random: &mut Random) -> Vec<u8> {
    let rule = rules::any(random);
    let formula = match reference::fast::reduce(&rule) {
        Ok(formula) => formula,
        // No formula: the text itself with a prefix that one might have.
        Err(_) => [*random.pick(&[&b":"[..], b"[v1@U]:", b""]), &rule].concat(),
    };
    match random.below(8) {
        0..=2 => formula,
        3 => hurtful(random),
        4 | 5 => near(random, formula),
        _ => {
            let mut text = formula;
            for _ in 0..random.between(1, 2) {
                damage::text(random, &mut text);
            }
            text
        }
    }
}

/// A formula with its quantifiers or variables changed: one too many, too few, twice, elsewhere.
fn near(random: &mut Random, formula: Vec<u8>) -> Vec<u8> {
    let text = String::from_utf8_lossy(&formula).into_owned();
    let digit = |random: &mut Random| (b'0' + random.below(10) as u8) as char;
    let (from, to) = (format!("v{}", digit(random)), format!("v{}", digit(random)));
    let (head, rule) = text.split_once(':').unwrap_or(("", &text));
    let mut parts: Vec<String> = head.split_inclusive(']').map(String::from).collect();
    let changed = match random.below(8) {
        0 => text.replace(&from, &to),
        1 => text.replacen(&from, &to, 1),
        2 => {
            let set = *random.pick(&["U", "CR", "v1", "OBJ", "(U&U)"]);
            format!("{head}[v{}@{set}]:{rule}", parts.len() + 1)
        }
        3 => {
            parts.pop();
            format!("{}:{rule}", parts.concat())
        }
        4 => {
            random.shuffle(&mut parts);
            format!("{}:{rule}", parts.concat())
        }
        5 => swapped(&text),
        6 => text.replacen("-{v", "+{v", 1),
        _ => text.replacen(&to, "OE(U)", 1),
    };
    changed.into_bytes()
}

/// The first two variables exchanged everywhere, quantifiers included.
fn swapped(text: &str) -> String {
    text.replace("v1", "v?")
        .replace("v2", "v1")
        .replace("v?", "v2")
}

/// Formulas that are short and whose rules would be endless, or deep, or long.
pub fn hurtful(random: &mut Random) -> Vec<u8> {
    let count = random.between(2, 9);
    match random.below(5) {
        0 => doubling("(U+U)", "({v}+{v})", count),
        1 => doubling("CR", "({v}&{v})", count),
        2 => doubling("U", "(({p}-{{v}})+({p}-{{v}}))", count),
        3 => format!(
            "[v1@{0}U{1}]:v1=v1",
            "(".repeat(count * 100),
            ")".repeat(count * 100)
        ),
        _ => format!(":{}", "|U|=1^".repeat(count * 70)),
    }
    .into_bytes()
}

/// Quantifiers of which each names the one before twice: `{v}` stands for its variable, `{p}` for
/// its set.
pub fn doubling(first: &str, next: &str, count: usize) -> String {
    let mut out = format!("[v1@{first}]");
    let mut set = first.to_string();
    for number in 2..=count {
        set = next
            .replace("{p}", &set)
            .replace("{v}", &format!("v{}", number - 1));
        out += &format!("[v{number}@{set}]");
        if out.len() > 6_000 {
            break;
        }
    }
    format!("{out}:v{count}=v{count}")
}
