//! The safe calls, those that write with an allocated answer or into lent bytes.

use crate::{library, Forecast, Page, PageRefusal, RankStep, Refusal, Verdict};

/// The most bytes that an accepted rule has.
pub const MAX_RULE: usize = 256;

/// The most bytes that a formula of an accepted rule has.
pub const MAX_FORMULA: usize = 4_096;

/// The fewest bytes that accepted tables have: the counts of the ten sections.
pub const MIN_TABLES: usize = 10;

/// The most bytes that accepted tables have.
pub const MAX_TABLES: usize = 3_978;

/// The most bytes that a state has: a verdict, the rule's length, the longest rule and the largest tables.
pub const MAX_STATE: usize = Verdict::BYTES + 2 + MAX_RULE + MAX_TABLES;

/// The most variables that an accepted rule has.
pub const MAX_VARIABLES: usize = 8;

/// The most bytes of rules that a sheet is made of.
pub const MAX_RULES: usize = 32_768;

/// The most bytes that a line of a sheet has: a place of 5 digits, `broken`, two counts of 15 digits, a share of 3, eight
/// choices such as `v1=63`, and a blank before each field but the first.
pub const MAX_LINE: usize = 5 + 7 + 2 * 16 + 4 + MAX_VARIABLES * 6;

/// The stack that [`reduce`] takes at the most, in bytes.
pub const STACK_REDUCE: usize = 16 * 1024;

/// The stack that [`rebuild`] takes at the most, in bytes.
pub const STACK_REBUILD: usize = 48 * 1024;

/// The stack that [`judge`] takes at the most, in bytes.
pub const STACK_JUDGE: usize = 72 * 1024;

/// The stack that [`judge_page`] takes at the most, in bytes.
pub const STACK_JUDGE_PAGE: usize = 248 * 1024;

/// The stack that [`rank_step`] takes at the most, in bytes.
pub const STACK_RANK_STEP: usize = 16 * 1024;

/// The stack that [`forecast`] takes at the most, in bytes.
pub const STACK_FORECAST: usize = 24 * 1024;

/// The stack that [`sessions_start`](crate::sessions_start) takes at the most, in bytes.
pub const STACK_SESSIONS_START: usize = 64 * 1024;

/// The stack that [`session_open`](crate::session_open) takes at the most, in bytes.
pub const STACK_SESSION_OPEN: usize = 64 * 1024;

/// The stack that [`session_close`](crate::session_close) takes at the most, in bytes.
pub const STACK_SESSION_CLOSE: usize = 64 * 1024;

/// The stack that [`sheet_line`](crate::sheet_line) takes at the most, in bytes.
pub const STACK_SHEET_LINE: usize = 64 * 1024;

/// The order that lists every variable in turn.
const IN_TURN: [u8; MAX_VARIABLES] = [1, 2, 3, 4, 5, 6, 7, 8];

/// A rule without variables, which any tables answer at once.
const NO_CHOICE: &[u8] = b"U=U";

/// The formula of a rule.
///
/// ```
/// use rcl2000::{reduce, Refusal};
///
/// assert_eq!(reduce(b"AO(U)={}").unwrap(), b"[v1@U]:(U-{v1})={}");
/// assert_eq!(reduce(b"AO(U)"), Err(Refusal::NotARule));
/// assert_eq!(reduce(b"roles(R)={}"), Err(Refusal::Kind));
/// ```
///
/// # Errors
///
/// What is wrong with the rule: a refusal from 11 to 15.
///
/// # Cost
///
/// Microseconds; at most 16 KiB of stack ([`STACK_REDUCE`]).
pub fn reduce(rule: &[u8]) -> Result<Vec<u8>, Refusal> {
    allocated(MAX_FORMULA, |out| reduce_into(rule, out))
}

/// Writes the formula of a rule into the first bytes of `out` and gives their number.
///
/// The rest of `out` keeps its contents, and all of it does on a refusal.
///
/// ```
/// use rcl2000::{reduce_into, Refusal};
///
/// let mut out = [b'.'; 10];
/// assert_eq!(reduce_into(b"|CR|=1", &mut out), Ok(7));
/// assert_eq!(&out, b":|CR|=1...");
/// assert_eq!(reduce_into(b"AO(U)={}", &mut out), Err(Refusal::ShortSheet));
/// assert_eq!(&out, b":|CR|=1...");
/// ```
///
/// # Errors
///
/// As [`reduce`]; then [`Refusal::ShortSheet`] where the formula is longer than `out`. No formula
/// is longer than [`MAX_FORMULA`].
///
/// # Cost
///
/// As [`reduce`].
pub fn reduce_into(rule: &[u8], out: &mut [u8]) -> Result<usize, Refusal> {
    length(library::reduce(rule, out))
}

/// The rule of a formula: the accepted rule that [`reduce`] gives this formula for.
///
/// ```
/// use rcl2000::{rebuild, Refusal};
///
/// assert_eq!(rebuild(b"[v1@U]:(U-{v1})={}").unwrap(), b"AO(U)={}");
/// assert_eq!(rebuild(b"[v1@U]:U=U"), Err(Refusal::NoRulesFormula));
/// ```
///
/// # Errors
///
/// [`Refusal::NoRulesFormula`], whatever is wrong with the formula.
///
/// # Cost
///
/// Microseconds, also for text that is meant to hurt; at most 48 KiB of stack
/// ([`STACK_REBUILD`]).
pub fn rebuild(formula: &[u8]) -> Result<Vec<u8>, Refusal> {
    allocated(MAX_RULE, |out| rebuild_into(formula, out))
}

/// Writes the rule of a formula into the first bytes of `out` and gives their number.
///
/// The rest of `out` keeps its contents, and all of it does on a refusal.
///
/// ```
/// let mut out = [0; rcl2000::MAX_RULE];
/// let length = rcl2000::rebuild_into(b":|CR|=1", &mut out)?;
/// assert_eq!(&out[..length], b"|CR|=1");
/// # Ok::<(), rcl2000::Refusal>(())
/// ```
///
/// # Errors
///
/// As [`rebuild`]; then [`Refusal::ShortSheet`] where the rule is longer than `out`. No rule is
/// longer than [`MAX_RULE`].
///
/// # Cost
///
/// As [`rebuild`].
pub fn rebuild_into(formula: &[u8], out: &mut [u8]) -> Result<usize, Refusal> {
    length(library::rebuild(formula, out))
}

/// The verdict on a rule, its choices walked in `order`.
///
/// The order lists the numbers of the rule's variables, from 1, each once and each after those
/// that its set names. It settles which breaking choice is the first, and nothing else; where that
/// is all one, [`judge_in_turn`] takes the order 1, 2, ..
///
/// ```
/// use rcl2000::{judge, Refusal, TablesBuilder, Word};
///
/// let mut tables = TablesBuilder::new();
/// let press = tables.role([]);
/// let lead = tables.role([press]);
/// tables.user([lead]);
/// let tables = tables.build()?;
///
/// // Everyone has a role, but not everyone has all of them ..
/// assert_eq!(judge(&tables, b"roles(OE(U))!={}", &[1])?.word, Word::Held);
/// // .. unless junior roles count. Nobody has a session, so nothing is said of sessions.
/// assert_eq!(judge(&tables, b"roles(OE(U))=R", &[1])?.word, Word::Broken);
/// assert_eq!(judge(&tables, b"roles*(OE(U))=R", &[1])?.word, Word::Held);
/// assert_eq!(judge(&tables, b"roles(OE(S))=R", &[1])?.word, Word::Idle);
///
/// assert_eq!(judge(&tables, b"roles(OE(U))=R", &[]), Err(Refusal::Order));
/// # Ok::<(), Box<dyn std::error::Error>>(())
/// ```
///
/// # Errors
///
/// What is wrong with the tables, a refusal from 1 to 10 or 20; else with the rule, 11 to 15; else with
/// the order, [`Refusal::Order`].
///
/// # Cost
///
/// Two variables take a tenth of a millisecond, and most rules of a committee a few milliseconds,
/// whatever their full choices and whatever the order: what was counted below a choice is not counted
/// again, and it is counted along an order that the library looks for. A rule with one clause over
/// many variables, or with sets inside sets, can still take some 20 to 100 ns for each full choice, up
/// to 2 µs where many calls stand inside each other, and these can be as many as 64 to the power of the
/// number of variables. Where a variable has no item to choose, nothing is walked. A call cannot be interrupted:
/// whoever judges rules that others wrote asks for a [`forecast`] first, or judges where it may run on. At
/// most 72 KiB of stack ([`STACK_JUDGE`]).
pub fn judge(tables: &[u8], rule: &[u8], order: &[u8]) -> Result<Verdict, Refusal> {
    let mut out = [0; Verdict::BYTES];
    judge_into(tables, rule, order, &mut out)?;
    Ok(Verdict::from_bytes(&out))
}

/// Writes the verdict on a rule into the first [`Verdict::BYTES`] bytes of `out` and gives their
/// number. [`Verdict::from_bytes`] reads them.
///
/// The rest of `out` keeps its contents, and all of it does on a refusal.
///
/// ```
/// use rcl2000::{judge_into, Verdict, Word};
///
/// let nobody = [0; rcl2000::MIN_TABLES];
/// let mut out = [0; Verdict::BYTES];
/// judge_into(&nobody, b"roles(OE(U))={}", &[1], &mut out)?;
/// assert_eq!(Verdict::from_bytes(&out).word, Word::Idle);
/// # Ok::<(), rcl2000::Refusal>(())
/// ```
///
/// # Errors
///
/// As [`judge`]; then [`Refusal::ShortSheet`] where `out` has fewer bytes than a verdict.
///
/// # Cost
///
/// As [`judge`].
pub fn judge_into(
    tables: &[u8],
    rule: &[u8],
    order: &[u8],
    out: &mut [u8],
) -> Result<usize, Refusal> {
    length(library::judge(tables, rule, order, out))
}

/// The verdict on a rule, its choices walked in the order 1, 2, .., as the day sheet has it.
///
/// ```
/// use rcl2000::{judge_in_turn, Refusal};
///
/// let nobody = [0; rcl2000::MIN_TABLES];
/// assert_eq!(judge_in_turn(&nobody, b"OE(U)=OE(U)")?.to_string(), "idle 0 0 -");
/// assert_eq!(judge_in_turn(&nobody, b"OE(U)=U"), Err(Refusal::Kind));
/// assert_eq!(judge_in_turn(&[], b"OE(U)=U"), Err(Refusal::CutShort));
/// # Ok::<(), rcl2000::Refusal>(())
/// ```
///
/// # Errors
///
/// What is wrong with the tables, a refusal from 1 to 10 or 20; else with the rule, 11 to 15.
///
/// # Cost
///
/// As [`judge`].
pub fn judge_in_turn(tables: &[u8], rule: &[u8]) -> Result<Verdict, Refusal> {
    // A rule that is refused has no variables. `judge` then says so, unless it refuses the tables.
    let count = variables(rule).map_or(0, usize::from);
    judge(tables, rule, &IN_TURN[..count.min(MAX_VARIABLES)])
}

/// The verdict on a page of rules: 1 to 32 lines in the form of `rules.txt`, each judged in the order
/// 1, 2, ..
///
/// A line ends at byte 10, the last one also where the page ends. Nothing else is taken from a line,
/// so that an empty one, or one with a carriage return, is refused as such a rule is.
///
/// ```
/// use rcl2000::{judge_in_turn, judge_page, PageRefusal, Refusal, TablesBuilder, Word};
///
/// let mut tables = TablesBuilder::new();
/// let (tester, grader) = (tables.role([]), tables.role([]));
/// tables.user([tester, grader]);
/// tables.user([tester]);
/// tables.conflicting_roles([tester, grader]);
/// let tables = tables.build()?;
///
/// let rules = ["|(roles(OE(U))&OE(CR))|<=1", "|(roles(OE(U))&OE(CR))|>0", "|CR|=1"];
/// let page = judge_page(&tables, rules.join("\n").as_bytes())?;
/// assert_eq!(page.word, Word::Broken);
/// assert_eq!((page.full, page.breaking), (5, 1));
/// // The first two lines choose alike and share a walk.
/// assert_eq!(page.walks, 2);
/// for (rule, verdict) in rules.iter().zip(page.lines()) {
///     assert_eq!(*verdict, judge_in_turn(&tables, rule.as_bytes())?);
/// }
///
/// let refused = judge_page(&tables, b"|CR|=1\n\n").unwrap_err();
/// assert_eq!(refused, PageRefusal { refusal: Refusal::RuleLength, position: 2 });
/// # Ok::<(), Box<dyn std::error::Error>>(())
/// ```
///
/// # Errors
///
/// What is wrong with the tables, a refusal from 1 to 10 or 20; else [`Refusal::Page`] where there is no
/// line or more than [`MAX_LINES`](crate::MAX_LINES); else what is wrong with the first line that is
/// refused, 11 to 15, with its position.
///
/// # Cost
///
/// About as [`judge`] for each line, and the tables are read once. Lines with the same quantifiers share
/// one walk where the tables do not allow too many choices, which takes clearly less time where many lines
/// share their terms; a few lines about different things may take up to twice as long. At most 248 KiB of stack ([`STACK_JUDGE_PAGE`]).
pub fn judge_page(tables: &[u8], page: &[u8]) -> Result<Page, PageRefusal> {
    let mut out = [0; Page::MAX_BYTES];
    let length = judge_page_into(tables, page, &mut out)?;
    Ok(Page::from_bytes(&out[..length]).expect("the library writes the bytes of a page"))
}

/// Writes the verdict on a page into the first [`Page::bytes`] bytes of `out` and gives their number.
/// [`Page::from_bytes`] reads them.
///
/// The rest of `out` keeps its contents, and all of it does on a refusal.
///
/// ```
/// use rcl2000::{judge_page_into, Page, Refusal};
///
/// let nobody = [0; rcl2000::MIN_TABLES];
/// let mut out = [0; Page::bytes(2)];
/// assert_eq!(judge_page_into(&nobody, b"U=U\nR=R\n", &mut out)?, 70);
/// let refused = judge_page_into(&nobody, b"U=U\nR=R\nS=S\n", &mut out).unwrap_err();
/// assert_eq!((refused.refusal, refused.position), (Refusal::ShortSheet, 0));
/// # Ok::<(), rcl2000::PageRefusal>(())
/// ```
///
/// # Errors
///
/// As [`judge_page`]; then [`Refusal::ShortSheet`] where `out` has fewer bytes than the verdict. None
/// has more than [`Page::MAX_BYTES`].
///
/// # Cost
///
/// As [`judge_page`].
pub fn judge_page_into(tables: &[u8], page: &[u8], out: &mut [u8]) -> Result<usize, PageRefusal> {
    let reply = library::judge_page(tables, page, out);
    length(reply).map_err(|refusal| PageRefusal {
        refusal,
        // The low half of the number.
        position: reply as u16,
    })
}

/// How many variables a rule has: the quantifiers of its formula. The numbers from 1 up to it are
/// an order for [`judge`].
///
/// ```
/// use rcl2000::variables;
///
/// assert_eq!(variables(b"|CR|=1")?, 0);
/// assert_eq!(variables(b"|(roles(OE(U))&OE(CR))|<=1")?, 2);
/// # Ok::<(), rcl2000::Refusal>(())
/// ```
///
/// # Errors
///
/// What is wrong with the rule: a refusal from 11 to 15.
///
/// # Cost
///
/// As [`reduce`], and 4 KiB of stack more.
pub fn variables(rule: &[u8]) -> Result<u8, Refusal> {
    let mut out = [0; MAX_FORMULA];
    let length = reduce_into(rule, &mut out)?;
    // Each quantifier opens one `[`, and nothing else does.
    let opened = out.iter().take(length).filter(|&&byte| byte == b'[');
    Ok(opened.count() as u8)
}

/// Whether the library accepts a rule, whatever the tables.
///
/// ```
/// use rcl2000::{check_rule, Refusal};
///
/// assert_eq!(check_rule(b"|CR|=1"), Ok(()));
/// assert_eq!(check_rule(b"|CR|=1 "), Err(Refusal::NotARule));
/// ```
///
/// # Errors
///
/// What is wrong with the rule: a refusal from 11 to 15.
///
/// # Cost
///
/// As [`reduce`].
pub fn check_rule(rule: &[u8]) -> Result<(), Refusal> {
    accepted(reduce_into(rule, &mut []))
}

/// Whether the library accepts tables, whatever the rule.
///
/// ```
/// use rcl2000::{check_tables, Refusal, MIN_TABLES};
///
/// assert_eq!(check_tables(&[0; MIN_TABLES]), Ok(()));
/// // Tables that stop after section 9 have no Done.
/// assert_eq!(check_tables(&[0; MIN_TABLES - 1]), Err(Refusal::CutShort));
/// assert_eq!(check_tables(&[0; MIN_TABLES + 1]), Err(Refusal::LeftOver));
/// ```
///
/// # Errors
///
/// What is wrong with the tables: a refusal from 1 to 10, or 20. For 7, [`rank_step`] says more.
///
/// # Cost
///
/// Microseconds; stack as for [`judge`].
pub fn check_tables(tables: &[u8]) -> Result<(), Refusal> {
    accepted(judge_into(tables, NO_CHOICE, &[], &mut []))
}

/// The first step of the rank test that tables fail, where they are refused 7; `None` for all others,
/// accepted or refused by another number. It refuses nothing.
///
/// A hierarchy is reflexive, transitive and antisymmetric, tested in that sequence, each step over all
/// roles. [`TablesBuilder::build`](crate::TablesBuilder::build) names the rows at fault.
///
/// ```
/// use rcl2000::{check_tables, rank_step, RankStep, Refusal, Role, TablesBuilder};
///
/// let mut tables = TablesBuilder::new();
/// let [hand, leader, owner] = [0, 1, 2].map(Role::numbered);
/// tables.role_row([hand]);
/// tables.role_row([hand, leader]);
/// tables.role_row([leader, owner]);
/// let mut tables = tables.encode()?;
/// assert_eq!(check_tables(&tables), Err(Refusal::Rank));
/// let step = rank_step(&tables);
/// assert_eq!(step, Some(RankStep::Transitive));
/// assert_eq!(
///     step.unwrap().to_string(),
///     "not transitive: a role does not dominate a junior's junior"
/// );
///
/// // A byte too many is refused before the roles are looked at.
/// tables.push(0);
/// assert_eq!(check_tables(&tables), Err(Refusal::LeftOver));
/// assert_eq!(rank_step(&tables), None);
/// # Ok::<(), rcl2000::Unencodable>(())
/// ```
///
/// # Cost
///
/// Microseconds; at most 16 KiB of stack ([`STACK_RANK_STEP`]).
pub fn rank_step(tables: &[u8]) -> Option<RankStep> {
    RankStep::from_number(library::rank_step(tables))
}

/// The forecast for a rule: the exact length of its formula, and a ceiling on its full choices.
///
/// The ceiling is the product over the rule's variables of the items that each may have: the words in the
/// whole of CR, CP or CU where its set is a term of that kind, such as `AO(CR)`; for any other set the items
/// of its sort in the tables, however few the set has; of users those who have not left. Without variables it
/// is 1. It is at most 64 to the power of 8. Where it is 0 the rule is idle.
///
/// ```
/// use rcl2000::{forecast, judge_in_turn, reduce, Refusal, TablesBuilder, Word};
///
/// let mut tables = TablesBuilder::new();
/// let [tester, grader, weigher] = [(); 3].map(|_| tables.role([]));
/// tables.user([tester]);
/// tables.user([grader, weigher]);
/// tables.conflicting_roles([tester, grader]);
/// let tables = tables.build()?;
///
/// // Two users and one word of CR.
/// let rule = b"|(roles(OE(U))&OE(CR))|<=1";
/// let told = forecast(&tables, rule)?;
/// assert_eq!((told.length, told.ceiling), (reduce(rule)?.len(), 2));
///
/// // Two users and three roles, though nobody has all of them: only three choices are full.
/// let rule = b"OE(roles(OE(U)))@R";
/// assert_eq!(forecast(&tables, rule)?.ceiling, 6);
/// assert_eq!(judge_in_turn(&tables, rule)?.full, 3);
///
/// // Nobody has a session: judging sees at once that there is nothing to choose.
/// let rule = b"OE(sessions(OE(U)))@S";
/// assert_eq!(forecast(&tables, rule)?.ceiling, 0);
/// assert_eq!(judge_in_turn(&tables, rule)?.word, Word::Idle);
///
/// assert_eq!(forecast(&tables, b"OE(U)=U"), Err(Refusal::Kind));
/// assert_eq!(forecast(&[], b"OE(U)=U"), Err(Refusal::CutShort));
/// # Ok::<(), Box<dyn std::error::Error>>(())
/// ```
///
/// # Errors
///
/// What is wrong with the tables, a refusal from 1 to 10 or 20; else with the rule, 11 to 15.
///
/// # Cost
///
/// Microseconds, whatever the rule; at most 24 KiB of stack ([`STACK_FORECAST`]).
pub fn forecast(tables: &[u8], rule: &[u8]) -> Result<Forecast, Refusal> {
    let mut out = [0; Forecast::BYTES];
    forecast_into(tables, rule, &mut out)?;
    Ok(Forecast::from_bytes(&out))
}

/// Writes the forecast for a rule into the first [`Forecast::BYTES`] bytes of `out` and gives their
/// number. [`Forecast::from_bytes`] reads them.
///
/// The rest of `out` keeps its contents, and all of it does on a refusal.
///
/// ```
/// use rcl2000::{forecast_into, Forecast, Refusal};
///
/// let nobody = [0; rcl2000::MIN_TABLES];
/// let mut out = [7; 20];
/// assert_eq!(forecast_into(&nobody, b"OE(U)@U", &mut out), Ok(Forecast::BYTES));
/// assert_eq!(out, [11, 0, 0, 0, 0, 0, 0, 0, 0, 0, 0, 0, 0, 0, 0, 0, 7, 7, 7, 7]);
/// assert_eq!(forecast_into(&nobody, b"U=U", &mut out[..15]), Err(Refusal::ShortSheet));
/// ```
///
/// # Errors
///
/// As [`forecast`]; then [`Refusal::ShortSheet`] where `out` has fewer bytes than a forecast.
///
/// # Cost
///
/// As [`forecast`].
pub fn forecast_into(tables: &[u8], rule: &[u8], out: &mut [u8]) -> Result<usize, Refusal> {
    length(library::forecast(tables, rule, out))
}

/// Whether a call with an empty output accepted its inputs: no answer is empty, and the output's
/// length is looked at last.
fn accepted(reply: Result<usize, Refusal>) -> Result<(), Refusal> {
    match reply {
        Ok(_) | Err(Refusal::ShortSheet) => Ok(()),
        Err(refusal) => Err(refusal),
    }
}

/// What `write` puts into a buffer that is as long as any of its answers.
pub(crate) fn allocated(
    longest: usize,
    write: impl FnOnce(&mut [u8]) -> Result<usize, Refusal>,
) -> Result<Vec<u8>, Refusal> {
    let mut out = vec![0; longest];
    let length = write(&mut out)?;
    out.truncate(length);
    Ok(out)
}

/// The library's one number: a length, or 65,536 times a refusal's number, and then a position.
pub(crate) fn length(reply: u32) -> Result<usize, Refusal> {
    match Refusal::from_number(reply >> 16) {
        None => Ok(reply as usize),
        Some(refusal) => Err(refusal),
    }
}

#[cfg(test)]
mod tests {
    use super::*;

    #[test]
    fn a_reply_is_a_length_or_a_refusal_known_or_not() {
        assert_eq!(length(0), Ok(0));
        assert_eq!(length(65_535), Ok(65_535));
        assert_eq!(length(13 << 16), Err(Refusal::NotARule));
        for number in 24..=26 {
            let refusal = length(number << 16).unwrap_err();
            assert_eq!(refusal, Refusal::Unknown { number });
        }
    }
}
