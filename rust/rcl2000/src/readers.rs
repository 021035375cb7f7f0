//! The day sheet as a reader sees it, who is shown some of the users and nothing of the others: one line of it,
//! allocated or in lent bytes, and the whole.

use crate::calls::length;
use crate::{check_tables, library, Refusal, User, MAX_LINE};

/// Whom a reader of a sheet may see: some of the users.
///
/// ```
/// use rcl2000::{Reader, TablesBuilder, User};
///
/// let mut tables = TablesBuilder::new();
/// let (ana, clara, dino) = (tables.user([]), tables.user([]), tables.user([]));
/// let laboratory = Reader::of([clara, dino]);
/// assert_eq!(laboratory, Reader::from_word(0b110));
/// assert_eq!(laboratory, [1, 2].map(User::numbered).into_iter().collect());
/// // Everybody, and a reader who sees nobody.
/// assert_eq!(Reader::everyone(3), Reader::of([ana, clara, dino]));
/// assert_eq!(Reader::default(), Reader::of([]));
/// ```
#[derive(Clone, Copy, PartialEq, Eq, Hash, Debug)]
pub struct Reader {
    /// Bit i stands for user i. `None` where a user is among them for whom a word has no bit: no tables have one.
    word: Option<u64>,
}

impl Reader {
    /// The reader of these users, who may have left.
    pub fn of(users: impl IntoIterator<Item = User>) -> Reader {
        let word = users.into_iter().try_fold(0, |word, user| {
            let number = user.number();
            (number < 64).then(|| word | 1 << number)
        });
        Reader { word }
    }

    /// The reader of all users of tables that have so many, who sees the day sheet itself.
    pub fn everyone(users: usize) -> Reader {
        Reader::of((0..users).map(User::numbered))
    }

    /// The reader of the users of a word: bit i stands for user i.
    pub const fn from_word(word: u64) -> Reader {
        Reader { word: Some(word) }
    }

    /// The word of the reader's users; `None` where one of them has a number from 64, whom no tables have.
    ///
    /// ```
    /// use rcl2000::{Reader, User};
    ///
    /// assert_eq!(Reader::of([63, 0].map(User::numbered)).word(), Some(1 << 63 | 1));
    /// assert_eq!(Reader::of([64, 0].map(User::numbered)).word(), None);
    /// ```
    pub const fn word(self) -> Option<u64> {
        self.word
    }
}

impl Default for Reader {
    /// The reader who sees nobody.
    fn default() -> Reader {
        Reader::from_word(0)
    }
}

impl FromIterator<User> for Reader {
    fn from_iter<I: IntoIterator<Item = User>>(users: I) -> Reader {
        Reader::of(users)
    }
}

/// One line of the day sheet as the reader sees it, without an end of line; `None` where the sheet has no line at this
/// place.
///
/// The rules are the lines of `rules.txt`, and places count from 1. Behind the lines of the rules stands the total: at
/// place L + 1, where there are L rules. Rules of more than [`MAX_RULES`](crate::MAX_RULES) bytes have a sheet of the one
/// line `rules too long`. The tables are those that everybody's sheet is made of; what the reader is not to see is taken
/// out by the library, as the crate's page says under "What a reader sees".
///
/// ```
/// use rcl2000::{sheet_line, Reader, Refusal, TablesBuilder, User};
///
/// let mut tables = TablesBuilder::new();
/// let (weigher, blender) = (tables.role([]), tables.role([]));
/// tables.conflicting_roles([weigher, blender]);
/// let (dino, elsa) = (tables.user([weigher]), tables.user([weigher, blender]));
/// let tables = tables.build()?;
/// let rules = b"|(roles(OE(U))&OE(CR))|<=1\n";
///
/// let line = |users: &[User], place| sheet_line(&tables, Reader::of(users.iter().copied()), rules, place);
/// assert_eq!(line(&[dino, elsa], 1)?.as_deref(), Some("1 broken 2 1 50 v1=1 v2=0"));
/// assert_eq!(line(&[dino], 1)?.as_deref(), Some("1 held 1 0 0"));
/// assert_eq!(line(&[dino], 2)?.as_deref(), Some("total 1 held 1 idle 0 broken 0 refused 0"));
/// assert_eq!((line(&[dino], 0)?, line(&[dino], 3)?), (None, None));
/// // There is no user 2.
/// assert_eq!(line(&[User::numbered(2)], 0), Err(Refusal::Reader));
/// # Ok::<(), Box<dyn std::error::Error>>(())
/// ```
///
/// # Errors
///
/// What is wrong with the tables, a refusal from 1 to 10 or 20; else [`Refusal::Reader`] where the tables do not have one
/// of the reader's users. A rule that is refused is a line: `N refused 13`.
///
/// # Cost
///
/// As [`judge`](crate::judge) for the rule of the line; the total takes what judging all rules does. At most 64 KiB of
/// stack ([`STACK_SHEET_LINE`](crate::STACK_SHEET_LINE)).
pub fn sheet_line(
    tables: &[u8],
    reader: Reader,
    rules: &[u8],
    place: usize,
) -> Result<Option<String>, Refusal> {
    let mut out = [0; MAX_LINE];
    let length = sheet_line_into(tables, reader, rules, place, &mut out)?;
    // Lines are ASCII, and none is empty.
    let line: String = out[..length].iter().copied().map(char::from).collect();
    Ok(Some(line).filter(|line| !line.is_empty()))
}

/// Writes the line of [`sheet_line`] into the first bytes of `out` and gives their number: 0 where the sheet has no line at
/// this place.
///
/// The rest of `out` keeps its contents, and all of it does on a refusal.
///
/// ```
/// use rcl2000::{sheet_line_into, Reader, Refusal};
///
/// let (nobody, reader) = ([0; rcl2000::MIN_TABLES], Reader::default());
/// let mut out = [b'.'; 14];
/// assert_eq!(sheet_line_into(&nobody, reader, b"U={}\n", 1, &mut out), Ok(12));
/// assert_eq!(&out, b"1 held 1 0 0..");
/// // The total is longer. Where there is no line, nothing is too short for it.
/// assert_eq!(sheet_line_into(&nobody, reader, b"U={}\n", 2, &mut out), Err(Refusal::ShortSheet));
/// assert_eq!(sheet_line_into(&nobody, reader, b"U={}\n", 3, &mut []), Ok(0));
/// assert_eq!(&out, b"1 held 1 0 0..");
/// ```
///
/// # Errors
///
/// As [`sheet_line`]; then [`Refusal::ShortSheet`] where there is a line and it is longer than `out`. No line is longer
/// than [`MAX_LINE`].
///
/// # Cost
///
/// As [`sheet_line`].
pub fn sheet_line_into(
    tables: &[u8],
    reader: Reader,
    rules: &[u8],
    place: usize,
    out: &mut [u8],
) -> Result<usize, Refusal> {
    match reader.word {
        Some(word) => length(library::sheet_line(tables, word, rules, place, out)),
        // Whom no tables have is looked for behind what is wrong with these, as any other is.
        None => check_tables(tables).and(Err(Refusal::Reader)),
    }
}

/// The day sheet as the reader sees it: its lines, the total among them, each as [`sheet_line`] gives it.
///
/// ```
/// use rcl2000::{sheet, Reader};
///
/// let nobody = [0; rcl2000::MIN_TABLES];
/// let lines = sheet(&nobody, Reader::default(), b"U={}\nOE(U)=U\n")?;
/// assert_eq!(lines, ["1 held 1 0 0", "2 refused 14", "total 2 held 1 idle 0 broken 0 refused 1"]);
/// let long = vec![b'\n'; rcl2000::MAX_RULES + 1];
/// assert_eq!(sheet(&nobody, Reader::default(), &long)?, ["rules too long"]);
/// # Ok::<(), rcl2000::Refusal>(())
/// ```
///
/// # Errors
///
/// As [`sheet_line`].
///
/// # Cost
///
/// As [`sheet_line`] for each line. Every rule is judged twice, once for its line and once for the total, and every call
/// looks for its line from the beginning: half a second, where the rules are as many empty lines as there may be.
pub fn sheet(tables: &[u8], reader: Reader, rules: &[u8]) -> Result<Vec<String>, Refusal> {
    let line = |place| sheet_line(tables, reader, rules, place);
    (1..).map_while(|place| line(place).transpose()).collect()
}
