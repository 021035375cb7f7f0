//! Tables: accepted ones of any size, and ones with each thing that is refused.

use rcl2000::{Object, Operation, Permission, Role, TablesBuilder, User};

use crate::leavers::STILL;
use crate::random::Random;
use crate::{damage, done};

/// Tables as plain values; every row's word of items.
#[derive(Clone, Default)]
pub struct Plain {
    pub roles: Vec<u64>,
    pub users: Vec<u64>,
    /// The users who left.
    pub left: u64,
    pub sessions: Vec<(u8, u64)>,
    pub operations: usize,
    pub objects: usize,
    pub permissions: Vec<u64>,
    pub cr: Vec<u64>,
    pub cu: Vec<u64>,
    pub cp: Vec<u64>,
    /// Rows of a user, an operation and an object.
    pub done: Vec<[u8; done::ROW]>,
}

/// Accepted tables with at most `most` items in a section (operations and objects: 8).
pub fn accepted(random: &mut Random, most: usize) -> Plain {
    sized(random, 0, most)
}

/// Accepted tables with 1 to `most` items in a section (operations and objects: 8).
pub fn filled(random: &mut Random, most: usize) -> Plain {
    sized(random, 1, most)
}

fn sized(random: &mut Random, least: usize, most: usize) -> Plain {
    let mut size = |limit: usize| random.between(least.min(limit), limit);
    let (roles, users, sessions) = (size(most), size(most), size(most));
    let (operations, objects) = (size(most.min(8)), size(most.min(8)));
    let (cr, cu, cp, done) = (size(most), size(most), size(most), size(most));
    let mut plain = with_sizes(
        random,
        [
            roles, users, sessions, operations, objects, cr, cu, cp, done,
        ],
    );
    if random.once_in(3) {
        plain.leave_some(random, least);
    }
    if !random.once_in(4) {
        plain.open_juniors(random);
    }
    plain
}

/// Accepted tables with exactly `size` items in a section (operations and objects: at most 8).
pub fn of_size(random: &mut Random, size: usize) -> Plain {
    sized(random, size, size)
}

/// Accepted tables with every section as long as it may be; sessions have assigned roles alone.
pub fn full(random: &mut Random) -> Plain {
    with_sizes(random, [64, 64, 64, 8, 8, 64, 64, 64, 64])
}

/// The same, with juniors of these open in the sessions.
pub fn full_of_juniors(random: &mut Random) -> Plain {
    let mut plain = full(random);
    plain.open_juniors(random);
    plain
}

/// Tables of an office with at most `most` items in a section: eight departments of as many ranks,
/// users with one role of their department, each permission held by one role, pairs across
/// departments in conflict, and for each user an operation done. Few users differ, so that the papers' rules
/// hold of almost every choice; one user has roles of two departments, and did two operations on one object.
pub fn office(random: &mut Random, most: usize) -> Plain {
    let ranks = (most / 8).max(1);
    let side = most.min(8);
    let senior =
        |role: usize| (role - role % ranks..=role).fold(0, |row, junior| row | 1 << junior);
    let duty = |department: usize| 1 << (department * ranks + ranks / 2);
    let roles = u64::MAX.checked_shr(64 - most as u32).unwrap_or(0);
    let mut users: Vec<u64> = (0..most).map(|user| duty(user % 6) & roles).collect();
    let did = |user: usize| [user, user % side, user / 8 % side].map(|number| number as u8);
    let mut done: Vec<[u8; done::ROW]> = (0..most).map(did).collect();
    if most > 0 {
        let breaker = random.below(most);
        users[breaker] |= duty(breaker % 6 + 1) & roles;
        // In the place of the next user's.
        let [user, operation, object] = did(breaker);
        done[(breaker + 1) % most] = [user, (operation + 1) % side as u8, object];
    }
    Plain {
        roles: (0..most).map(senior).collect(),
        sessions: (0..most).map(|user| (user as u8, users[user])).collect(),
        users,
        operations: side,
        objects: side,
        permissions: (0..side * side).map(|number| 1 << number & roles).collect(),
        cr: pairs(random, most, most),
        cu: pairs(random, most, most),
        cp: pairs(random, most, side * side),
        done,
        ..Plain::default()
    }
}

/// Accepted tables, an office's or others, with fewer and fewer items until they are few enough.
pub fn cut(random: &mut Random, few: impl Fn(&reference::tables::Tables) -> bool) -> Vec<u8> {
    let mut most = 64;
    loop {
        let mut tables = match random.below(2) {
            0 => filled(random, most),
            _ => office(random, most),
        };
        if random.once_in(4) {
            tables.leave_some(random, 1);
        }
        let tables = tables.bytes();
        let read = reference::tables::read(&tables).expect("made to be accepted");
        if most == 1 || few(&read) {
            return tables;
        }
        most = (most - most / 8 - 1).max(1);
    }
}

/// At most `count` pairs of items that stand in different eighths.
fn pairs(random: &mut Random, count: usize, items: usize) -> Vec<u64> {
    let mut words = Vec::new();
    for _ in 0..8 * count {
        let (one, other) = (random.below(items), random.below(items));
        let word = 1 << one | 1 << other;
        let apart = one * 8 / items != other * 8 / items;
        if apart && words.len() < count && !words.contains(&word) {
            words.push(word);
        }
    }
    words
}

fn with_sizes(random: &mut Random, sizes: [usize; 9]) -> Plain {
    let [roles, users, sessions, operations, objects, cr, cu, cp, done] = sizes;
    let permissions = operations * objects;
    let mut plain = Plain {
        roles: hierarchy(random, roles),
        users: (0..users).map(|_| random.items(roles)).collect(),
        operations,
        objects,
        permissions: (0..permissions).map(|_| random.items(roles)).collect(),
        cr: distinct(random, cr, roles),
        cu: distinct(random, cu, users),
        cp: distinct(random, cp, permissions),
        ..Plain::default()
    };
    if users > 0 {
        plain.sessions = (0..sessions)
            .map(|_| {
                let user = random.below(users);
                (user as u8, plain.users[user] & random.items(64))
            })
            .collect();
    }
    plain.perform(random, done);
    plain
}

/// Role rows of 64 roles of which each dominates all before it.
pub fn chain() -> Vec<u64> {
    (0..64).map(|role| u64::MAX >> (63 - role)).collect()
}

/// Role rows of a random hierarchy: the juniors of juniors included.
fn hierarchy(random: &mut Random, count: usize) -> Vec<u64> {
    let mut rank: Vec<usize> = (0..count).collect();
    random.shuffle(&mut rank);
    let sparse = random.between(1, 20);
    let mut rows = vec![0; count];
    for (place, &role) in rank.iter().enumerate() {
        rows[role] = 1 << role;
        for &junior in &rank[..place] {
            if random.once_in(sparse + 1) {
                rows[role] |= rows[junior];
            }
        }
    }
    rows
}

/// At most `count` different words.
fn distinct(random: &mut Random, count: usize, items: usize) -> Vec<u64> {
    let mut words = Vec::new();
    for _ in 0..count {
        let word = random.items(items);
        if !words.contains(&word) {
            words.push(word);
        }
    }
    words
}

impl Plain {
    pub fn bytes(&self) -> Vec<u8> {
        let mut out = Vec::new();
        let words = |out: &mut Vec<u8>, words: &[u64], mark: &[u8]| {
            out.push(words.len() as u8);
            for word in words {
                out.extend_from_slice(mark);
                out.extend(word.to_le_bytes());
            }
        };
        words(&mut out, &self.roles, &[]);
        out.push(self.users.len() as u8);
        for (user, roles) in self.users.iter().enumerate() {
            out.push(1 + u8::from(self.has_left(user)));
            out.extend(roles.to_le_bytes());
        }
        out.push(self.sessions.len() as u8);
        for (user, roles) in &self.sessions {
            out.push(*user);
            out.extend(roles.to_le_bytes());
        }
        out.extend([self.operations as u8, self.objects as u8]);
        words(&mut out, &self.permissions, &[1]);
        words(&mut out, &self.cr, &[]);
        words(&mut out, &self.cu, &[]);
        words(&mut out, &self.cp, &[]);
        out.push(self.done.len() as u8);
        out.extend(self.done.concat());
        out
    }

    /// The same tables by the crate's builder, each role by its whole row.
    pub fn builder(&self) -> TablesBuilder {
        let mut builder = TablesBuilder::new();
        for &row in &self.roles {
            builder.role_row(items(row).map(Role::numbered));
        }
        self.others(&mut builder);
        builder
    }

    /// The same tables by the crate's builder, each role by its direct juniors.
    pub fn builder_by_juniors(&self) -> TablesBuilder {
        let mut builder = TablesBuilder::new();
        for (number, &row) in self.roles.iter().enumerate() {
            let below = row & !(1 << number);
            let beyond =
                items(below).fold(0, |word, junior| word | self.roles[junior] & !(1 << junior));
            builder.role(items(below & !beyond).map(Role::numbered));
        }
        self.others(&mut builder);
        builder
    }

    /// Adds the other sections.
    fn others(&self, builder: &mut TablesBuilder) {
        let roles = |word: u64| items(word).map(Role::numbered);
        for (user, &word) in self.users.iter().enumerate() {
            match self.has_left(user) {
                true => builder.user_left(),
                false => builder.user(roles(word)),
            };
        }
        for &(user, word) in &self.sessions {
            builder.session(User::numbered(user.into()), roles(word));
        }
        for _ in 0..self.operations {
            builder.operation();
        }
        for _ in 0..self.objects {
            builder.object();
        }
        for (number, &word) in self.permissions.iter().enumerate() {
            builder.held_by(self.permission(number), roles(word));
        }
        for &word in &self.cr {
            builder.conflicting_roles(roles(word));
        }
        for &word in &self.cu {
            builder.conflicting_users(items(word).map(User::numbered));
        }
        for &word in &self.cp {
            builder.conflicting_permissions(items(word).map(|number| self.permission(number)));
        }
        for row in &self.done {
            let [user, operation, object] = row.map(usize::from);
            builder.done(
                User::numbered(user),
                Operation::numbered(operation),
                Object::numbered(object),
            );
        }
    }

    /// The permission with a number. Tables without objects have none; it is then out of range.
    fn permission(&self, number: usize) -> Permission {
        let objects = self.objects.max(1);
        Permission {
            operation: Operation::numbered(number / objects),
            object: Object::numbered(number % objects),
        }
    }

    /// The roles that a user is assigned and those junior to them, which sessions may have active.
    pub fn reached(&self, user: usize) -> u64 {
        items(self.users[user]).fold(0, |word, role| word | self.roles[role])
    }

    /// Opens each session anew, with some of the roles that its user has or that are junior to them.
    pub fn open_juniors(&mut self, random: &mut Random) {
        let users = self.sessions.iter().map(|&(user, _)| user);
        let open = |user: u8| (user, self.reached(user.into()) & random.items(64));
        self.sessions = users.map(open).collect();
    }

    /// How many sessions have a role active that their user is not assigned.
    pub fn beyond_assigned(&self) -> usize {
        let beyond = |&&(user, active): &&(u8, u64)| active & !self.users[user as usize] != 0;
        self.sessions.iter().filter(beyond).count()
    }

    /// The roles senior to one that the user is assigned; none where there is no such user.
    fn seniors(&self, user: u8) -> u64 {
        let assigned = self.users.get(user as usize).map_or(0, |&word| word);
        let above = |role: &usize| self.roles[*role] & assigned & !(1 << role) != 0;
        let seniors = (0..self.roles.len().min(64)).filter(above);
        seniors.fold(0, |word, role| word | 1 << role)
    }

    /// Changes the hierarchy, where there are roles to do it with: a role misses itself, or a junior's
    /// junior, or two are above each other, with all that either dominates, or one is above another more.
    pub fn unrank(&mut self, random: &mut Random) {
        let rows = &mut self.roles;
        if rows.is_empty() {
            return;
        }
        let (one, other) = (random.below(rows.len()), random.below(rows.len()));
        // A role that misses itself settles the step, so it is rarer than the others.
        match random.below(6) {
            0 => rows[one] &= !(1 << one),
            1 | 2 => {
                let below = |role: usize| items(rows[role] & !(1 << role));
                let beyond: Vec<usize> = below(one).flat_map(below).collect();
                if !beyond.is_empty() {
                    rows[one] &= !(1 << random.pick(&beyond));
                }
            }
            3 | 4 => {
                let (both, all) = (1 << one | 1 << other, rows[one] | rows[other]);
                let above = rows.iter_mut().filter(|row| **row & both != 0);
                above.for_each(|row| *row |= all);
            }
            _ => rows[one] |= 1 << other,
        }
    }

    /// Makes one thing wrong that a check looks for, where there is a row to do it in.
    pub fn spoil(&mut self, random: &mut Random) {
        let stray = 1u64 << random.below(64);
        let (roles, users) = (self.roles.len(), self.users.len());
        match random.below(15) {
            0 => change(random, &mut self.roles, |row| row ^ stray),
            1 => change(random, &mut self.users, |row| row | stray),
            2 => change(random, &mut self.permissions, |row| row ^ stray),
            3 => twin(random, &mut self.cr),
            4 => twin(random, &mut self.cu),
            5 => twin(random, &mut self.cp),
            6 if !self.sessions.is_empty() => {
                let session = random.below(self.sessions.len());
                self.sessions[session].1 = random.items(roles);
            }
            7 if !self.sessions.is_empty() => {
                let session = random.below(self.sessions.len());
                self.sessions[session].0 = random.below(users + 3) as u8;
            }
            8 => self.objects = random.below(10),
            9 => {
                let lists = [&mut self.roles, &mut self.users, &mut self.cr, &mut self.cu];
                let list = lists.into_iter().nth(random.below(4)).unwrap();
                list.resize(random.between(64, 66), 0);
            }
            10 if !self.sessions.is_empty() => {
                let session = random.below(self.sessions.len());
                self.sessions[session].1 |= self.seniors(self.sessions[session].0);
            }
            // With all that the user had.
            11 if users > 0 => self.left |= 1 << random.below(users.min(64)),
            12 if self.left != 0 && roles > 0 => {
                let still = *random.pick(&STILL);
                self.keep(random, still);
            }
            13 => self.overstep(random),
            14 => self.fill_up(random),
            _ => {}
        }
    }
}

fn change(random: &mut Random, rows: &mut [u64], to: impl Fn(u64) -> u64) {
    if !rows.is_empty() {
        let row = random.below(rows.len());
        rows[row] = to(rows[row]);
    }
}

fn twin(random: &mut Random, words: &mut Vec<u64>) {
    if !words.is_empty() {
        let word = *random.pick(words);
        let place = random.below(words.len() + 1);
        words.insert(place, word);
    }
}

pub(crate) fn items(word: u64) -> impl Iterator<Item = usize> {
    (0..64).filter(move |item| word >> item & 1 == 1)
}

/// Tables of some sort: accepted, spoiled, damaged or full.
pub fn any(random: &mut Random) -> Vec<u8> {
    let most = [0, 1, 2, 3, 5, 9, 20, 64][random.below(8)];
    let mut plain = match random.once_in(20) {
        true => full_of_juniors(random),
        false => accepted(random, most),
    };
    if plain.left == 0 && random.once_in(10) {
        plain.leave_some(random, 0);
    }
    let wrong = random.below(4);
    if wrong & 1 == 1 {
        for _ in 0..random.between(1, 2) {
            plain.spoil(random);
        }
    }
    let mut bytes = match random.below(20) {
        0 | 1 => plain.remarked(random),
        2 => plain.ended(random),
        _ => plain.bytes(),
    };
    if wrong & 2 == 2 {
        for _ in 0..random.between(1, 2) {
            damage::bytes(random, &mut bytes);
        }
    }
    bytes
}

/// Tables that are accepted but for their hierarchy, which one to three changes let fail a step, mostly.
pub fn unranked(random: &mut Random) -> Plain {
    let most = [1, 3, 5, 9, 20, 40, 64][random.below(7)];
    let mut plain = filled(random, most);
    for _ in 0..random.between(1, 3) {
        plain.unrank(random);
    }
    plain
}

/// The bytes of tables with one thing more wrong, in a row or in a byte, of those that are looked for
/// before the rank test or after it.
pub fn spoiled(random: &mut Random, mut plain: Plain) -> Vec<u8> {
    if random.once_in(2) {
        plain.spoil(random);
        return plain.bytes();
    }
    let mut bytes = plain.bytes();
    damage::bytes(random, &mut bytes);
    bytes
}
