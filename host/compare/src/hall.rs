//! A hall made at random: users, environments, policy and fields that mostly
//! make an opening that is accepted.

use crate::rng::Rng;
use crate::words::{self, Name, NAME};

pub type Path = Vec<Name>;

/// The most keys of a path and names of a step.
pub const DEPTH: usize = 6;
const LISTED: usize = 4;

/// The most fields and allowances together.
pub const FIELDS: usize = 256;

/// The longest standard spelling of a policy path.
const SPELLING: usize = 121;

pub struct User {
    pub name: Name,
    pub role: Name,
    pub key: Name,
    pub allowance: Vec<u8>,
}

pub struct Setting {
    pub user: Name,
    pub name: Name,
    pub value: Name,
}

pub enum Step {
    Any,
    Names(Vec<Name>),
    First(Name),
    Each(Name),
}

pub struct Rule {
    pub role: Name,
    pub writes: bool,
    pub steps: Vec<Step>,
}

pub struct Field {
    pub path: Path,
    pub value: Vec<u8>,
}

#[derive(Default)]
pub struct Hall {
    pub names: Vec<Name>,
    /// Names of the environments.
    own: Vec<Name>,
    pub users: Vec<User>,
    pub settings: Vec<Setting>,
    pub rules: Vec<Rule>,
    pub fields: Vec<Field>,
    /// How often something is badly made, one in so many times; 0 is never.
    pub oddity: usize,
}

/// How paths are kept from tangling.
#[derive(Clone, Copy)]
enum Shape {
    /// All have one depth.
    Level(usize),
    /// The first key tells the depth.
    Grouped,
    /// Nothing is done about it.
    Free,
}

impl Hall {
    pub fn random(rng: &mut Rng) -> Hall {
        let oddity = if rng.one_in(6) { rng.between(20, 300) } else { 0 };
        let vocabulary = if rng.one_in(3) { rng.between(18, 40) } else { rng.between(6, 12) };
        let names = words::names(rng, vocabulary);
        let own = (0..rng.between(1, 3)).map(|_| words::plain(rng)).collect();
        let hall = Hall { names, own, oddity, ..Hall::default() };
        let shape = shape(rng);
        Maker { rng, hall, shape }.make()
    }

    /// A path with random keys.
    pub fn any_path(&self, rng: &mut Rng) -> Path {
        let depth = rng.between(1, DEPTH);
        (0..depth).map(|_| rng.pick(&self.names).clone()).collect()
    }

    /// A path that a rule matches for a user, most times.
    pub fn matching_path(&self, rng: &mut Rng, rule: &Rule, user: &User) -> Path {
        let keys = rule.steps.iter().map(|step| self.matching_key(rng, step, user));
        keys.collect()
    }

    fn matching_key(&self, rng: &mut Rng, step: &Step, user: &User) -> Name {
        let listed = |name: &Name| -> Vec<&Setting> {
            let own = |setting: &&Setting| setting.user == user.name && setting.name == *name;
            self.settings.iter().filter(own).collect()
        };
        match step {
            Step::Names(names) if !names.is_empty() => rng.pick(names).clone(),
            Step::First(name) | Step::Each(name) => match &listed(name)[..] {
                [] => rng.pick(&self.names).clone(),
                [first, ..] if rng.one_in(2) => first.value.clone(),
                several => rng.pick(several).value.clone(),
            },
            _ => rng.pick(&self.names).clone(),
        }
    }
}

fn shape(rng: &mut Rng) -> Shape {
    match rng.below(10) {
        0..=3 => Shape::Level(rng.between(1, DEPTH)),
        4..=8 => Shape::Grouped,
        _ => Shape::Free,
    }
}

struct Maker<'a> {
    rng: &'a mut Rng,
    hall: Hall,
    shape: Shape,
}

impl Maker<'_> {
    fn make(mut self) -> Hall {
        self.make_users();
        self.make_settings();
        self.make_rules();
        self.make_fields();
        self.make_allowances();
        self.hall
    }

    fn odd(&mut self) -> bool {
        self.hall.oddity > 0 && self.rng.one_in(self.hall.oddity)
    }

    /// A few, many, or a number at the limit and now and then one more.
    fn count(&mut self, few: usize, limit: usize) -> usize {
        match self.rng.below(40) {
            0 => limit + 1,
            1..=3 => limit,
            4..=5 => limit - 1,
            6..=9 => self.rng.between(0, limit),
            10 => 0,
            _ => self.rng.between(1, few),
        }
    }

    fn name(&mut self) -> Name {
        if self.odd() {
            return words::bad_name(self.rng);
        }
        self.rng.pick(&self.hall.names).clone()
    }

    fn plain(&mut self) -> Name {
        if self.odd() {
            return self.name();
        }
        self.rng.pick(&self.hall.own).clone()
    }

    fn make_users(&mut self) {
        let count = self.count(5, 32);
        let names = words::names(self.rng, count);
        let role_count = self.rng.between(1, 4);
        let mut roles = words::names(self.rng, role_count);
        roles.retain(|role| role != b"*");
        roles.push(b"driver".into());
        for name in names {
            let name = if self.odd() { self.name() } else { name };
            let role = if self.odd() { b"*".into() } else { self.rng.pick(&roles).clone() };
            let key = self.name();
            self.hall.users.push(User { name, role, key, allowance: b"0".into() });
        }
    }

    fn make_settings(&mut self) {
        for place in 0..self.hall.users.len() {
            let count = if self.rng.one_in(3) { 0 } else { self.count(5, 16) };
            let wanted = self.hall.settings.len() + count;
            for _ in 0..4 * count {
                if self.hall.settings.len() < wanted {
                    self.make_setting(place);
                }
            }
        }
        self.rng.shuffle(&mut self.hall.settings);
    }

    /// Adds a setting, mostly one that is not there yet.
    fn make_setting(&mut self, place: usize) {
        let user = if self.odd() { self.name() } else { self.hall.users[place].name.clone() };
        let (name, value) = (self.plain(), self.name());
        let new = Setting { user, name, value };
        let mut settings = self.hall.settings.iter();
        let there = settings
            .any(|old| (&old.user, &old.name, &old.value) == (&new.user, &new.name, &new.value));
        if !there || self.odd() {
            self.hall.settings.push(new);
        }
    }

    fn make_rules(&mut self) {
        let count = self.count(8, 64);
        for _ in 0..count {
            let role = self.rule_role();
            let writes = self.rng.one_in(2);
            let steps = self.rule_steps(writes);
            self.hall.rules.push(Rule { role, writes, steps });
        }
    }

    fn rule_role(&mut self) -> Name {
        if self.rng.one_in(4) || self.hall.users.is_empty() {
            return b"*".into();
        }
        if self.rng.one_in(20) {
            return self.name();
        }
        self.rng.pick(&self.hall.users).role.clone()
    }

    /// Steps that tangle with no other WRITE line, where that matters.
    fn rule_steps(&mut self, writes: bool) -> Vec<Step> {
        let shape = if writes || self.rng.one_in(2) { self.shape } else { Shape::Free };
        let depth = self.depth(shape);
        if self.rng.one_in(16) && depth > 1 && !matches!(shape, Shape::Grouped) {
            let length = if self.rng.one_in(12) { SPELLING + 1 } else { SPELLING };
            return self.steps_spelled(depth, length);
        }
        let mut steps: Vec<Step> = (0..depth).map(|_| self.step()).collect();
        if matches!(shape, Shape::Grouped) {
            steps[0] = Step::Names(vec![self.grouped_name(depth)]);
        }
        if self.odd() {
            steps.truncate(self.rng.below(2));
            steps.extend((0..self.rng.below(DEPTH + 2)).map(|_| Step::Any));
        }
        steps
    }

    fn depth(&mut self, shape: Shape) -> usize {
        match shape {
            Shape::Level(depth) => depth,
            _ => self.rng.between(1, DEPTH),
        }
    }

    /// One of the names that begin paths of this depth only.
    fn grouped_name(&mut self, depth: usize) -> Name {
        let group: Vec<&Name> = self.hall.names.iter().skip(depth - 1).step_by(DEPTH).collect();
        (*self.rng.pick(&group)).clone()
    }

    fn step(&mut self) -> Step {
        match self.rng.below(20) {
            0..=6 => Step::Names(vec![self.name()]),
            7..=10 => {
                let one_more = self.odd() || self.rng.one_in(150);
                let count = if one_more { LISTED + 1 } else { self.rng.between(1, LISTED) };
                Step::Names((0..count).map(|_| self.name()).collect())
            }
            11..=15 => Step::Any,
            16..=17 => Step::First(self.plain()),
            _ => Step::Each(self.plain()),
        }
    }

    /// Lists of names whose standard spelling has this length, for two steps
    /// or more. Beside `$`, a step takes 1 byte and each name 3 and its own.
    fn steps_spelled(&mut self, depth: usize, length: usize) -> Vec<Step> {
        let total = length - 1 - depth;
        let fewest = depth.max(total.div_ceil(NAME + 3));
        let count = self.rng.between(fewest, LISTED * depth);
        let mut lists: Vec<Vec<Name>> = vec![Vec::new(); depth];
        for (place, size) in self.sizes(count, total - 3 * count).into_iter().enumerate() {
            let mut step = place;
            while step >= depth || lists[step].len() == LISTED {
                step = self.rng.below(depth);
            }
            lists[step].push(words::name_of(self.rng, size));
        }
        lists.into_iter().map(Step::Names).collect()
    }

    /// Random sizes of names with this sum.
    fn sizes(&mut self, count: usize, sum: usize) -> Vec<usize> {
        let mut sizes = vec![1; count];
        let mut missing = sum - count;
        while missing > 0 {
            let size = &mut sizes[self.rng.below(count)];
            if *size < NAME {
                *size += 1;
                missing -= 1;
            }
        }
        sizes
    }

    fn make_fields(&mut self) {
        let count = match self.rng.below(20) {
            0..=1 => FIELDS,
            2 => self.rng.between(FIELDS - 8, FIELDS + 1),
            3..=7 => self.rng.between(12, 100),
            _ => self.rng.between(0, 12),
        };
        for _ in 0..count * 2 {
            if self.hall.fields.len() == count {
                break;
            }
            self.make_field();
        }
    }

    /// Adds a field unless another's path is in the way.
    fn make_field(&mut self) {
        let path = self.field_path();
        let mut others = self.hall.fields.iter().map(|field| &field.path);
        if others.any(|other| other.starts_with(&path) || path.starts_with(other)) {
            return;
        }
        let value = if self.odd() { words::bad_value(self.rng) } else { words::value(self.rng) };
        self.hall.fields.push(Field { path, value });
    }

    fn field_path(&mut self) -> Path {
        if self.rng.one_in(3) && !self.hall.rules.is_empty() && !self.hall.users.is_empty() {
            let rule = self.rng.pick(&self.hall.rules);
            if rule.writes {
                let user = self.rng.pick(&self.hall.users);
                return self.hall.matching_path(self.rng, rule, user);
            }
        }
        let depth = self.depth(self.shape) + usize::from(self.odd());
        let mut path: Path = (0..depth).map(|_| self.name()).collect();
        if matches!(self.shape, Shape::Grouped) && depth <= DEPTH {
            path[0] = self.grouped_name(depth);
        }
        path
    }

    /// Allowances: none, small ones, or as much as there is room for.
    fn make_allowances(&mut self) {
        let mut room = FIELDS.saturating_sub(self.hall.fields.len());
        if self.rng.one_in(12) {
            room += 1;
        }
        let count = self.hall.users.len();
        let style = self.rng.below(4);
        for place in 0..count {
            let share = match style {
                0 => 0,
                1 if place + 1 == count => room,
                1 | 2 => self.rng.between(0, room.min(2 * FIELDS / count)),
                _ => self.rng.between(0, room.min(4)),
            };
            room -= share;
            self.hall.users[place].allowance = share.to_string().into();
            if self.odd() {
                let bad = ["", "00", "01", "-1", "+1", "257", " 1", "18446744073709551616", "1x"];
                self.hall.users[place].allowance = (*self.rng.pick(&bad)).into();
            }
        }
    }
}
