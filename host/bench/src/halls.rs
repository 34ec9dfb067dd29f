//! The halls that are measured: texts, and lines that are asked there.

use crate::rng::Rng;

/// Users, environments, policy and record.
pub type Texts = [Vec<u8>; 4];

pub type Line = Vec<u8>;

/// What a full hall has.
pub const USERS: usize = 32;
pub const POLICY_LINES: usize = 64;
pub const FIELDS: usize = 256;

const KEEPER: &str = "keeper";
const ROLES: [&str; 4] = ["driver", "repairer", "owner", KEEPER];

/// Engines of a full hall, each of so many fields, and a user's own ones.
const ENGINES: usize = 32;
const ENGINE_FIELDS: usize = 8;
const OWN: usize = 4;

const DAY_SEED: u64 = 1871;

/// Session numbers of one user lie within one such range, as many as a user has
/// logins, and one that no session has.
const RANGE: usize = 65_536;
pub const MAX_LOGINS: usize = RANGE - 1;

/// What a day is made of.
#[derive(Clone, Copy)]
pub struct Mix {
    pub lines: usize,
    /// Of a thousand lines, how many are of a kind; the rest are logins, which
    /// are refused while the user is in.
    pub gets: usize,
    pub held_pushes: usize,
    pub new_pushes: usize,
    pub forbidden: usize,
    /// While all are in, one line in so many is a logout.
    pub leaving: usize,
    /// One line in so many is cut short.
    pub cut: usize,
}

/// A short day, with something of everything.
const DAY: Mix = Mix {
    lines: 20_000,
    gets: 120,
    held_pushes: 720,
    new_pushes: 60,
    forbidden: 60,
    leaving: 50,
    cut: 50,
};

pub struct Hall {
    pub texts: Texts,
    /// The logins of the users, in the order of the table, and their logouts.
    pub logins: Vec<Line>,
    pub logouts: Vec<Line>,
    pub gets: Vec<Line>,
    /// Pushes to fields that are held, by users who may write them.
    pub held_pushes: Vec<Line>,
    /// Pushes of new fields, within the allowances.
    pub new_pushes: Vec<Line>,
    /// Pushes that are refused.
    pub forbidden: Vec<Line>,
    pub mix: Mix,
}

impl Hall {
    /// The example of document 01.
    pub fn example() -> Hall {
        let users = "user;role;key;allowance\nann;repairer;k1;4\nbob;driver;k2;0\ncy;owner;k3;2\n";
        let environments = "user;name;value\ncy;my-engine;e7\n";
        let policy = "role;access;path\n*;READ;$.*.name\nrepairer;WRITE;$.*.cv.*\n\
                      driver;READ;$.*.cv['1','29']\nowner;WRITE;$[=~my-engine].note\n";
        let record = r#"{"e7":{"name":"Tank 7","cv":{"1":3,"29":6},"note":"shelf B"},"#.to_owned()
            + r#""e9":{"name":"Mail","cv":{"1":12}}}"#;
        Hall {
            texts: [users.into(), environments.into(), policy.into(), record.into()],
            logins: lines(&["LOGIN;ann;k1", "LOGIN;bob;k2", "LOGIN;cy;k3"]),
            logouts: lines(&["LOGOUT;1", "LOGOUT;65537", "LOGOUT;131073"]),
            gets: lines(&["GET;1", "GET;65537", "GET;131073"]),
            held_pushes: lines(&[
                "PUSH;1;$['e7']['cv']['29'];38",
                "PUSH;1;$['e9']['cv']['1'];-4",
                "PUSH;131073;$['e7']['note'];\"shelf C\"",
            ]),
            new_pushes: lines(&[
                "PUSH;1;$['e9']['cv']['3'];10",
                "PUSH;1;$['e7']['cv']['5'];true",
                "PUSH;1;$['e8']['cv']['1'];0",
                "PUSH;1;$['e1']['cv']['29'];\"new\"",
            ]),
            forbidden: lines(&["PUSH;65537;$['e7']['cv']['1'];4", "PUSH;131073;$['e9']['note'];1"]),
            mix: DAY,
        }
    }

    /// 32 users, 64 policy lines and 256 fields.
    pub fn full() -> Hall {
        Hall::sized(POLICY_LINES, FIELDS, 0)
    }

    /// The same with 192 fields and room for two new ones of each user.
    pub fn with_room() -> Hall {
        Hall::sized(POLICY_LINES, FIELDS - 2 * USERS, 2)
    }

    /// A hall of 32 users with so many policy lines and fields.
    pub fn sized(policy_lines: usize, fields: usize, allowance: usize) -> Hall {
        Hall::ruled((0..policy_lines).map(policy_line), fields, allowance)
    }

    /// 32 users, so many policy lines and 256 fields. The last four lines give
    /// each role its own settings; all lines before them are for the keepers, who
    /// are logged in and ask nothing. So however many lines there are, those who
    /// ask get the same copies, and their pushes reach the same users, of whom no
    /// keeper is one. The keepers' lines stand in front, so that a search for a
    /// right passes them.
    pub fn with_keepers(policy_lines: usize) -> Hall {
        let keepers = (ROLES.len()..policy_lines).map(keepers_line);
        let asking = || (0..USERS).filter(|user| role(*user) != KEEPER);
        Hall {
            gets: asking().map(get).collect(),
            held_pushes: asking().flat_map(|user| held_pushes(user, ENGINES)).collect(),
            ..Hall::ruled(keepers.chain((0..ROLES.len()).map(policy_line)), FIELDS, 0)
        }
    }

    /// A hall of 32 users with this policy and so many fields.
    fn ruled(policy: impl Iterator<Item = String>, fields: usize, allowance: usize) -> Hall {
        let engines = fields / ENGINE_FIELDS;
        let record = joined((0..engines).map(engine), ",");
        Hall {
            texts: [
                table("user;role;key;allowance", (0..USERS).map(|user| user_line(user, allowance))),
                table("user;name;value", (0..USERS).flat_map(environment_lines)),
                table("role;access;path", policy),
                format!("{{{record}}}").into(),
            ],
            logins: (0..USERS).map(|user| format!("LOGIN;user{user};key{user}").into()).collect(),
            logouts: (0..USERS).map(logout).collect(),
            gets: (0..USERS).map(get).collect(),
            held_pushes: (0..USERS).flat_map(|user| held_pushes(user, engines)).collect(),
            new_pushes: (0..USERS).flat_map(new_pushes).collect(),
            forbidden: (0..USERS).map(|user| push(user, engine_name(0), "name", "\"x\"")).collect(),
            mix: DAY,
        }
    }

    /// A day in this hall: all log in; then mostly pushes, some copies, a few
    /// lines that are refused. Now and then a user leaves and comes back soon;
    /// meanwhile that user's lines have a closed number.
    pub fn day(&self) -> Vec<Line> {
        let mut rng = Rng::new(DAY_SEED);
        let mut seats = Seats::new(self.logins.len(), 1);
        let mut day = self.logins.clone();
        while day.len() < self.mix.lines {
            let line = match seats.out {
                None if rng.below(self.mix.leaving) == 0 => seats.leave(&self.logouts, &mut rng),
                Some(user) if rng.below(5) == 0 => self.logins[user].clone(),
                _ => self.any_line(&seats, &mut rng),
            };
            if seats.out.is_some_and(|user| line == self.logins[user]) {
                seats.come_back();
            }
            day.push(line);
        }
        day
    }

    /// A line of any user; a few are cut short.
    fn any_line(&self, seats: &Seats, rng: &mut Rng) -> Line {
        let kind = self.kind(rng.below(1000));
        let mut line = seats.numbered(&kind[rng.below(kind.len())]);
        if rng.below(self.mix.cut) == 0 {
            let end = rng.below(line.len());
            line.truncate(end);
        }
        line
    }

    /// The lines of a kind, by a number below a thousand.
    fn kind(&self, mut number: usize) -> &[Line] {
        let Mix { gets, held_pushes, new_pushes, forbidden, .. } = self.mix;
        let kinds = [
            (gets, &self.gets),
            (held_pushes, &self.held_pushes),
            (new_pushes, &self.new_pushes),
            (forbidden, &self.forbidden),
        ];
        for (share, lines) in kinds {
            if number < share {
                return lines;
            }
            number -= share;
        }
        &self.logins
    }
}

/// Who is in during a day: all users, or all but one.
struct Seats {
    /// How often each user has logged in.
    logins: Vec<usize>,
    out: Option<usize>,
}

impl Seats {
    /// All are in, and each has logged in so often.
    fn new(users: usize, logins: usize) -> Self {
        Seats { logins: vec![logins; users], out: None }
    }

    /// The logout of any user, who is out then.
    fn leave(&mut self, logouts: &[Line], rng: &mut Rng) -> Line {
        let user = rng.below(logouts.len());
        self.out = Some(user);
        self.numbered(&logouts[user])
    }

    fn come_back(&mut self) {
        if let Some(user) = self.out.take() {
            self.logins[user] += 1;
        }
    }

    /// A line with the number of the user's last login for that of the first.
    fn numbered(&self, line: &Line) -> Line {
        let mut parts: Vec<&[u8]> = line.splitn(3, |&byte| byte == b';').collect();
        let Some(first) = number(parts[1]) else {
            return line.clone();
        };
        let last = (first - 1 + self.logins[first / RANGE]).to_string();
        parts[1] = last.as_bytes();
        parts.join(&b';')
    }
}

/// The logouts of all users, each of whom has logged in so often.
pub fn after_logins(logouts: &[Line], logins: usize) -> Vec<Line> {
    let seats = Seats::new(logouts.len(), logins);
    logouts.iter().map(|line| seats.numbered(line)).collect()
}

fn number(text: &[u8]) -> Option<usize> {
    std::str::from_utf8(text).ok()?.parse().ok()
}

fn lines(texts: &[&str]) -> Vec<Line> {
    texts.iter().map(|text| text.as_bytes().to_vec()).collect()
}

pub fn joined(parts: impl Iterator<Item = String>, separator: &str) -> String {
    parts.collect::<Vec<_>>().join(separator)
}

pub fn table(head: &str, lines: impl Iterator<Item = String>) -> Vec<u8> {
    let lines = lines.map(|line| line + "\n");
    (format!("{head}\n") + &joined(lines, "")).into()
}

/// The session number of the user's first login.
pub fn session(user: usize) -> usize {
    user * RANGE + 1
}

/// Next to each other, users have different roles.
fn role(user: usize) -> &'static str {
    ROLES[user % ROLES.len()]
}

fn user_line(user: usize, allowance: usize) -> String {
    format!("user{user};{};key{user};{allowance}", role(user))
}

fn engine_name(engine: usize) -> String {
    format!("engine {engine}")
}

/// The engines of a user.
fn own_engines(user: usize) -> impl Iterator<Item = usize> {
    (0..OWN).map(move |place| (user + place * ENGINES / OWN) % ENGINES)
}

fn environment_lines(user: usize) -> impl Iterator<Item = String> {
    own_engines(user).map(move |engine| format!("user{user};mine;{}", engine_name(engine)))
}

/// An engine's part of the record: a name, a note and six settings.
fn engine(engine: usize) -> String {
    let settings = joined((1..=6).map(|key| format!("\"{key}\":{}", engine * key)), ",");
    let name = engine_name(engine);
    format!("\"{name}\":{{\"name\":\"{name}\",\"note\":\"shelf {engine}\",\"cv\":{{{settings}}}}}")
}

/// Line after line goes to the next role; after all four, to the next kind.
fn policy_line(place: usize) -> String {
    let role = ROLES[place % ROLES.len()];
    let turn = place / ROLES.len();
    let [first, second] = [turn / 2 + 1, turn / 2 + 2];
    let [one, other] = [engine_name(turn), engine_name(turn + 16)];
    match turn % 4 {
        0 => format!("{role};WRITE;$[in~mine].cv['{first}','{second}']"),
        1 => format!("{role};READ;$['{one}','{other}'].name"),
        2 => format!("{role};READ;$['{one}','{other}'].cv.*"),
        _ if turn == 15 => "*;READ;$.*.name".into(),
        _ => format!("{role};WRITE;$[=~mine].note"),
    }
}

/// The same kinds for the keepers, of fields that nobody pushes: neither the
/// first setting nor the second.
fn keepers_line(place: usize) -> String {
    let turn = place % (ENGINES / 2);
    let [one, other] = [engine_name(turn), engine_name(turn + ENGINES / 2)];
    let right = match place % 4 {
        0 => "WRITE;$[in~mine].cv['3','4']".into(),
        1 => format!("READ;$['{one}','{other}'].name"),
        2 => format!("READ;$['{one}','{other}'].cv['5','6']"),
        _ => "WRITE;$[=~mine].note".into(),
    };
    format!("{KEEPER};{right}")
}

pub fn logout(user: usize) -> Line {
    format!("LOGOUT;{}", session(user)).into()
}

pub fn get(user: usize) -> Line {
    format!("GET;{}", session(user)).into()
}

fn push(user: usize, engine: String, below: &str, value: &str) -> Line {
    let path = format!("$['{engine}']['{}']", below.replace('.', "']['"));
    format!("PUSH;{};{path};{value}", session(user)).into()
}

/// Two settings of each engine of the user that the record has.
fn held_pushes(user: usize, engines: usize) -> Vec<Line> {
    let held = own_engines(user).filter(|engine| *engine < engines);
    held.flat_map(|engine| {
        ["cv.1", "cv.2"].map(|below| push(user, engine_name(engine), below, "1234"))
    })
    .collect()
}

/// Two settings of the last engine of the user's four, which four users share.
fn new_pushes(user: usize) -> [Line; 2] {
    let quarter = ENGINES / OWN;
    let engine = engine_name(ENGINES - quarter + user % quarter);
    let first = 2 * (user / quarter) + 1;
    [first, first + 1].map(|key| push(user, engine.clone(), &format!("cv.{key}"), "\"new\""))
}
