//! The hall of a long day: as much as the limits allow of everything that makes
//! rights costly to find out.
//!
//! Names have 15 or 16 bytes, the most, and those of a kind differ in the last
//! ones alone. All paths, of fields and of the policy, have four keys: an engine,
//! a block, a bank and a setting. So no policy line is passed over by its length,
//! and the lists of names match half of the fields or all of them: whether a line
//! matches is mostly for the users' environments to say.

use std::ops::Range;

use crate::halls::{get, joined, logout, session, table, Hall, Line, Mix, POLICY_LINES, USERS};

const ROLES: usize = 4;
const ENGINES: usize = 32;

/// Settings of an engine: how many are held at first, and in the end.
const HELD: usize = 6;
const SETTINGS: usize = 8;

/// What a user may create: the settings that one engine lacks.
const ALLOWANCE: usize = SETTINGS - HELD;

/// Lists of the environment: engines that the user may write to, engines that
/// the user may read of, blocks and banks.
const WRITTEN: &str = "own-names-no-01";
const READ: &str = "own-names-no-02";
const BLOCKS: &str = "own-names-no-03";
const BANKS: &str = "own-names-no-04";

/// Engines in either list of them, and how far apart they are.
const LISTED: usize = 5;
const APART: usize = 5;

const DAY: Mix = Mix {
    lines: 200_000,
    gets: 64,
    held_pushes: 890,
    new_pushes: 3,
    forbidden: 30,
    leaving: 400,
    cut: 400,
};

impl Hall {
    /// 32 users with 16 environment lines each, 64 policy lines, and 192 fields
    /// that the day makes 256.
    pub fn long_day() -> Hall {
        let record = joined((0..ENGINES).map(engine), ",");
        Hall {
            texts: [
                table("user;role;key;allowance", (0..USERS).map(user_line)),
                table("user;name;value", (0..USERS).flat_map(environment_lines)),
                table("role;access;path", (0..POLICY_LINES).map(policy_line)),
                format!("{{{record}}}").into(),
            ],
            logins: (0..USERS).map(login).collect(),
            logouts: (0..USERS).map(logout).collect(),
            gets: (0..USERS).map(get).collect(),
            held_pushes: (0..USERS).flat_map(held_pushes).collect(),
            new_pushes: (0..USERS).flat_map(new_pushes).collect(),
            forbidden: (0..USERS).flat_map(forbidden).collect(),
            mix: DAY,
        }
    }
}

fn user_name(user: usize) -> String {
    format!("club member #{user:03}")
}

fn role_name(role: usize) -> String {
    format!("night shift no {role}")
}

fn engine_name(engine: usize) -> String {
    format!("locomotive no {engine:02}")
}

fn block_name(block: usize) -> String {
    format!("decoder block {block:02}")
}

fn bank_name(bank: usize) -> String {
    format!("register bank {bank:02}")
}

fn setting_name(setting: usize) -> String {
    format!("cv setting no {setting:02}")
}

/// The keys of an engine's setting: four settings have one block, and two one
/// bank there.
fn keys(engine: usize, setting: usize) -> [String; 4] {
    let (block, bank) = (setting / 4, setting / 2 % 2);
    [engine_name(engine), block_name(block), bank_name(bank), setting_name(setting)]
}

fn user_line(user: usize) -> String {
    format!("{};{};{};{ALLOWANCE}", user_name(user), role_name(user % ROLES), key(user))
}

fn key(user: usize) -> String {
    format!("key of member {user:02}")
}

fn login(user: usize) -> Line {
    format!("LOGIN;{};{}", user_name(user), key(user)).into()
}

/// The engines that a user may write to; the first is nobody else's first.
fn written_engines(user: usize) -> impl Iterator<Item = usize> {
    engines_from(user)
}

/// Others, which the user may read of.
fn read_engines(user: usize) -> impl Iterator<Item = usize> {
    engines_from(user + 2)
}

fn engines_from(first: usize) -> impl Iterator<Item = usize> {
    (0..LISTED).map(move |place| (first + APART * place) % ENGINES)
}

/// 16 lines. No engine has the second of the blocks, the second of the banks or
/// the third.
fn environment_lines(user: usize) -> impl Iterator<Item = String> {
    let name = user_name(user);
    let read = read_engines(user).map(|engine| (READ, engine_name(engine)));
    let written = written_engines(user).map(|engine| (WRITTEN, engine_name(engine)));
    let blocks = [user % 2, 2, 1 - user % 2].map(|block| (BLOCKS, block_name(block)));
    let banks = [user / 2 % 2, 2, 3].map(|bank| (BANKS, bank_name(bank)));
    let lines = read.chain(written).chain(blocks).chain(banks);
    lines.map(move |(list, value)| format!("{name};{list};{value}"))
}

/// Four lines, one of each kind, are for one role, the next four for another,
/// and so on.
fn policy_line(place: usize) -> String {
    let (turn, kind) = (place / 4, place % 4);
    let role = role_name(turn % ROLES);
    let apart = if turn < SETTINGS { 1 } else { 3 };
    let settings = listed((0..4).map(|step| setting_name((turn + apart * step) % SETTINGS)));
    let blocks = listed((0..4).map(|step| block_name((turn + step) % 4)));
    match kind {
        0 => format!("{role};READ;$[in~{READ}][=~{BLOCKS}][*]{settings}"),
        1 => format!("{role};READ;$[*][in~{BLOCKS}][in~{BANKS}]{settings}"),
        2 => format!("{role};READ;$[in~{READ}]{blocks}[=~{BANKS}][*]"),
        _ => format!("{role};WRITE;$[in~{WRITTEN}][*][*]{settings}"),
    }
}

fn listed(names: impl Iterator<Item = String>) -> String {
    format!("[{}]", joined(names.map(|name| format!("'{name}'")), ","))
}

/// An engine's part of the record: two banks of a block and one of another.
fn engine(engine: usize) -> String {
    let setting = |setting| format!("\"{}\":{}", setting_name(setting), value(engine, setting));
    let bank = |pair| object(bank_name(pair % 2), (2 * pair..2 * pair + 2).map(setting));
    let block = |block, pairs: Range<usize>| object(block_name(block), pairs.map(bank));
    object(engine_name(engine), [block(0, 0..2), block(1, 2..HELD / 2)].into_iter())
}

fn object(name: String, members: impl Iterator<Item = String>) -> String {
    format!("\"{name}\":{{{}}}", joined(members, ","))
}

/// Strings and numbers.
fn value(engine: usize, setting: usize) -> String {
    match setting % 2 {
        0 => format!("\"shelf {engine:02}, row {setting:02}\""),
        _ => (1_000_000 * setting + engine).to_string(),
    }
}

fn push(user: usize, engine: usize, setting: usize) -> Line {
    let keys = joined(keys(engine, setting).iter().map(|key| format!("['{key}']")), "");
    format!("PUSH;{};${keys};{}", session(user), value(user, setting)).into()
}

fn held_pushes(user: usize) -> impl Iterator<Item = Line> {
    written_engines(user)
        .flat_map(move |engine| (0..HELD).map(move |setting| push(user, engine, setting)))
}

/// What the user's first engine lacks.
fn new_pushes(user: usize) -> impl Iterator<Item = Line> {
    (HELD..SETTINGS).map(move |setting| push(user, user, setting))
}

/// Pushes to engines that the user may only read of.
fn forbidden(user: usize) -> impl Iterator<Item = Line> {
    read_engines(user).map(move |engine| push(user, engine, 0))
}
