//! Does one workload of the crate so many times: `library WORKLOAD TURNS`, with its text on standard input. Prints how many
//! bytes all turns made, and what the last one made. Of a call that binds several values the first line has a name for each,
//! of `bind_only` it is the name, and of `clone`, `insert` and IN the text is as long as the builder or the list has items.
use sql_builder::prelude::*;
use sql_builder::{baname, baquote, brname, brquote, dname, dquote, esc, name, qname};
use std::collections::HashMap;
use std::{env, io};

/// What a turn makes of the text and its number.
type Step = fn(&str, u64) -> String;

const STEPS: [(&str, Step); 30] = [
    ("select", select),
    ("nested", nested),
    ("update", update),
    ("restart", update),
    ("insert", insert),
    ("built_none", |_, _| SqlBuilder::select_from("books").sql().expect("a statement")),
    ("or_where", or_where),
    ("set_str", set_str),
    ("safe", |text, _| SqlName::new(text).safe()),
    ("arg_none", |_, _| None::<u64>.sql_arg()),
    ("name", |_, _| name!("public", "BOOKS"; "b")),
    ("qname", |_, _| qname!("public", "BOOKS"; "b")),
    ("baname", |_, _| baname!("public", "BOOKS"; "b")),
    ("brname", |_, _| brname!("public", "BOOKS"; "b")),
    ("dname", |_, _| dname!("public", "BOOKS"; "b")),
    ("esc", |text, _| esc(text)),
    ("quote", |text, _| quote(text)),
    ("baquote", |text, _| baquote(text)),
    ("brquote", |text, _| brquote(text)),
    ("dquote", |text, _| dquote(text)),
    ("bind", |text, _| text.bind(&"it's")),
    ("bind_chain", |text, _| {
        text.bind(&"it's").bind(&100).bind(&true)
    }),
    ("bind_num", |text, _| text.bind_num(1, &"it's")),
    ("bind_name", |text, _| text.bind_name(&"title", &"it's")),
    ("arg_wide", |_, turn| (i128::MAX - i128::from(turn)).sql_arg()),
    ("arg_narrow", |_, turn| i128::from(turn).sql_arg()),
    ("arg_u64", |_, turn| turn.sql_arg()),
    ("arg_some", |_, turn| Some(turn).sql_arg()),
    // the crate has no type of literals
    ("arg_whole", |_, turn| i128::from(turn).sql_arg()),
    ("arg_bool", |_, turn| (turn % 2 == 0).sql_arg()),
];

fn select(_: &str, turn: u64) -> String {
    SqlBuilder::select_from("books AS b")
        .field("b.title")
        .field("s.total")
        .left()
        .join("shops AS s")
        .on_eq("b.id", "s.book")
        .and_where_gt("b.price", turn)
        .and_where_like_left("b.title", "Harry Potter")
        .or_where_is_null("s.total")
        .sql()
        .expect("a statement")
}

fn nested(_: &str, turn: u64) -> String {
    let shelf = SqlBuilder::select_from("shelves")
        .field("id")
        .and_where_gt("rank", turn)
        .query()
        .expect("a query");
    let books = SqlBuilder::select_from("books")
        .field("shop")
        .and_where_in_query("shelf", &shelf)
        .query()
        .expect("a query");
    let shops = SqlBuilder::select_from("shops")
        .and_where_in_query("id", &books)
        .subquery_as("s")
        .expect("a query");
    SqlBuilder::select_from(shops).field("name").sql().expect("a statement")
}

fn update(_: &str, turn: u64) -> String {
    SqlBuilder::update_table("company")
        .set("salary", "salary + 100")
        .set_str("comment", "it's up")
        .and_where_lt("salary", turn)
        .sql()
        .expect("a statement")
}

fn insert(text: &str, _: u64) -> String {
    let mut builder = SqlBuilder::insert_into("company");
    builder.fields(&["name", "salary", "staff"]);
    for _row in 0..text.len() {
        builder.values(&["'D&G'", "10000", "100"]);
    }
    builder.sql().expect("a statement")
}

fn or_where(text: &str, _: u64) -> String {
    let mut builder = SqlBuilder::select_from("books");
    for _condition in 0..text.len() {
        builder.or_where("price > 100");
    }
    builder.sql().expect("a statement")
}

fn set_str(text: &str, _: u64) -> String {
    SqlBuilder::update_table("books")
        .set_str("title", text)
        .sql()
        .expect("a statement")
}

fn large_builder(items: usize) -> SqlBuilder {
    let mut builder = SqlBuilder::select_from("books");
    for item in 0..items {
        builder
            .field("title")
            .join("shops")
            .on("price > 100")
            .and_where_eq("price", item)
            .group_by("title")
            .union("SELECT 1")
            .order_asc("title");
    }
    builder
}

/// A builder with so many conditions.
fn filtered_builder(conditions: usize) -> SqlBuilder {
    let mut builder = SqlBuilder::select_from("books");
    for condition in 0..conditions {
        builder.and_where_eq("price", condition);
    }
    builder
}

/// A builder with so many conditions of one group.
fn joined_builder(conditions: usize) -> SqlBuilder {
    let mut builder = SqlBuilder::select_from("books");
    for condition in 0..conditions {
        builder.or_where_eq("price", condition);
    }
    builder
}

/// A value to be bound, as its number tells.
fn value(number: usize) -> Box<dyn SqlArg> {
    match number % 3 {
        0 => Box::new("it's".to_string()),
        1 => Box::new(number),
        _ => Box::new(true),
    }
}

/// How many bytes all turns make, and what the last one makes.
fn repeat(turns: u64, step: impl Fn(u64) -> String) -> (usize, String) {
    let mut bytes = 0;
    let mut last = String::new();
    for turn in 0..turns {
        last = step(turn);
        bytes += last.len();
    }
    (bytes, last)
}

/// The same of a call that binds several values, which are made once.
fn repeat_binding(call: &str, text: &str, turns: u64) -> (usize, String) {
    let (names, template) = text.split_once('\n').expect("a line of names");
    let named: Vec<_> = names
        .split(' ')
        .enumerate()
        .map(|(number, name)| (name, value(number)))
        .collect();
    let pairs = named.iter().map(|(name, value)| (*name, &**value));
    match call {
        "binds" => {
            let list: Vec<_> = pairs.map(|(_, value)| value).collect();
            repeat(turns, |_| template.binds(&list))
        }
        "bind_nums" => {
            let list: Vec<_> = pairs.map(|(_, value)| value).collect();
            repeat(turns, |_| template.bind_nums(&list))
        }
        "bind_names" => {
            let map: HashMap<_, _> = pairs.collect();
            repeat(turns, |_| template.bind_names(&map))
        }
        "bind_pairs" => {
            let list: Vec<_> = pairs.collect();
            repeat(turns, |_| template.bind_names(&list))
        }
        "bind_only" => repeat(turns, |_| template.bind_name(&names, &"it's")),
        _ => panic!("not a workload: {call}"),
    }
}

/// The same of IN of as many numbers, which are made once.
fn repeat_in<T: ToString>(turns: u64, numbers: impl Iterator<Item = T>) -> (usize, String) {
    let numbers: Vec<T> = numbers.collect();
    repeat(turns, |_| {
        SqlBuilder::select_from("books")
            .and_where_in("price", &numbers)
            .sql()
            .expect("a statement")
    })
}

/// How many bytes the last of a builder's copies prints, and what it prints.
fn repeat_clone(builder: SqlBuilder, turns: u64) -> (usize, String) {
    let mut last = builder;
    for _turn in 0..turns {
        last = last.clone();
    }
    let text = last.sql().expect("a statement");
    (text.len(), text)
}

fn work(name: &str, text: &str, turns: u64) -> (usize, String) {
    match name {
        "clone" => return repeat_clone(large_builder(text.len()), turns),
        "clone_conditions" => return repeat_clone(filtered_builder(text.len()), turns),
        "clone_ors" => return repeat_clone(joined_builder(text.len()), turns),
        _ => {}
    }
    let count = text.len() as u64;
    match name {
        "in_u8" => return repeat_in(turns, (0..count).map(|number| (number % 256) as u8)),
        "in_u32" => return repeat_in(turns, (0..count).map(|number| (number % 1_000_000) as u32)),
        "in_i64" => return repeat_in(turns, (0..count).map(|number| i64::MIN + (number % 1_000_000) as i64)),
        "in_i128" => return repeat_in(turns, (0..count).map(|number| i128::MAX - i128::from(number))),
        _ => {}
    }
    match STEPS.iter().find(|(known, _)| *known == name) {
        Some((_, step)) => repeat(turns, |turn| step(text, turn)),
        None => repeat_binding(name, text, turns),
    }
}

fn main() {
    let arguments: Vec<String> = env::args().collect();
    let turns = arguments[2].parse().expect("a number of turns");
    let text = io::read_to_string(io::stdin()).expect("a text");
    let (bytes, last) = work(&arguments[1], &text, turns);
    println!("{bytes}\n{last}");
}
