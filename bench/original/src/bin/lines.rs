//! Reads the lines that `sqlb` reads, makes the crate's calls, and prints the statements. It takes right input alone.
use sql_builder::SqlBuilder;
use std::fs::File;
use std::io::{self, BufWriter, Read, Write};
use std::os::fd::AsFd;

/// How much output is held back before it is written, as in `sqlb`.
const HELD_BACK: usize = 65536;

fn start(name: &str, arguments: &[&str]) -> SqlBuilder {
    match (name, arguments) {
        ("select_from", [table]) => SqlBuilder::select_from(*table),
        ("select_values", values) => SqlBuilder::select_values(values),
        ("insert_into", [table]) => SqlBuilder::insert_into(*table),
        ("update_table", [table]) => SqlBuilder::update_table(*table),
        ("delete_from", [table]) => SqlBuilder::delete_from(*table),
        _ => panic!("not a start: {name}"),
    }
}

/// Makes the call of a line. A finish gives the statement.
fn call(builder: &mut SqlBuilder, name: &str, arguments: &[&str]) -> Option<String> {
    match (name, arguments) {
        ("natural", []) => builder.natural(),
        ("left", []) => builder.left(),
        ("left_outer", []) => builder.left_outer(),
        ("right", []) => builder.right(),
        ("right_outer", []) => builder.right_outer(),
        ("inner", []) => builder.inner(),
        ("cross", []) => builder.cross(),
        ("distinct", []) => builder.distinct(),
        ("returning_id", []) => builder.returning_id(),
        ("and_table", [table]) => builder.and_table(*table),
        ("join", [table]) => builder.join(*table),
        ("on", [constraint]) => builder.on(*constraint),
        ("on_eq", [left, right]) => builder.on_eq(*left, *right),
        ("field", [field]) => builder.field(*field),
        ("set_field", [field]) => builder.set_field(*field),
        ("fields", fields) => builder.fields(fields),
        ("set_fields", fields) => builder.set_fields(fields),
        ("count", [field]) => builder.count(*field),
        ("count_as", [field, name]) => builder.count_as(*field, *name),
        ("set", [field, value]) => builder.set(*field, *value),
        ("set_str", [field, value]) => builder.set_str(*field, *value),
        ("values", values) => builder.values(values),
        ("select", [query]) => builder.select(*query),
        ("returning", [field]) => builder.returning(*field),
        ("group_by", [field]) => builder.group_by(*field),
        ("having", [condition]) => builder.having(*condition),
        ("union", [query]) => builder.union(*query),
        ("union_all", [query]) => builder.union_all(*query),
        ("order_asc", [field]) => builder.order_asc(*field),
        ("order_desc", [field]) => builder.order_desc(*field),
        ("order_by", [field, flag]) => builder.order_by(*field, *flag == "true"),
        ("limit", [limit]) => builder.limit(*limit),
        ("offset", [offset]) => builder.offset(*offset),
        ("and_where", [condition]) => builder.and_where(*condition),
        ("and_where_is_null", [field]) => builder.and_where_is_null(*field),
        ("and_where_is_not_null", [field]) => builder.and_where_is_not_null(*field),
        ("and_where_eq", [field, value]) => builder.and_where_eq(*field, *value),
        ("and_where_ne", [field, value]) => builder.and_where_ne(*field, *value),
        ("and_where_gt", [field, value]) => builder.and_where_gt(*field, *value),
        ("and_where_ge", [field, value]) => builder.and_where_ge(*field, *value),
        ("and_where_lt", [field, value]) => builder.and_where_lt(*field, *value),
        ("and_where_le", [field, value]) => builder.and_where_le(*field, *value),
        ("and_where_like", [field, mask]) => builder.and_where_like(*field, *mask),
        ("and_where_like_right", [field, mask]) => builder.and_where_like_right(*field, *mask),
        ("and_where_like_left", [field, mask]) => builder.and_where_like_left(*field, *mask),
        ("and_where_like_any", [field, mask]) => builder.and_where_like_any(*field, *mask),
        ("and_where_not_like", [field, mask]) => builder.and_where_not_like(*field, *mask),
        ("and_where_not_like_right", [field, mask]) => {
            builder.and_where_not_like_right(*field, *mask)
        }
        ("and_where_not_like_left", [field, mask]) => {
            builder.and_where_not_like_left(*field, *mask)
        }
        ("and_where_not_like_any", [field, mask]) => builder.and_where_not_like_any(*field, *mask),
        ("and_where_in", [field, list @ ..]) => builder.and_where_in(*field, list),
        ("and_where_in_quoted", [field, list @ ..]) => builder.and_where_in_quoted(*field, list),
        ("and_where_not_in", [field, list @ ..]) => builder.and_where_not_in(*field, list),
        ("and_where_not_in_quoted", [field, list @ ..]) => {
            builder.and_where_not_in_quoted(*field, list)
        }
        ("and_where_in_query", [field, query]) => builder.and_where_in_query(*field, *query),
        ("and_where_not_in_query", [field, query]) => {
            builder.and_where_not_in_query(*field, *query)
        }
        ("and_where_between", [field, least, greatest]) => {
            builder.and_where_between(*field, *least, *greatest)
        }
        ("and_where_not_between", [field, least, greatest]) => {
            builder.and_where_not_between(*field, *least, *greatest)
        }
        ("or_where", [condition]) => builder.or_where(*condition),
        ("or_where_is_null", [field]) => builder.or_where_is_null(*field),
        ("or_where_is_not_null", [field]) => builder.or_where_is_not_null(*field),
        ("or_where_eq", [field, value]) => builder.or_where_eq(*field, *value),
        ("or_where_ne", [field, value]) => builder.or_where_ne(*field, *value),
        ("or_where_gt", [field, value]) => builder.or_where_gt(*field, *value),
        ("or_where_ge", [field, value]) => builder.or_where_ge(*field, *value),
        ("or_where_lt", [field, value]) => builder.or_where_lt(*field, *value),
        ("or_where_le", [field, value]) => builder.or_where_le(*field, *value),
        ("or_where_like", [field, mask]) => builder.or_where_like(*field, *mask),
        ("or_where_like_right", [field, mask]) => builder.or_where_like_right(*field, *mask),
        ("or_where_like_left", [field, mask]) => builder.or_where_like_left(*field, *mask),
        ("or_where_like_any", [field, mask]) => builder.or_where_like_any(*field, *mask),
        ("or_where_not_like", [field, mask]) => builder.or_where_not_like(*field, *mask),
        ("or_where_not_like_right", [field, mask]) => {
            builder.or_where_not_like_right(*field, *mask)
        }
        ("or_where_not_like_left", [field, mask]) => builder.or_where_not_like_left(*field, *mask),
        ("or_where_not_like_any", [field, mask]) => builder.or_where_not_like_any(*field, *mask),
        ("or_where_in", [field, list @ ..]) => builder.or_where_in(*field, list),
        ("or_where_in_quoted", [field, list @ ..]) => builder.or_where_in_quoted(*field, list),
        ("or_where_not_in", [field, list @ ..]) => builder.or_where_not_in(*field, list),
        ("or_where_not_in_quoted", [field, list @ ..]) => {
            builder.or_where_not_in_quoted(*field, list)
        }
        ("or_where_in_query", [field, query]) => builder.or_where_in_query(*field, *query),
        ("or_where_not_in_query", [field, query]) => builder.or_where_not_in_query(*field, *query),
        ("or_where_between", [field, least, greatest]) => {
            builder.or_where_between(*field, *least, *greatest)
        }
        ("or_where_not_between", [field, least, greatest]) => {
            builder.or_where_not_between(*field, *least, *greatest)
        }
        ("sql", []) => return Some(builder.sql().expect("a statement")),
        ("query", []) => return Some(builder.query().expect("a query")),
        ("query_values", []) => return Some(builder.query_values().expect("a query")),
        ("subquery", []) => return Some(builder.subquery().expect("a query")),
        ("subquery_as", [name]) => return Some(builder.subquery_as(*name).expect("a query")),
        _ => panic!("not a call: {name}"),
    };
    None
}

fn main() -> io::Result<()> {
    let mut text = String::new();
    io::stdin().lock().read_to_string(&mut text)?;
    // Standard output of its own has a buffer of lines.
    let stdout = File::from(io::stdout().as_fd().try_clone_to_owned()?);
    let mut out = BufWriter::with_capacity(HELD_BACK, stdout);
    let mut open: Option<SqlBuilder> = None;
    let mut parts = Vec::new();
    for line in text.split_terminator('\n') {
        parts.clear();
        parts.extend(line.split('\t'));
        let (name, arguments) = (parts[0], &parts[1..]);
        match &mut open {
            None => open = Some(start(name, arguments)),
            Some(builder) => {
                if let Some(statement) = call(builder, name, arguments) {
                    out.write_all(statement.as_bytes())?;
                    out.write_all(b"\n")?;
                    open = None;
                }
            }
        }
    }
    out.flush()
}
