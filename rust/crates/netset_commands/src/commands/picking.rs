//! Which lines `match` picks, and which addresses `look` takes of lines.

use crate::commands::matching::{Written, has};
use cidr_lists::columns::{Column, Separator};
use cidr_lists::fields::Asked;
use cidr_lists::forms::RowForm;
use cidr_lists::objects::{Telling, telling_by};

/// Which lines are picked, and what is written of them.
#[derive(Clone, Copy)]
pub struct Picking {
    /// Whether a line is picked by any address in it, and not by the field of a column.
    pub anywhere: bool,
    pub column: Column,
    /// Whether all other lines are picked.
    pub inverted: bool,
    /// Whether the first line is a header, which is written and not counted.
    pub headed: bool,
    pub written: Written,
}

/// Which addresses are looked up in a table, and how that is told.
#[derive(Clone, Copy)]
pub struct Seeking {
    /// The address of a line.
    pub asked: Asked,
    /// Whether the first line is a header, in which nothing is looked up.
    pub headed: bool,
    pub telling: Telling,
    /// How the rows of the table are read.
    pub form: RowForm,
}

/// The index, counted from 0, of the field of a number.
#[inline]
pub fn place_of(number: &str) -> Option<u64> {
    match number.parse::<u64>() {
        Ok(number) => number.checked_sub(1),
        Err(_) => None,
    }
}

/// What is written of the lines by these options.
#[inline]
fn written_of(options: &[&str]) -> Written {
    if has(options, "-q") {
        Written::Nothing
    } else if has(options, "-c") {
        Written::Count
    } else {
        Written::Lines
    }
}

/// The lines that are picked by these options, and by this field or the first one.
pub fn picking_of(options: &[&str], column: Option<Column>) -> Picking {
    Picking {
        anywhere: has(options, "--any"),
        column: column.unwrap_or(Column {
            place: 0,
            separator: Separator::WhiteSpace,
        }),
        inverted: has(options, "-v"),
        headed: has(options, "--header"),
        written: written_of(options),
    }
}

/// The address that is looked up of each line: that of a field, the first anywhere, or that of the first field.
#[inline]
fn asked_by(any: bool, column: Option<Column>) -> Asked {
    match (any, column) {
        (_, Some(column)) => Asked::Field(column),
        (true, None) => Asked::Anywhere,
        (false, None) => Asked::First,
    }
}

/// What is looked up by these options, of which field, and in which rows.
#[inline]
pub fn seeking_of(options: &[&str], column: Option<Column>, form: RowForm) -> Seeking {
    Seeking {
        asked: asked_by(has(options, "--any"), column),
        headed: has(options, "--header"),
        telling: telling_by(form.values, has(options, "--keep")),
        form,
    }
}
