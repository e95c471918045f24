//! A reply, and the rows that it shows.

use std::fmt;

use crate::error::{Error, Reason};

/// What was answered to a session's line, and the rows that it shows.
#[derive(Clone, Debug, PartialEq, Eq)]
pub struct Reply {
    /// The answer without its session, as `INSERT 0 1`.
    pub text: String,
    pub rows: Vec<Row>,
}

impl Reply {
    /// The reply that an answer's text says; an error where it is a refusal.
    pub(crate) fn of(answer: &str) -> Result<Reply, Error> {
        let mut lines = answer.split_terminator('\n');
        let first = lines.next().unwrap_or("");
        let text = match first.split_once(' ') {
            Some((session, rest)) if session.bytes().all(|it| it.is_ascii_digit()) => rest,
            _ => first,
        };
        if text.starts_with("ERROR ") {
            return Err(Error { reason: Reason::Refused, line: 0, text: answer.to_string() });
        }
        let rows = lines.map(|line| Row::of(line.split_once(" | ").map_or("", |(_, row)| row))).collect();
        Ok(Reply { text: text.to_string(), rows })
    }

    /// How many rows it shows, or has changed; the number of what else it speaks of. Nothing where it has none.
    pub fn count(&self) -> Option<u64> {
        self.text.rsplit(' ').next().and_then(|word| word.parse().ok())
    }
}

/// A row, whose fields are counted from 0. What they are isn't said: a text of digits is a number to those who ask for one.
#[derive(Clone, Debug, PartialEq, Eq)]
pub struct Row {
    fields: Vec<Option<String>>,
}

impl Row {
    /// The row of its COPY text.
    fn of(text: &str) -> Row {
        Row { fields: text.split('\t').map(|raw| if raw == "\\N" { None } else { Some(unescaped(raw)) }).collect() }
    }

    /// How many fields it has.
    pub fn len(&self) -> usize {
        self.fields.len()
    }

    pub fn is_empty(&self) -> bool {
        self.fields.is_empty()
    }

    /// A field as a value: an `i64`, a `String`, a `Vec<u8>` of a bytea, or an `Option` of these where it may be null.
    pub fn get<T: FromField>(&self, column: usize) -> Result<T, FieldError> {
        let field = self.fields.get(column).ok_or(FieldError { column, what: Unfit::NoColumn })?;
        T::from_field(field.as_deref()).map_err(|what| FieldError { column, what })
    }
}

/// A field without the escapes of COPY text.
fn unescaped(raw: &str) -> String {
    let mut text = String::with_capacity(raw.len());
    let mut letters = raw.chars();
    while let Some(letter) = letters.next() {
        if letter != '\\' {
            text.push(letter);
            continue;
        }
        match letters.next() {
            Some('b') => text.push('\u{8}'),
            Some('t') => text.push('\t'),
            Some('n') => text.push('\n'),
            Some('v') => text.push('\u{b}'),
            Some('f') => text.push('\u{c}'),
            Some('r') => text.push('\r'),
            Some(other) => text.push(other),
            None => text.push('\\'),
        }
    }
    text
}

/// Why a field isn't the value that was asked for.
#[derive(Clone, Copy, Debug, PartialEq, Eq)]
pub enum Unfit {
    /// The row has no such column.
    NoColumn,
    /// It is null, and no `Option` was asked for.
    Null,
    /// It isn't written as such a value.
    Kind,
}

/// A field that isn't the value that was asked for.
#[derive(Clone, Copy, Debug, PartialEq, Eq)]
pub struct FieldError {
    pub column: usize,
    pub what: Unfit,
}

impl fmt::Display for FieldError {
    fn fmt(&self, f: &mut fmt::Formatter<'_>) -> fmt::Result {
        let what = match self.what {
            Unfit::NoColumn => "isn't there",
            Unfit::Null => "is null",
            Unfit::Kind => "is of another kind",
        };
        write!(f, "column {} {what}", self.column)
    }
}

impl std::error::Error for FieldError {}

/// What a field can be read as.
pub trait FromField: Sized {
    /// The value of a field, which is nothing where it is null.
    fn from_field(field: Option<&str>) -> Result<Self, Unfit>;
}

impl FromField for i64 {
    fn from_field(field: Option<&str>) -> Result<i64, Unfit> {
        field.ok_or(Unfit::Null)?.parse().map_err(|_| Unfit::Kind)
    }
}

impl FromField for String {
    fn from_field(field: Option<&str>) -> Result<String, Unfit> {
        field.map(str::to_string).ok_or(Unfit::Null)
    }
}

impl FromField for Vec<u8> {
    fn from_field(field: Option<&str>) -> Result<Vec<u8>, Unfit> {
        let digits = field.ok_or(Unfit::Null)?.strip_prefix("\\x").ok_or(Unfit::Kind)?.as_bytes();
        if digits.len() % 2 != 0 {
            return Err(Unfit::Kind);
        }
        digits.chunks(2).map(|pair| Ok(digit(pair[0])? << 4 | digit(pair[1])?)).collect()
    }
}

fn digit(letter: u8) -> Result<u8, Unfit> {
    char::from(letter).to_digit(16).map(|value| value as u8).ok_or(Unfit::Kind)
}

impl<T: FromField> FromField for Option<T> {
    fn from_field(field: Option<&str>) -> Result<Option<T>, Unfit> {
        match field {
            None => Ok(None),
            there => T::from_field(there).map(Some),
        }
    }
}

#[cfg(test)]
mod tests {
    use super::*;

    // A row with each kind of value, as docs/FORMATS.md writes it.
    fn row() -> Row {
        Reply::of("1 SELECT 1\n1 | -9223372036854775808\ta\\tb\\\\n\\n\\b\\v\\f\\r\t\\\\x00ff\t\\N\t\t\\\\N\n")
            .unwrap()
            .rows
            .remove(0)
    }

    #[test]
    fn fields_are_read_as_they_are_written() {
        let row = row();
        assert_eq!(row.len(), 6);
        assert_eq!(row.get::<i64>(0), Ok(i64::MIN));
        assert_eq!(row.get::<String>(1).as_deref(), Ok("a\tb\\n\n\u{8}\u{b}\u{c}\r"));
        assert_eq!(row.get::<Vec<u8>>(2), Ok(vec![0, 0xff]));
        assert_eq!(row.get::<Option<i64>>(3), Ok(None));
        assert_eq!(row.get::<Option<Vec<u8>>>(2), Ok(Some(vec![0, 0xff])));
        assert_eq!(row.get::<String>(4).as_deref(), Ok(""));
        assert_eq!(row.get::<Option<String>>(5), Ok(Some("\\N".to_string())));
    }

    #[test]
    fn fields_of_another_kind_are_told() {
        let row = row();
        let cases = [
            (row.get::<i64>(1).map(drop), 1, Unfit::Kind),
            (row.get::<i64>(3).map(drop), 3, Unfit::Null),
            (row.get::<String>(3).map(drop), 3, Unfit::Null),
            (row.get::<Vec<u8>>(0).map(drop), 0, Unfit::Kind),
            (row.get::<Vec<u8>>(5).map(drop), 5, Unfit::Kind),
            (row.get::<Option<i64>>(4).map(drop), 4, Unfit::Kind),
            (row.get::<i64>(6).map(drop), 6, Unfit::NoColumn),
        ];
        for (got, column, what) in cases {
            assert_eq!(got, Err(FieldError { column, what }));
        }
        for odd in ["\\\\x0", "\\\\x0g", "\\\\x+1", "\\\\x\u{e4}"] {
            assert_eq!(Row::of(odd).get::<Vec<u8>>(0).map_err(|error| error.what), Err(Unfit::Kind), "{odd}");
        }
    }

    #[test]
    fn a_refusal_is_an_error_with_its_code_and_place() {
        let error = Reply::of("1 ERROR 23505 column 1\n").unwrap_err();
        assert_eq!((error.sqlstate(), error.place()), (Some("23505"), Some("column 1")));
        let error = Reply::of("64 ERROR 40001 cause 2 3 2\n").unwrap_err();
        assert_eq!((error.sqlstate(), error.place(), error.is_serialization_failure()), (Some("40001"), Some("cause 2 3 2"), true));
        let error = Reply::of("ERROR 42601 no such line\n").unwrap_err();
        assert_eq!((error.sqlstate(), error.place()), (Some("42601"), Some("no such line")));
        let error = Reply::of("1 ERROR 25P02\n").unwrap_err();
        assert_eq!((error.sqlstate(), error.place()), (Some("25P02"), None));
    }

    #[test]
    fn a_reply_has_its_count() {
        let counts = [("1 INSERT 0 1\n", Some(1)), ("1 UPDATE 17\n", Some(17)), ("1 BEGIN\n", None), ("1 SELECT 0\n", Some(0))];
        for (answer, count) in counts {
            assert_eq!(Reply::of(answer).unwrap().count(), count, "{answer}");
        }
        assert!(Reply::of("1 SELECT 0\n").unwrap().rows.is_empty());
    }
}
