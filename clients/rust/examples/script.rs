//! Runs the script on standard input, and prints its replies; then the serial order of what it committed. It holds a
//! conversation too, checks a transcript that no serial order explains, and counts interleavings.
//!
//!     cargo run --example script < ../../examples/write_skew.script

use std::error::Error;
use std::io::{self, Read};

// Two transactions that each miss what the other inserts.
const SKEWED: &str = "> CREATE TABLE t (id bigint PRIMARY KEY);
> 1 BEGIN;
  1 BEGIN
> 2 BEGIN;
  2 BEGIN
> 1 SELECT count(*) FROM t;
  1 SELECT 1
  1 | 0
> 2 SELECT count(*) FROM t;
  2 SELECT 1
  2 | 0
> 1 INSERT INTO t VALUES (1);
  1 INSERT 0 1
> 2 INSERT INTO t VALUES (2);
  2 INSERT 0 1
> 1 COMMIT;
  1 COMMIT
> 2 COMMIT;
  2 COMMIT
";

fn main() -> Result<(), Box<dyn Error>> {
    assert!(pgserial::is_fitting());
    let mut script = String::new();
    io::stdin().read_to_string(&mut script)?;
    print!("{}", told(&script)?);
    talk()?;
    look()
}

/// What is printed of a script.
fn told(script: &str) -> Result<String, pgserial::Error> {
    Ok(pgserial::run(script, pgserial::MOST_EVENTS)? + &pgserial::audit(script, pgserial::MOST_EVENTS)?)
}

/// Holds a conversation.
fn talk() -> Result<(), Box<dyn Error>> {
    let mut conversation = pgserial::Conversation::open(pgserial::MOST_EVENTS)?;
    assert_eq!(conversation.ask("CREATE TABLE t (id bigint PRIMARY KEY);")?, "CREATE TABLE\n");
    assert_eq!(conversation.ask("CREATE TABLE u (id bigint PRIMARY KEY, v text, b bytea);")?, "CREATE TABLE\n");
    assert_eq!(conversation.ask("1 BEGIN READ ONLY DEFERRABLE;")?, "1 BEGIN\n");
    assert_eq!(conversation.dump(1).unwrap_err().text, "1 ERROR 55000\n");
    assert_eq!(conversation.ask("1 POLL;")?, "1 SAFE 0\n");
    let dump = conversation.dump(1)?;
    assert_eq!(conversation.last()?, dump);
    let mut restored = pgserial::Conversation::open_dump(&dump, pgserial::MOST_EVENTS)?;
    assert_eq!(restored.tables()?, conversation.tables()?);
    assert_eq!(restored.serial_order()?, "check yes\n");
    let faulty = pgserial::Conversation::open_dump(&dump[1..], pgserial::MOST_EVENTS);
    assert_eq!(faulty.err().map(|error| error.text), Some("ERROR 22P04 line 1\n".to_string()));
    assert_eq!(std::thread::spawn(move || restored.ask("1 BEGIN;")).join().unwrap()?, "1 BEGIN\n");
    conversation.ask("1 COMMIT;")?;
    conversation.ask("1 BEGIN;")?;
    let insert = conversation.prepare("1 INSERT INTO u VALUES (0, NULL, NULL);")?;
    let values = [pgserial::Value::Null, pgserial::Value::Text("it's"), pgserial::Value::Bytes(&[0xff])];
    for (key, value) in values.into_iter().enumerate() {
        conversation.bind(insert, 1, pgserial::Value::Int(key as i64))?;
        conversation.bind(insert, if key == 2 { insert.places } else { 2 }, value)?;
        assert_eq!(conversation.execute(insert)?, 1);
    }
    let select = conversation.prepare("1 SELECT * FROM u WHERE id = 0;")?;
    for key in 0..3 {
        conversation.bind(select, 1, pgserial::Value::Int(key))?;
        assert_eq!(conversation.execute(select)?, 1);
        let row = conversation.reply()?.rows.remove(0);
        assert_eq!(row.get::<i64>(0)?, key);
        assert_eq!(row.get::<Option<String>>(1)?.as_deref(), Some("it's").filter(|_| key > 0));
        assert_eq!(row.get::<Option<Vec<u8>>>(2)?, Some(vec![0xff]).filter(|_| key == 2));
    }
    assert_eq!(conversation.execute(insert).unwrap_err().text, "1 ERROR 23505 column 1\n");
    assert_eq!(conversation.send(65, "BEGIN").unwrap_err().sqlstate(), Some("42601"));
    assert_eq!(conversation.send(1, "SELECT *\nFROM u").unwrap_err().reason, pgserial::Reason::Misuse);
    assert_eq!(conversation.bind(select, 2, pgserial::Value::Null).unwrap_err().reason, pgserial::Reason::Misuse);
    conversation.send(1, "ROLLBACK")?;
    conversation.send(1, "BEGIN")?;
    assert_eq!(conversation.send(1, "SELECT * FROM nothing").unwrap_err().sqlstate(), Some("42P01"));
    conversation.forget()?;
    assert!(conversation.execute(insert).is_err());
    Ok(())
}

/// Checks a transcript, and counts interleavings.
fn look() -> Result<(), Box<dyn Error>> {
    let (answer, _reasons) = pgserial::check(SKEWED, true)?;
    assert_eq!(answer, pgserial::Answer::No);
    let script = "1 BEGIN;\n1 COMMIT;\n2 BEGIN;\n2 COMMIT;\n";
    let outcomes = pgserial::explore(script, pgserial::MOST_EVENTS, pgserial::MOST_SCHEDULES)?;
    assert!(outcomes.starts_with("schedules 6\n"));
    Ok(())
}

#[cfg(test)]
mod tests {
    use super::*;

    #[test]
    fn a_script_is_told() {
        let script = "CREATE TABLE t (id bigint PRIMARY KEY);\n1 BEGIN;\n1 INSERT INTO t VALUES (1);\n1 COMMIT;\n";
        assert_eq!(told(script).unwrap(), "1 BEGIN\n1 INSERT 0 1\n1 COMMIT\ntxn 1 key 1 1 1\ncheck yes\n");
    }

    #[test]
    fn a_conversation_is_held() {
        talk().unwrap();
    }

    #[test]
    fn a_transcript_is_checked() {
        look().unwrap();
    }
}
