//! Two doctors read that both are on call, and each goes off call. The second is refused, and run again.
//!
//!     cargo run --example write_skew

use std::error::Error;

use pgserial::{Conversation, MOST_EVENTS};

const TABLE: &str = "CREATE TABLE oncall (id bigint PRIMARY KEY, doctor text NOT NULL, since bigint);";
const HEAD: [&str; 4] = ["BEGIN", "INSERT INTO oncall VALUES (1, 'ada', 7)", "INSERT INTO oncall VALUES (2, 'bob', 8)", "COMMIT"];

/// How many doctors are on call, as a session sees it.
fn on_call(server: &mut Conversation, session: u32) -> Result<usize, Box<dyn Error>> {
    let mut count = 0;
    for row in &server.send(session, "SELECT * FROM oncall")?.rows {
        let since: Option<i64> = row.get(2)?;
        count += usize::from(since.is_some());
    }
    Ok(count)
}

/// Lets a doctor go off call where another one stays: whether they may.
fn leave(server: &mut Conversation, session: u32, doctor: i64) -> Result<bool, Box<dyn Error>> {
    let may = on_call(server, session)? > 1;
    if may {
        server.send(session, &format!("UPDATE oncall SET since = NULL WHERE id = {doctor}"))?;
    }
    Ok(may)
}

/// What became of both: whether each may go, and the code by which the second was refused before.
fn skew() -> Result<(bool, bool, Option<String>), Box<dyn Error>> {
    let mut server = Conversation::open(MOST_EVENTS)?;
    server.ask(TABLE)?;
    for command in HEAD {
        server.send(1, command)?;
    }
    server.send(1, "BEGIN")?;
    server.send(2, "BEGIN")?;
    let ada = leave(&mut server, 1, 1)?;
    let mut bob = leave(&mut server, 2, 2)?;
    server.send(1, "COMMIT")?;
    let mut code = None;
    while let Err(refused) = server.send(2, "COMMIT") {
        if !refused.is_serialization_failure() {
            return Err(refused.into());
        }
        code = refused.sqlstate().map(str::to_string);
        server.send(2, "BEGIN")?;
        bob = leave(&mut server, 2, 2)?;
    }
    Ok((ada, bob, code))
}

fn main() -> Result<(), Box<dyn Error>> {
    let (ada, bob, code) = skew()?;
    println!("ada may go: {ada}; bob, who got {}, may go: {bob}", code.as_deref().unwrap_or("nothing"));
    Ok(())
}

#[cfg(test)]
mod tests {
    #[test]
    fn the_second_is_refused_and_stays() {
        assert_eq!(super::skew().unwrap(), (true, false, Some("40001".to_string())));
    }
}
