//! pgserial's calls in this process: safe Rust over libpgserial, which build.rs finds.
//!
//! [`run`], [`audit`], [`check`] and [`explore`] keep nothing, and may be called from any number of threads at once. A
//! [`Conversation`] keeps a server, and is closed when it is dropped:
//!
//! ```
//! # fn main() -> Result<(), Box<dyn std::error::Error>> {
//! let mut server = pgserial::Conversation::open(pgserial::MOST_EVENTS)?;
//! server.ask("CREATE TABLE oncall (doctor text PRIMARY KEY, nights bigint);")?;
//! server.send(1, "BEGIN")?;
//! server.send(1, "INSERT INTO oncall VALUES ('ada', 3)")?;
//! let reply = server.send(1, "SELECT * FROM oncall")?;
//! for row in &reply.rows {
//!     println!("{} has {} nights", row.get::<String>(0)?, row.get::<i64>(1)?);
//! }
//! # assert_eq!(reply.rows[0].get::<Option<i64>>(1)?, Some(3));
//! let refused = server.send(1, "INSERT INTO oncall VALUES ('ada', 4)").unwrap_err();
//! assert_eq!((refused.sqlstate(), refused.place()), (Some("23505"), Some("column 1")));
//! # Ok(())
//! # }
//! ```

mod calls;
mod conversation;
mod error;
mod rows;

pub use conversation::{Conversation, Prepared, Value};
pub use error::{Error, Reason};
pub use rows::{FieldError, FromField, Reply, Row, Unfit};

use calls::*;

/// For how many events `pgserial run` has room, where nothing is said.
pub const MOST_EVENTS: u32 = 100_000;

/// How many schedules `pgserial explore` runs at most, where nothing is said.
pub const MOST_SCHEDULES: u64 = 1_000_000;

const FIRST_ROOM: usize = 1 << 12;

/// Whether some serial order explains the replies of a transcript.
#[derive(Clone, Copy, Debug, PartialEq, Eq)]
pub enum Answer {
    Yes,
    No,
    /// The steps ran out, which says nothing.
    Unknown,
}

// A call's output, with as much room as that needs, and its status. The call is given room and how much that is.
fn answer(call: impl Fn(*mut u8, usize, *mut Report) -> i32) -> (i32, Report, String) {
    let mut report = Report { length: 0, line: 0 };
    let mut out = vec![0; FIRST_ROOM];
    let mut status = NEEDS_ROOM;
    while status == NEEDS_ROOM {
        out.resize(report.length.max(out.len()), 0);
        status = call(out.as_mut_ptr(), out.len(), &mut report);
    }
    out.truncate(report.length);
    let text = String::from_utf8_lossy(&out).into_owned();
    (status, report, text)
}

// The output of what is done; else the error of the status.
fn done((status, report, text): (i32, Report, String)) -> Result<String, Error> {
    match status {
        DONE => Ok(text),
        _ => Err(Error::of(status, report.line, text)),
    }
}

/// Whether the library has the declarations of this file.
pub fn is_fitting() -> bool {
    // SAFETY: it takes nothing, and answers a number.
    unsafe { pgserial_abi() == ABI }
}

/// The replies to the lines of a script, as `pgserial run` prints them.
pub fn run(script: &str, most_events: u32) -> Result<String, Error> {
    // SAFETY: the pointers and lengths are those of a `&str`, and of a `Vec` and a `Report` that are lent for the call and
    // overlap nothing.
    done(answer(|out, room, report| unsafe { pgserial_run(script.as_ptr(), script.len(), most_events, out, room, report) }))
}

/// The committed transactions of a script in the serial order, as `pgserial audit` prints them.
pub fn audit(script: &str, most_events: u32) -> Result<String, Error> {
    // SAFETY: as in `run`.
    done(answer(|out, room, report| unsafe { pgserial_audit(script.as_ptr(), script.len(), most_events, out, room, report) }))
}

/// Whether some serial order explains the replies of a transcript, and what `pgserial check` prints of it. With time, who had
/// ended before another began comes before it.
pub fn check(transcript: &str, has_time: bool) -> Result<(Answer, String), Error> {
    // SAFETY: as in `run`.
    let (status, report, text) = answer(|out, room, report| unsafe {
        let has_time = u32::from(has_time);
        pgserial_check(transcript.as_ptr(), transcript.len(), has_time, out, room, report)
    });
    match status {
        DONE => Ok((Answer::Yes, text)),
        NO_ORDER => Ok((Answer::No, text)),
        UNKNOWN => Ok((Answer::Unknown, text)),
        _ => Err(Error::of(status, report.line, text)),
    }
}

/// The outcomes of every interleaving of a script's lines after its setup, as `pgserial explore` prints them.
pub fn explore(script: &str, most_events: u32, most_schedules: u64) -> Result<String, Error> {
    // SAFETY: as in `run`.
    done(answer(|out, room, report| unsafe {
        let length = script.len();
        pgserial_explore(script.as_ptr(), length, most_events, most_schedules, out, room, report)
    }))
}
