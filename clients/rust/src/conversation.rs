//! A server that is kept between calls.

use std::ptr::null_mut;

use crate::calls::*;
use crate::error::Error;
use crate::rows::Reply;
use crate::{answer, done};

/// A value for a place of a line that is read once.
#[derive(Clone, Copy, Debug, PartialEq, Eq)]
pub enum Value<'v> {
    Null,
    Int(i64),
    Text(&'v str),
    Bytes(&'v [u8]),
}

/// A line that a conversation has read once: its number there, and how many places it has, which are its literals.
#[derive(Clone, Copy, Debug, PartialEq, Eq)]
pub struct Prepared {
    number: usize,
    pub places: usize,
}

const NOTHING: Report = Report { length: 0, line: 0 };

/// A server that is kept between calls, which answers lines as `pgserial shell` does. It is closed when it is dropped. A
/// call that answers [`Reason::Memory`](crate::Reason::Memory) has changed nothing, and can be made again.
pub struct Conversation {
    handle: Handle,
}

// SAFETY: calls on a handle may come from whichever threads, one after the other; each takes it by `&mut`.
unsafe impl Send for Conversation {}

const SHUT: Handle = Handle { at: null_mut(), is_open: 0 };

impl Conversation {
    /// A server with room for so many events.
    pub fn open(most_events: u32) -> Result<Conversation, Error> {
        let mut handle = SHUT;
        // SAFETY: the handle is shut, and lent for the call.
        let status = unsafe { pgserial_open(&mut handle, most_events) };
        done((status, NOTHING, String::new()))?;
        Ok(Conversation { handle })
    }

    /// A server on the tables of a dump, with room for so many events.
    pub fn open_dump(dump: &str, most_events: u32) -> Result<Conversation, Error> {
        let mut handle = SHUT;
        let mut report = NOTHING;
        let mut out = [0; 64]; // for `ERROR`, a code and a line
                               // SAFETY: the handle is shut, and lent for the call, as all else is.
        let status = unsafe {
            pgserial_open_dump(&mut handle, dump.as_ptr(), dump.len(), most_events, out.as_mut_ptr(), out.len(), &mut report)
        };
        let text = String::from_utf8_lossy(&out[..report.length.min(out.len())]).into_owned();
        done((status, report, text))?;
        Ok(Conversation { handle })
    }

    // The last answer, of a call that ended so.
    fn told(&mut self, status: i32, report: Report) -> Result<String, Error> {
        if status != DONE && status != UNPRINTED && status != REFUSED {
            return done((status, report, String::new()));
        }
        let handle: *mut Handle = &mut self.handle;
        // SAFETY: the handle is this one's alone; the room is a `Vec`.
        let (made, report, text) = answer(|out, room, report| unsafe { pgserial_reply(handle, out, room, report) });
        done((if made == DONE && status == REFUSED { REFUSED } else { made }, report, text))
    }

    /// The answer to a line, which has no newline.
    pub fn ask(&mut self, line: &str) -> Result<String, Error> {
        let mut report = NOTHING;
        // SAFETY: the handle is this one's alone; the line and the report are lent for the call.
        let status = unsafe { pgserial_call(&mut self.handle, line.as_ptr(), line.len(), &mut report) };
        self.told(status, report)
    }

    /// The reply to a session's command, which has no newline and no `;` behind it. A refusal is an error, with its SQLSTATE.
    pub fn send(&mut self, session: u32, command: &str) -> Result<Reply, Error> {
        Reply::of(&self.ask(&format!("{session} {command};"))?)
    }

    /// The last answer, as a reply: the rows of what was executed.
    pub fn reply(&mut self) -> Result<Reply, Error> {
        Reply::of(&self.last()?)
    }

    /// The answer to the last line, once more: where there was no memory for its text.
    pub fn last(&mut self) -> Result<String, Error> {
        self.told(DONE, NOTHING)
    }

    /// Reads a session's line once, which has no newline. Its literals are its places, counted from 1.
    pub fn prepare(&mut self, line: &str) -> Result<Prepared, Error> {
        let mut report = NOTHING;
        // SAFETY: as in `ask`.
        let status = unsafe { pgserial_prepare(&mut self.handle, line.as_ptr(), line.len(), &mut report) };
        let prepared = Prepared { number: report.line as usize, places: report.length };
        done((status, NOTHING, String::new()))?;
        Ok(prepared)
    }

    /// Gives a place of a line that this conversation has read a value.
    pub fn bind(&mut self, line: Prepared, place: usize, value: Value<'_>) -> Result<(), Error> {
        let (handle, number): (*mut Handle, usize) = (&mut self.handle, line.number);
        // SAFETY: the handle is this one's alone; texts and bytes are lent for the call.
        let status = unsafe {
            match value {
                Value::Null => pgserial_bind_null(handle, number, place),
                Value::Int(value) => pgserial_bind_bigint(handle, number, place, value),
                Value::Text(text) => pgserial_bind_text(handle, number, place, text.as_ptr(), text.len()),
                Value::Bytes(value) => pgserial_bind_bytea(handle, number, place, value.as_ptr(), value.len()),
            }
        };
        done((status, NOTHING, String::new())).map(|_| ())
    }

    /// Does what a line that this conversation has read says with the values of its places: how many rows it shows or has
    /// changed. `last` has the reply, and of a refusal the error.
    pub fn execute(&mut self, line: Prepared) -> Result<u64, Error> {
        let mut report = NOTHING;
        // SAFETY: as in `ask`.
        let status = unsafe { pgserial_execute(&mut self.handle, line.number, &mut report) };
        if status == DONE {
            return Ok(report.line);
        }
        report.line = 0;
        self.told(status, report).map(|_| 0)
    }

    /// Forgets the lines that were read once.
    pub fn forget(&mut self) -> Result<(), Error> {
        // SAFETY: the handle is this one's alone.
        let status = unsafe { pgserial_forget(&mut self.handle) };
        done((status, NOTHING, String::new())).map(|_| ())
    }

    /// A dump of the safe snapshot of a session's transaction.
    pub fn dump(&mut self, session: u32) -> Result<String, Error> {
        let mut report = NOTHING;
        // SAFETY: as in `ask`.
        let status = unsafe { pgserial_dump(&mut self.handle, session, &mut report) };
        self.told(status, report)
    }

    /// The committed transactions in the serial order, since the last checkpoint.
    pub fn serial_order(&mut self) -> Result<String, Error> {
        let mut report = NOTHING;
        // SAFETY: as in `ask`.
        let status = unsafe { pgserial_serial_order(&mut self.handle, &mut report) };
        self.told(status, report)
    }

    /// The CREATE TABLE lines of the tables, and their number.
    pub fn tables(&mut self) -> Result<String, Error> {
        let mut report = NOTHING;
        // SAFETY: as in `ask`.
        let status = unsafe { pgserial_tables(&mut self.handle, &mut report) };
        self.told(status, report)
    }
}

impl Drop for Conversation {
    fn drop(&mut self) {
        // SAFETY: the handle is this one's alone. One that is shut is left as it is, by a status that says so.
        let _status = unsafe { pgserial_close(&mut self.handle) };
    }
}
