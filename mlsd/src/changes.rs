//! What is done where the journal's file has grown: it is told how full it is, and sessions files go with its files.
use crate::desk::Desk;
use crate::ending::End;
use crate::say::say;

impl Desk {
    /// At a start, before anything is asked. A kill may have come before the sessions file was closed with the
    /// journal's.
    pub fn begin_files(&mut self) -> Result<(), End> {
        if self.journal.is_full() {
            return Err(self.journal.full());
        }
        self.warn();
        if self.words.in_segments {
            let first = self.journal.first().unwrap_or(self.entries);
            if self.sessions.is_before(first) {
                self.close_sessions(first)?;
            }
        }
        Ok(())
    }

    /// Entries were added.
    pub fn has_grown(&mut self) -> Result<(), End> {
        if self.journal.look() && self.words.in_segments {
            self.close_sessions(u64::MAX)?;
        }
        self.warn();
        Ok(())
    }

    fn warn(&mut self) {
        if let Some(told) = self.journal.warning() {
            say(told);
        }
    }

    /// Closes the sessions file with the last of the journal's files that was closed, below a number.
    fn close_sessions(&mut self, below: u64) -> Result<(), End> {
        match self.journal.closed(below) {
            Some(closed) => self.sessions.close(closed, self.entries),
            None => Ok(()),
        }
    }
}
