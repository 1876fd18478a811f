//! The eight actions as methods, which make a request and submit it. The subject is the one that asks.
use crate::{Answer, Label, Mode, Monitor, Object, Request, Session, Subject, SubmitError};

/// What a request is answered.
type Answered = Result<Answer, SubmitError>;

impl Monitor {
    /// Asks for an access to an object.
    pub fn get(&mut self, session: u32, subject: Subject, object: Object, mode: Mode) -> Answered {
        self.submit(session, &Request::Get { subject, object, mode })
    }

    /// Ends an access.
    pub fn release(&mut self, session: u32, subject: Subject, object: Object, mode: Mode) -> Answered {
        self.submit(session, &Request::Release { subject, object, mode })
    }

    /// Has the other subject permitted the object in the mode.
    pub fn give(&mut self, session: u32, subject: Subject, other: Subject, object: Object, mode: Mode) -> Answered {
        self.submit(session, &Request::Give { subject, other, object, mode })
    }

    /// Has the other subject permitted it no longer.
    pub fn rescind(&mut self, session: u32, subject: Subject, other: Subject, object: Object, mode: Mode) -> Answered {
        self.submit(session, &Request::Rescind { subject, other, object, mode })
    }

    /// Makes an object below its parent; the answer has its number.
    pub fn create(
        &mut self,
        session: u32,
        subject: Subject,
        parent: Object,
        security: Label,
        integrity: Label,
    ) -> Answered {
        self.submit(session, &Request::Create { subject, parent, security, integrity })
    }

    /// Deletes an object and all below it.
    pub fn delete(&mut self, session: u32, subject: Subject, object: Object) -> Answered {
        self.submit(session, &Request::Delete { subject, object })
    }

    /// Changes the subject's current label.
    pub fn level(&mut self, session: u32, subject: Subject, security: Label) -> Answered {
        self.submit(session, &Request::Level { subject, security })
    }

    /// Changes an object's security label.
    pub fn relabel(&mut self, session: u32, subject: Subject, object: Object, security: Label) -> Answered {
        self.submit(session, &Request::Relabel { subject, object, security })
    }
}

/// The same of a session, whose number its entries have.
impl Session {
    /// Asks for an access to an object.
    pub fn get(&mut self, subject: Subject, object: Object, mode: Mode) -> Answered {
        self.submit(&Request::Get { subject, object, mode })
    }

    /// Ends an access.
    pub fn release(&mut self, subject: Subject, object: Object, mode: Mode) -> Answered {
        self.submit(&Request::Release { subject, object, mode })
    }

    /// Has the other subject permitted the object in the mode.
    pub fn give(&mut self, subject: Subject, other: Subject, object: Object, mode: Mode) -> Answered {
        self.submit(&Request::Give { subject, other, object, mode })
    }

    /// Has the other subject permitted it no longer.
    pub fn rescind(&mut self, subject: Subject, other: Subject, object: Object, mode: Mode) -> Answered {
        self.submit(&Request::Rescind { subject, other, object, mode })
    }

    /// Makes an object below its parent; the answer has its number.
    pub fn create(&mut self, subject: Subject, parent: Object, security: Label, integrity: Label) -> Answered {
        self.submit(&Request::Create { subject, parent, security, integrity })
    }

    /// Deletes an object and all below it.
    pub fn delete(&mut self, subject: Subject, object: Object) -> Answered {
        self.submit(&Request::Delete { subject, object })
    }

    /// Changes the subject's current label.
    pub fn level(&mut self, subject: Subject, security: Label) -> Answered {
        self.submit(&Request::Level { subject, security })
    }

    /// Changes an object's security label.
    pub fn relabel(&mut self, subject: Subject, object: Object, security: Label) -> Answered {
        self.submit(&Request::Relabel { subject, object, security })
    }
}
