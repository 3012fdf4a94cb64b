//! Stand-in for the context of a lookup: it has a queue of reads, or none.

use super::uring_session::UringSession;

pub struct IoCtx<'a>(Option<&'a mut UringSession>);

impl<'a> IoCtx<'a> {
    pub fn none() -> Self {
        Self(None)
    }

    pub fn with(session: &'a mut UringSession) -> Self {
        Self(Some(session))
    }

    pub fn session(&mut self) -> Option<&mut UringSession> {
        self.0.as_deref_mut()
    }
}
