//! The running session against the reference: answers, images and every byte of every buffer.

use compare::sessions::Calls;
use exports::probe::running::{unwrap, wrap};

compare::session_tests!(Calls { wrap, unwrap });
