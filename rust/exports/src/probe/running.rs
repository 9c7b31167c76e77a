//! The exports of the running session, which is advanced where it stands.

crate::pairs::pair_calls!(probe_running_wrap, probe_running_unwrap);
