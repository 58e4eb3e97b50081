//! error.rs: message texts are outside the order, and with them the crate that formats them.
use crate::derive::{Edit, omit, replace};

const TEXTS: &str = "message texts are left out";

pub const EDITS: &[Edit] = &[
    replace(1, "`include!` takes no inner doc comment", "//!", "//"),
    replace(1, TEXTS, "use thiserror::Error;\n", ""),
    replace(1, TEXTS, ", Error)]", ")]"),
    omit(TEXTS, "    #[error(\"invalid parameter", "    InvalidParameter"),
    omit(TEXTS, "    #[error(\"invalid geometry", "    InvalidGeometry"),
    omit(TEXTS, "    #[error(\"the tool cannot", "    Unreachable"),
    omit(TEXTS, "    #[error(\"limit exceeded", "    LimitExceeded"),
    omit(TEXTS, "    #[error(\"post processor", "    Post"),
    omit(TEXTS, "    #[error(\"not found", "    NotFound"),
    omit(TEXTS, "    #[error(\"AI service", "    Service"),
];
