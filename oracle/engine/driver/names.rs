//! The refusals by number.

const NAMES: [&str; 30] = [
    "",
    "NotRunning",
    "Running",
    "Settings",
    "Clock",
    "UnknownEpoch",
    "JournalRecord",
    "JournalHeight",
    "Crowded",
    "OutShort",
    "EpochBack",
    "SetSize",
    "Decode",
    "TooHigh",
    "AckEpochOutsideBounds",
    "UnknownValidator",
    "PeerMismatch",
    "AckCertified",
    "AckHeight",
    "AckDigest",
    "AckDuplicate",
    "InvalidAckSignature",
    "NotPending",
    "NoSlip",
    "Stray",
    "NotDue",
    "SlipsOut",
    "JournalFull",
    "JournalPruned",
    "AssemblyFailed",
];

pub fn refused(number: usize) -> String {
    format!("refused {number} {}", NAMES[number])
}

pub fn halted(number: usize) -> String {
    format!("halted {number} {}", NAMES[number])
}

/// The published error, as it prints itself for debugging, as a refusal.
pub fn published(error: &str) -> String {
    let name = error.split('(').next().expect("a name");
    let number = NAMES
        .iter()
        .position(|known| *known == name)
        .expect("a known error");
    refused(number)
}

/// What the published code dies of: a halt where the rules have one, else its own words.
pub fn death(panic: &str) -> String {
    let line = panic.lines().next().unwrap_or("");
    if line.starts_with("unable to append to journal") {
        return halted(if line.contains("Full") { 27 } else { 28 });
    }
    if line.starts_with("verified acknowledgement quorum must assemble") {
        return halted(29);
    }
    format!("died ({line})")
}
