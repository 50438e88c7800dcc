//! Levels of a log. The crate writes no log, so that the level changes nothing; programs that set it compile and run.

/// How much is logged.
///
/// iceoryx2's `LogLevel`.
#[derive(Debug, Clone, Copy, PartialEq, Eq, PartialOrd, Ord)]
pub enum LogLevel {
    /// Each step.
    Trace,
    /// Details that help to find errors.
    Debug,
    /// Events of interest.
    Info,
    /// Possible errors.
    Warn,
    /// Errors.
    Error,
    /// Errors that end the program.
    Fatal,
}

/// Sets the level of the log, which stays empty at each level.
///
/// iceoryx2's `set_log_level`.
pub fn set_log_level(_level: LogLevel) {}

/// Sets the level of the log, which stays empty at each level, from the environment or else to this one.
///
/// iceoryx2's `set_log_level_from_env_or`.
pub fn set_log_level_from_env_or(_level: LogLevel) {}

/// Sets the level of the log, which stays empty at each level, from the environment or else to the default.
///
/// iceoryx2's `set_log_level_from_env_or_default`.
pub fn set_log_level_from_env_or_default() {}
