//! The limits of the trial script format.

/// A line of more characters is no command.
pub const LONGEST_LINE: usize = 9_000;

/// The most values, bytes of a block, or bytes of room in a command on blocks.
pub const MOST_BYTES: usize = 64;

/// The most values in one run over the screen.
pub const MOST_VALUES: usize = 4_000;

/// The most bytes in a piece from the line, and of room in each output for it.
pub const LONGEST_PIECE: usize = 600;
