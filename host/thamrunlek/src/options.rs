//! The options of a call, and how it is cut into strips and blocks.

/// The side on which a symmetric or triangular A stands.
#[derive(Clone, Copy, Debug, PartialEq, Eq)]
pub enum Side {
    /// A stands left of B.
    Left,
    /// A stands right of B.
    Right,
}

/// The triangle of a matrix that is looked at, diagonal included.
#[derive(Clone, Copy, Debug, PartialEq, Eq)]
pub enum Triangle {
    /// The diagonal and what is below it.
    Lower,
    /// The diagonal and what is above it.
    Upper,
}

/// Whether a matrix is taken as stored or transposed.
#[derive(Clone, Copy, Debug, PartialEq, Eq)]
pub enum Transpose {
    /// As stored.
    No,
    /// Transposed.
    Yes,
}

/// What stands on the diagonal of a triangular matrix.
#[derive(Clone, Copy, Debug, PartialEq, Eq)]
pub enum Diagonal {
    /// The diagonal counts as 1.0 and is not read.
    Unit,
    /// The diagonal is read.
    NonUnit,
}

impl Side {
    /// The character number of the option, `L` or `R`.
    pub fn code(self) -> i32 {
        match self {
            Side::Left => 'L' as i32,
            Side::Right => 'R' as i32,
        }
    }
}

impl Triangle {
    /// The character number of the option, `L` or `U`.
    pub fn code(self) -> i32 {
        match self {
            Triangle::Lower => 'L' as i32,
            Triangle::Upper => 'U' as i32,
        }
    }
}

impl Transpose {
    /// The character number of the option, `N` or `T`.
    pub fn code(self) -> i32 {
        match self {
            Transpose::No => 'N' as i32,
            Transpose::Yes => 'T' as i32,
        }
    }
}

impl Diagonal {
    /// The character number of the option, `U` or `N`.
    pub fn code(self) -> i32 {
        match self {
            Diagonal::Unit => 'U' as i32,
            Diagonal::NonUnit => 'N' as i32,
        }
    }
}

/// How a call is worked through: its strip width and its block size, both 0 to 64, where 0 works as 64. They change the
/// time that a call takes and never its result. The default, 0 and 0, leaves the choice to the library.
#[derive(Clone, Copy, Debug, Default, PartialEq, Eq)]
pub struct Blocks {
    /// The strip width.
    pub width: i32,
    /// The block size.
    pub size: i32,
}
