//! What the program tells of a circuit beside its text.

/// How many gates a circuit has. A read circuit is counted as it is lowered: a `cz` as two H and a CX, a `swap` as three
/// CX, a Toffoli as seven phases, six CX and two H.
#[derive(Clone, Copy, Debug, Default, PartialEq, Eq)]
pub struct GateCounts {
    /// All gates.
    pub gates: u64,
    /// Phases that are no whole multiple of pi/2. Without square roots of T this is the T-count.
    pub odd: u64,
    /// CZ and CX gates.
    pub two_qubit: u64,
    /// H gates.
    pub h: u64,
    /// Phases, odd ones and others.
    pub phase: u64,
    /// CZ gates.
    pub cz: u64,
    /// CX gates.
    pub cx: u64,
    /// NOT gates.
    pub x: u64,
}

/// The scalar r^root2 * z^turn, where r is the root of two and z a sixteenth turn, exp(i*pi/8). The linear map of a text
/// is taken as the product of the matrices of its built-in gates, that of U(theta,phi,lambda) taken
/// 2*exp(i*(theta+phi+lambda)/2) times.
#[derive(Clone, Copy, Debug, Default, PartialEq, Eq)]
pub struct Scalar {
    /// The exponent of the root of two.
    pub root2: i64,
    /// The exponent of the sixteenth turn.
    pub turn: u8,
}

/// The counts of a line such as `// read gates 3 odd 2 two-qubit 1 h 0 phase 2 cz 0 cx 1 not 0`.
pub(crate) fn counts_in(line: &str) -> GateCounts {
    GateCounts {
        gates: number_behind("gates", line),
        odd: number_behind("odd", line),
        two_qubit: number_behind("two-qubit", line),
        h: number_behind("h", line),
        phase: number_behind("phase", line),
        cz: number_behind("cz", line),
        cx: number_behind("cx", line),
        x: number_behind("not", line),
    }
}

/// The scalar of a line such as `// scalar root2 2 turn 0`.
pub(crate) fn scalar_in(line: &str) -> Scalar {
    Scalar {
        root2: number_behind("root2", line),
        turn: number_behind("turn", line),
    }
}

// The number behind a word of a line that the program writes.
fn number_behind<N: std::str::FromStr + Default>(word: &str, line: &str) -> N {
    let mut words = line.split_whitespace().skip_while(|other| *other != word);
    words
        .nth(1)
        .and_then(|number| number.parse().ok())
        .unwrap_or_default()
}
