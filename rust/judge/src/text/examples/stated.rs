//! What is due, stated by hand: of texts that are read the writer's text, of lines that are refused the number.

/// 30 digits, as numbers that fit no word.
macro_rules! long {
    ($last:literal) => {
        concat!("99999999999999999999999999999", $last)
    };
}

/// A text and the one that the writer gives for what is read.
pub const READ: [(&str, &str); 12] = [
    ("quantities=1\nhidden=\nrules=0\n", "quantities=1\nhidden=\nrules=0\n"),
    // sheet A: the writer puts the lower quantity first
    (
        "quantities=3\nhidden=2\nrules=3\nrule=+1+2:5\nrule=+1-2:2\nrule=+3-2:0\n",
        "quantities=3\nhidden=2\nrules=3\nrule=+1+2:5\nrule=+1-2:2\nrule=-2+3:0\n",
    ),
    // rules in any order, written in place order
    (
        "quantities=2\nhidden=\nrules=4\nrule=-1-2:4\nrule=+2:3\nrule=-1:2\nrule=+1:1\n",
        "quantities=2\nhidden=\nrules=4\nrule=+1:1\nrule=-1:2\nrule=+2:3\nrule=-1-2:4\n",
    ),
    // halved and rounded toward minus infinity: 7 gives 3, 0 gives 0, -1 gives -1, -3 gives -2
    ("quantities=1\nhidden=\nrules=1\nrule=+1+1:7\n", "quantities=1\nhidden=\nrules=1\nrule=+1:3\n"),
    ("quantities=1\nhidden=\nrules=1\nrule=+1+1:0\n", "quantities=1\nhidden=\nrules=1\nrule=+1:0\n"),
    ("quantities=1\nhidden=\nrules=1\nrule=-1-1:-1\n", "quantities=1\nhidden=\nrules=1\nrule=-1:-1\n"),
    ("quantities=1\nhidden=\nrules=1\nrule=-1-1:-3\n", "quantities=1\nhidden=\nrules=1\nrule=-1:-2\n"),
    // the smaller bound of a place, wherever it stands and however it is written
    (
        "quantities=1\nhidden=\nrules=3\nrule=+1:5\nrule=+1:3\nrule=+1:4\n",
        "quantities=1\nhidden=\nrules=1\nrule=+1:3\n",
    ),
    ("quantities=1\nhidden=\nrules=2\nrule=+1+1:7\nrule=+1:4\n", "quantities=1\nhidden=\nrules=1\nrule=+1:3\n"),
    ("quantities=2\nhidden=\nrules=2\nrule=+2-1:5\nrule=-1+2:6\n", "quantities=2\nhidden=\nrules=1\nrule=-1+2:5\n"),
    // the largest n, its last quantity hidden, the extreme bounds
    (
        "quantities=32\nhidden=32\nrules=2\nrule=-32+31:-1000000000\nrule=+1:1000000000\n",
        "quantities=32\nhidden=32\nrules=2\nrule=+1:1000000000\nrule=+31-32:-1000000000\n",
    ),
    (
        "quantities=12\nhidden=9,10,11\nrules=1\nrule=+9+9:1000000000\n",
        "quantities=12\nhidden=9,10,11\nrules=1\nrule=+9:500000000\n",
    ),
];

/// Texts that begin alike and are refused for the line behind, or for what follows in its place.
pub struct Group {
    pub begin: &'static str,
    pub line: usize,
    /// how the text ends, and the number that is due
    pub ends: &'static [(&'static str, u32)],
}

pub const REFUSED: [Group; 5] = [
    Group { begin: "", line: 1, ends: &QUANTITIES },
    Group { begin: "quantities=32\n", line: 2, ends: &HIDDEN },
    Group { begin: "quantities=2\nhidden=\n", line: 3, ends: &RULES },
    Group { begin: "quantities=2\nhidden=\nrules=1\n", line: 4, ends: &RULE },
    Group { begin: "quantities=2\nhidden=\nrules=1\nrule=+1:0\n", line: 5, ends: &BEHIND },
];

const QUANTITIES: [(&str, u32); 18] = [
    ("quantities=33\n", 3),
    ("quantities=0\n", 3),
    (concat!("quantities=", long!("9"), "\n"), 3),
    // 2^32 + 1 and 2^64 + 1, which come to 1 where bits are lost
    ("quantities=4294967297\n", 3),
    ("quantities=18446744073709551617\n", 3),
    ("", 2),
    ("\n", 2),
    ("quantities=\n", 2),
    ("quantities=3", 2),
    ("quantities=33", 2),
    ("quantities=03\n", 2),
    ("quantities=00\n", 2),
    ("quantities=+3\n", 2),
    ("quantities=-0\n", 2),
    ("quantities= 3\n", 2),
    ("quantities=3\r\n", 2),
    ("Quantities=3\n", 2),
    ("hidden=\n", 2),
];

/// The second line of a sheet of 32 quantities.
const HIDDEN: [(&str, u32); 24] = [
    ("hidden=33\n", 3),
    ("hidden=0\n", 3),
    ("hidden=0,1\n", 3),
    ("hidden=39,40\n", 3),
    ("hidden=40,39\n", 2),
    ("hidden=33,32\n", 2),
    ("hidden=33,33\n", 2),
    ("hidden=0,0\n", 2),
    ("hidden=1,1\n", 2),
    ("hidden=2,1\n", 2),
    (concat!("hidden=1,", long!("9"), "\n"), 3),
    (concat!("hidden=", long!("9"), ",1\n"), 2),
    (concat!("hidden=", long!("8"), ",", long!("9"), "\n"), 3),
    (concat!("hidden=", long!("9"), ",", long!("8"), "\n"), 2),
    (concat!("hidden=", long!("9"), ",", long!("9"), "\n"), 2),
    // 2^64 + 1 behind 2: where bits are lost the list does not increase
    ("hidden=2,18446744073709551617\n", 3),
    ("hidden=1,\n", 2),
    ("hidden=,1\n", 2),
    ("hidden=1,,2\n", 2),
    ("hidden=1, 2\n", 2),
    ("hidden=01\n", 2),
    ("hidden=40,041\n", 2),
    ("hidden=1", 2),
    ("rules=0\n", 2),
];

/// The third line.
const RULES: [(&str, u32); 9] = [
    ("rules=2049\n", 3),
    (concat!("rules=", long!("9"), "\nrule=\n"), 3),
    ("rules=18446744073709551616\n", 3),
    ("rules=\n", 2),
    ("rules=-1\n", 2),
    ("rules=00\n", 2),
    ("rules=02049\n", 2),
    ("rules=2049", 2),
    ("rule=+1:0\n", 2),
];

/// The only rule line of a sheet of 2 quantities.
const RULE: [(&str, u32); 51] = [
    ("rule=+1-1:5\n", 4),
    ("rule=-2+2:-5\n", 4),
    ("rule=+1-1:1000000001\n", 3),
    ("rule=+3-3:5\n", 3),
    ("rule=+0-0:5\n", 3),
    ("rule=+0:5\n", 3),
    ("rule=-0:5\n", 3),
    ("rule=+3:5\n", 3),
    ("rule=+1-3:5\n", 3),
    ("rule=-0+1:5\n", 3),
    ("rule=+4294967297:5\n", 3),
    ("rule=+18446744073709551617:5\n", 3),
    ("rule=+1:1000000001\n", 3),
    ("rule=+1:-1000000001\n", 3),
    ("rule=+1:18446744073709551621\n", 3),
    (concat!("rule=+1:-", long!("9"), "\n"), 3),
    (concat!("rule=+", long!("9"), "-1:0\n"), 3),
    // the limit is on the number as written, though its half would fit
    ("rule=+1+1:2000000000\n", 3),
    ("rule=+1-1:05\n", 2),
    ("rule=+1-1:\n", 2),
    ("rule=+1-1\n", 2),
    ("rule=+1-1:5", 2),
    ("rule=+3:05\n", 2),
    ("rule=+3:-0\n", 2),
    ("rule=+03:5\n", 2),
    ("rule=+3-3:+1000000001\n", 2),
    ("rule=+1:-0\n", 2),
    ("rule=+1:+5\n", 2),
    ("rule=+1:+0\n", 2),
    ("rule=+1:--5\n", 2),
    ("rule=+1:-\n", 2),
    ("rule=+1:\n", 2),
    ("rule=+1:5 \n", 2),
    ("rule=+1:5\r\n", 2),
    ("rule=+1:5:\n", 2),
    ("rule=+1::5\n", 2),
    ("rule=+1:5", 2),
    ("rule=1:5\n", 2),
    ("rule=:5\n", 2),
    ("rule=+:5\n", 2),
    ("rule=+1+:5\n", 2),
    ("rule=++1:5\n", 2),
    ("rule=+1+1+1:5\n", 2),
    ("rule=+01:5\n", 2),
    ("rule=+00:5\n", 2),
    ("rule= +1:5\n", 2),
    ("rule==+1:5\n", 2),
    ("rule=\n", 2),
    ("rules=+1:5\n", 2),
    ("\n", 2),
    ("", 2),
];

/// What stands behind a sheet of 2 quantities and one rule, which has line 5.
const BEHIND: [(&str, u32); 4] = [("\n", 2), ("x", 2), ("rule=+1:5\n", 2), ("\0", 2)];
