//! Papers with an answer that *mark* or *key* may give, and wrong ones, each with what the judge has to say of it.

/// n, the hidden list and the rules.
pub type Said = (&'static str, &'static str, &'static [&'static str]);

pub struct Marked {
    pub sheet: Said,
    pub script: Said,
    pub right: &'static [&'static str],
    pub wrong: &'static [(&'static str, &'static str)],
}

const A: Said = ("3", "2", &["+1+2:5", "+1-2:2", "+3-2:0"]);

/// Its key has a bound that is past a sheet's limit.
const FAR: Said = ("3", "2", &["+1-2:1000000000", "+2-3:1000000000"]);

/// Only a half would fit.
const NOTHING_ALLOWED: Said = ("1", "", &["+1+1:1", "-1-1:-1"]);

/// Its tightest key has one rule more, which is the first.
const ODD: Said = ("2", "", &["+1+2:1", "+1-2:0"]);

pub const MARKED: [Marked; 11] = [
    Marked {
        sheet: A,
        script: ("3", "2", &["+1+1:7", "+1+3:5"]),
        right: &["verdict=equal\n"],
        wrong: &[
            ("", "line 1: nothing, due 'verdict=equal\\n'"),
            ("verdict=equal", "line 1: 'verdict=equal', due 'verdict=equal\\n'"),
            ("verdict=equal\r\n", "line 1: 'verdict=equal\\r\\n', due 'verdict=equal\\n'"),
            ("verdict=equal\n\n", "line 2: '\\n', due nothing"),
            ("verdict=equal\nrule=\nvalues=0,0,0\n", "line 2: 'rule=\\n', due nothing"),
            ("verdict=loose\nrule=\nvalues=0,0,0\n", "line 1: 'verdict=loose\\n', due 'verdict=equal\\n'"),
        ],
    },
    // both rules of the key, +1:3 and +1+3:5, can be broken
    Marked {
        sheet: A,
        script: ("3", "2", &[]),
        right: &[
            "verdict=loose\nrule=+1:3\nvalues=4,0,0\n",
            "verdict=loose\nrule=+1:3\nvalues=4611686018427387904,0,-4611686018427387904\n",
        ],
        wrong: &[
            // lines
            ("verdict=loose\n", "line 2: nothing, due 'rule=+1:3\\n'"),
            ("verdict=loose\nrule=+1:3\n", "line 3: nothing, due 'values=\\n'"),
            ("verdict=loose\nvalues=4,0,0\n", "line 2: 'values=4,0,0\\n', due 'rule=+1:3\\n'"),
            ("verdict=loose\nvalues=4,0,0\nrule=+1:3\n", "line 2: 'values=4,0,0\\n', due 'rule=+1:3\\n'"),
            ("verdict=loose\nrule=+1:3\nvalues=4,0,0", "line 3: 'values=4,0,0', due 'values=4,0,0\\n'"),
            ("verdict=loose\nrule=+1:3\nvalues=4,0,0\n\n", "line 4: '\\n', due nothing"),
            ("verdict=tight\nrule=+1:3\nvalues=4,0,0\n", "line 1: 'verdict=tight\\n', due 'verdict=loose\\n'"),
            // the rule
            ("verdict=loose\nrule=\nvalues=4,0,0\n", "line 2: 'rule=\\n', due 'rule=+1:3\\n'"),
            ("verdict=loose\nrule=+1+3:5\nvalues=0,0,6\n", "line 2: 'rule=+1+3:5\\n', due 'rule=+1:3\\n'"),
            ("verdict=loose\nrule=+1+3:5\nvalues=4,0,6\n", "line 2: 'rule=+1+3:5\\n', due 'rule=+1:3\\n'"),
            ("verdict=loose\nrule=+1+1:7\nvalues=4,0,0\n", "line 2: 'rule=+1+1:7\\n', due 'rule=+1:3\\n'"),
            ("verdict=loose\nrule=+1:4\nvalues=5,0,0\n", "line 2: 'rule=+1:4\\n', due 'rule=+1:3\\n'"),
            // how integers are spelled
            ("verdict=loose\nrule=+1:3\nvalues=4, 0,0\n", "line 3: 'values=4, 0,0\\n', due 'values=4,0\\n'"),
            ("verdict=loose\nrule=+1:3\nvalues=+4,0,0\n", "line 3: 'values=+4,0,0\\n', due 'values=4,0,0\\n'"),
            ("verdict=loose\nrule=+1:3\nvalues=04,0,0\n", "line 3: 'values=04,0,0\\n', due 'values=4,0,0\\n'"),
            ("verdict=loose\nrule=+1:3\nvalues=4,-0,0\n", "line 3: 'values=4,-0,0\\n', due 'values=4,0,0\\n'"),
            ("verdict=loose\nrule=+1:3\nvalues=4,0,0,\n", "line 3: 'values=4,0,0,\\n', due 'values=4,0,0\\n'"),
            ("verdict=loose\nrule=+1:3\nvalue=4,0,0\n", "line 3: 'value=4,0,0\\n', due 'values=4,0,0\\n'"),
            // the integers
            ("verdict=loose\nrule=+1:3\nvalues=4,0\n", "2 integers, due 3"),
            ("verdict=loose\nrule=+1:3\nvalues=4,0,0,0\n", "4 integers, due 3"),
            ("verdict=loose\nrule=+1:3\nvalues=4611686018427387905,0,0\n", "4611686018427387905 is out of range"),
            ("verdict=loose\nrule=+1:3\nvalues=4,0,-4611686018427387905\n", "-4611686018427387905 is out of range"),
            ("verdict=loose\nrule=+1:3\nvalues=4,1,0\n", "the hidden quantity 2 is 1, due 0"),
            ("verdict=loose\nrule=+1:3\nvalues=0,0,6\n", "the integers meet the rule +1:3"),
            ("verdict=loose\nrule=+1:3\nvalues=3,0,2\n", "hidden integers complete these"),
        ],
    },
    // only the second rule of the key can be broken
    Marked {
        sheet: A,
        script: ("3", "2", &["+1:3"]),
        right: &["verdict=loose\nrule=+1+3:5\nvalues=0,0,6\n", "verdict=loose\nrule=+1+3:5\nvalues=3,0,3\n"],
        wrong: &[
            ("verdict=loose\nrule=+1:3\nvalues=0,0,6\n", "line 2: 'rule=+1:3\\n', due 'rule=+1+3:5\\n'"),
            ("verdict=loose\nrule=+3+1:5\nvalues=0,0,6\n", "line 2: 'rule=+3+1:5\\n', due 'rule=+1+3:5\\n'"),
            ("verdict=loose\nrule=+1+3:5\nvalues=4,0,2\n", "the integers break the script's rule +1:3"),
        ],
    },
    // the rule is one of the plain key
    Marked {
        sheet: ODD,
        script: ("2", "", &[]),
        right: &["verdict=loose\nrule=+1+2:1\nvalues=1,1\n"],
        wrong: &[
            ("verdict=loose\nrule=+1:0\nvalues=1,1\n", "line 2: 'rule=+1:0\\n', due 'rule=+1+2:1\\n'"),
            ("verdict=loose\nrule=+1+2:1\nvalues=1,0\n", "the integers meet the rule +1+2:1"),
        ],
    },
    // both rules of the script can be broken
    Marked {
        sheet: A,
        script: ("3", "2", &["+1+3:4", "+1+1:5"]),
        right: &["verdict=tight\nrule=+1:2\nvalues=3,1,0\n", "verdict=tight\nrule=+1:2\nvalues=3,2,2\n"],
        wrong: &[
            ("verdict=tight\nrule=+1+3:4\nvalues=2,3,3\n", "line 2: 'rule=+1+3:4\\n', due 'rule=+1:2\\n'"),
            ("verdict=tight\nrule=+1+1:5\nvalues=3,1,0\n", "line 2: 'rule=+1+1:5\\n', due 'rule=+1:2\\n'"),
            ("verdict=tight\nvalues=3,1,0\n", "line 2: 'values=3,1,0\\n', due 'rule=+1:2\\n'"),
            ("verdict=tight\nrule=+1:2\nvalues=3,1\n", "2 integers, due 3"),
            ("verdict=tight\nrule=+1:2\nvalues=3,0,0\n", "the integers break the sheet's rule +1-2:2"),
            ("verdict=tight\nrule=+1:2\nvalues=2,3,3\n", "the integers meet the rule +1:2"),
            ("verdict=tight\nrule=+1:2\nvalues=0,0,0\n", "the script allows these integers"),
        ],
    },
    Marked {
        sheet: NOTHING_ALLOWED,
        script: ("1", "", &["-1:-2"]),
        right: &["verdict=loose\nrule=\nvalues=2\n", "verdict=loose\nrule=\nvalues=70\n"],
        wrong: &[
            ("verdict=loose\nvalues=2\n", "line 2: 'values=2\\n', due 'rule=\\n'"),
            ("verdict=loose\nrule=+1:0\nvalues=2\n", "line 2: 'rule=+1:0\\n', due 'rule=\\n'"),
            ("verdict=loose\nrule=\nvalues=0\n", "the integers break the script's rule -1:-2"),
            ("verdict=loose\nrule=\nvalues=\n", "0 integers, due 1"),
            ("refused=5\npaper=sheet\nline=0\n", "line 1: 'refused=5\\n', due 'verdict=loose\\n'"),
        ],
    },
    Marked {
        sheet: ("1", "", &["+1:0", "+1-1:0"]),
        script: ("0", "", &[]),
        right: &["refused=4\npaper=sheet\nline=5\n"],
        wrong: &[
            ("refused=4\npaper=script\nline=5\n", "line 2: 'paper=script\\n', due 'paper=sheet\\n'"),
            ("refused=4\npaper=sheet\nline=4\n", "line 3: 'line=4\\n', due 'line=5\\n'"),
            ("refused=4\nline=5\n", "line 2: 'line=5\\n', due 'paper=sheet\\n'"),
            ("refused=4\npaper=sheet\n", "line 3: nothing, due 'line=5\\n'"),
            ("refused=3\npaper=script\nline=1\n", "line 1: 'refused=3\\n', due 'refused=4\\n'"),
        ],
    },
    // bounds past a sheet's limit
    Marked {
        sheet: FAR,
        script: ("3", "2", &["+1-3:2000000000"]),
        right: &["verdict=equal\n"],
        wrong: &[("refused=3\npaper=script\nline=4\n", "line 1: 'refused=3\\n', due 'verdict=equal\\n'")],
    },
    Marked {
        sheet: FAR,
        script: ("3", "2", &["+1-3:1999999999"]),
        right: &["verdict=tight\nrule=+1-3:1999999999\nvalues=2000000000,1000000000,0\n"],
        wrong: &[
            (
                "verdict=tight\nrule=+1-3:1000000000\nvalues=2000000000,1000000000,0\n",
                "line 2: 'rule=+1-3:1000000000\\n', due 'rule=+1-3:1999999999\\n'",
            ),
            (
                "verdict=tight\nrule=+1-3:1999999999\nvalues=1999999999,1000000000,0\n",
                "the script allows these integers",
            ),
        ],
    },
    Marked {
        sheet: A,
        script: ("3", "2", &["+1:2000000001"]),
        right: &["refused=3\npaper=script\nline=4\n"],
        wrong: &[
            ("refused=3\npaper=sheet\nline=4\n", "line 2: 'paper=sheet\\n', due 'paper=script\\n'"),
            ("refused=3\npaper=script\nline=0\n", "line 3: 'line=0\\n', due 'line=4\\n'"),
        ],
    },
    Marked {
        sheet: A,
        script: ("3", "2", &["+2:0"]),
        right: &["refused=7\npaper=both\nline=0\n"],
        wrong: &[
            ("refused=7\npaper=script\nline=0\n", "line 2: 'paper=script\\n', due 'paper=both\\n'"),
            ("refused=7\npaper=both\nline=4\n", "line 3: 'line=4\\n', due 'line=0\\n'"),
            ("refused=7\npaper=both\n", "line 3: nothing, due 'line=0\\n'"),
        ],
    },
];

/// A sheet, what *key* has to print, and wrong answers.
pub type Keyed = (Said, &'static str, &'static [(&'static str, &'static str)]);

pub const KEYED: [Keyed; 5] = [
    (
        A,
        "quantities=3\nhidden=2\nrules=2\nrule=+1:3\nrule=+1+3:5\n",
        &[
            ("quantities=3\nhidden=2\nrules=0\n", "line 3: 'rules=0\\n', due 'rules=2\\n'"),
            (
                "quantities=3\nhidden=2\nrules=2\nrule=+1+3:5\nrule=+1:3\n",
                "line 4: 'rule=+1+3:5\\n', due 'rule=+1:3\\n'",
            ),
            ("quantities=3\nhidden=2\nrules=2\nrule=+1:3\n", "line 5: nothing, due 'rule=+1+3:5\\n'"),
            ("quantities=3\nhidden=2\nrules=2\nrule=+1:3\nrule=+1+3:5\n\n", "line 6: '\\n', due nothing"),
        ],
    ),
    (
        ODD,
        "quantities=2\nhidden=\nrules=3\nrule=+1:0\nrule=+1+2:1\nrule=+1-2:0\n",
        &[("quantities=2\nhidden=\nrules=2\nrule=+1+2:1\nrule=+1-2:0\n", "line 3: 'rules=2\\n', due 'rules=3\\n'")],
    ),
    // a bound past a script's limits is printed
    (
        ("2", "", &["+1:1000000000", "-1+2:1000000000"]),
        "quantities=2\nhidden=\nrules=4\nrule=+1:1000000000\nrule=+2:2000000000\nrule=+1+2:3000000000\nrule=-1+2:1000000000\n",
        &[
            (
                "quantities=2\nhidden=\nrules=2\nrule=+1:1000000000\nrule=-1+2:1000000000\n",
                "line 3: 'rules=2\\n', due 'rules=4\\n'",
            ),
            ("refused=3\nline=0\n", "line 1: 'refused=3\\n', due 'quantities=2\\n'"),
        ],
    ),
    (
        NOTHING_ALLOWED,
        "refused=5\nline=0\n",
        &[
            ("refused=5\n", "line 2: nothing, due 'line=0\\n'"),
            ("refused=5\nline=4\n", "line 2: 'line=4\\n', due 'line=0\\n'"),
            ("quantities=1\nhidden=\nrules=0\n", "line 1: 'quantities=1\\n', due 'refused=5\\n'"),
        ],
    ),
    (
        ("33", "", &[]),
        "refused=3\nline=1\n",
        &[
            ("refused=2\nline=1\n", "line 1: 'refused=2\\n', due 'refused=3\\n'"),
            ("refused=3\nline=0\n", "line 2: 'line=0\\n', due 'line=1\\n'"),
            ("refused=3\npaper=sheet\nline=1\n", "line 2: 'paper=sheet\\n', due 'line=1\\n'"),
        ],
    ),
];

/// The whole text of a paper.
pub fn text((n, hidden, rules): &Said) -> Vec<u8> {
    let mut text = format!("quantities={n}\nhidden={hidden}\nrules={}\n", rules.len());
    rules.iter().for_each(|rule| text += &format!("rule={rule}\n"));
    text.into_bytes()
}
