//! The usual causes in tables.

/// A text, its refusal's number, line and the byte that is pointed to, 0 where there is none, and words that are told.
pub type Case = (&'static [u8], (u32, usize, usize), &'static [&'static str]);

/// Lines that are no `quantities=` line, the byte that is pointed to, and words that are told.
pub const FIRST_LINES: &[(&str, usize, &str)] = &[
    ("Quantities=3", 1, "a capital letter: the key is written quantities=, in small letters"),
    ("quanTITIES=3", 5, "a capital letter"),
    ("quantites=3", 8, "quantites is no key, or misspelt: quantities= is due"),
    ("n=3", 1, "n is no key, or misspelt: quantities= is due"),
    ("quant", 6, "the line ends here, within the key quantities="),
    ("quantities = 3", 11, "a blank or tab after quantities: = is due"),
    ("quantities: 3", 11, "a colon after quantities: = is due"),
    ("quantities", 11, "the line ends here, where = is due"),
    (" quantities=3", 1, "a blank or tab before quantities=: no line has blanks or tabs"),
    ("\tquantities=3", 1, "a blank or tab before quantities="),
    ("3", 1, "the key is missing: quantities= is due before the value"),
    ("=3", 1, "the key's name is missing"),
    ("# sheet A", 1, "a comment: a text has none"),
    ("  // sheet A", 3, "a comment: a text has none"),
    ("My sheet", 1, "words that are none of the format: quantities= is due"),
    ("", 1, "an empty line, where quantities= is due"),
    ("\r", 1, "an empty line, with a carriage return (CR, byte 13)"),
    ("\r\r", 1, "^^^^^^^^ an empty line, with a carriage return (CR, byte 13)"),
    (" \t ", 1, "a line of blanks alone, where quantities= is due"),
    ("quantities=", 12, "the line ends here, where a number without a sign is due"),
    ("quantities=+3", 12, "the sign +, where a number without a sign is due"),
    ("quantities=-3", 12, "the sign -, where a number without a sign is due"),
    ("quantities=03", 12, "^ a leading zero: numbers are written without, and zero as 0"),
    ("quantities=003", 12, "^^ leading zeros: numbers are written without, and zero as 0"),
    ("quantities=3.0", 13, "a decimal point: numbers are integers"),
    (
        "quantities=3,5",
        13,
        "what helps: quantities and rule lines are counted in whole numbers, written with digits alone",
    ),
    ("quantities=three", 12, "the letter t, where a number without a sign is due"),
    ("quantities= 3", 12, "a blank, where a number without a sign is due; no line has blanks or tabs"),
    ("quantities=3 ", 13, "a blank at the end of the line: no line has blanks or tabs"),
    ("quantities=3 # three", 14, "a comment: a text has none"),
];

/// Values that are no list of hidden quantities.
pub const HIDDEN_LISTS: &[(&str, usize, &str)] = &[
    ("2,1", 10, "1 follows 2; the list has to increase"),
    ("10,9", 11, "9 follows 10; the list has to increase"),
    ("2,2", 10, "2 stands twice; the list has each quantity once, increasing"),
    ("2, 5", 10, "a blank, where a quantity number is due"),
    ("2 5", 9, "a blank, where a digit, a comma or the end of the line is due"),
    ("2;5", 9, "the character ;, where a digit, a comma or the end of the line is due"),
    ("2-5", 9, "the sign -, where a digit, a comma or the end of the line is due"),
    ("2,", 10, "the line ends here, where a quantity number is due"),
    (",2", 8, "the character ,, where a quantity number is due"),
    ("02", 8, "a leading zero"),
    ("none", 8, "the letter n, where a quantity number is due"),
    ("2.3", 9, "the character ., where a digit, a comma or the end of the line is due"),
    ("2.3", 9, JOINED),
    ("2 5", 9, JOINED),
    ("2;5", 9, JOINED),
];

const JOINED: &str = "what helps: hidden quantities are joined by commas, as hidden=2,5";
const NUMBERED: &str = "what helps: quantities are numbered 1, 2, 3 and so on, and have a sign, but no factor";
const ROUNDED: &str = "where a fraction is, write an integer; a bound is rounded down";

/// Lines that are no rule lines.
pub const RULE_LINES: &[(&str, usize, &str)] = &[
    ("+1:5", 1, "the key is missing: rule= is due before the value"),
    ("rule+1:5", 5, "the sign +, where = is due"),
    ("rules=+1:5", 1, "rules stands where rule= is due"),
    ("Rule=+1:5", 1, "a capital letter: the key is written rule=, in small letters"),
    ("rule=+1 +2:5", 8, "rule=+1 +2:5\n           ^ a blank, where a digit, a sign or a colon is due"),
    ("rule=+1\t:5", 8, "rule=+1<TAB>:5\n           ^^^^^ a tab, where a digit, a sign or a colon is due"),
    ("rule=+1+2 :5", 10, "a blank, where a digit or a colon is due"),
    ("rule=+1: 5", 9, "a blank, where a bound, an integer, is due"),
    ("rule=+1:5 ", 10, "a blank at the end of the line"),
    ("rule=+1:5 # low", 11, "a comment: a text has none"),
    ("rule=+1:5 // low", 11, "a comment: a text has none"),
    ("rule=1+2:5", 6, "no sign: + or - is due before the quantity, also before the first"),
    ("rule=+1+2", 10, "the line ends here: a colon and a bound are due"),
    ("rule=+1+2<=5", 10, "^^ a colon is due between the quantities and the bound"),
    ("rule=+1+2+3:5", 10, "a third quantity: a rule has one or two"),
    ("rule=++1:5", 7, "the sign +, where a quantity number is due"),
    ("rule=+x:5", 7, "the letter x, where a quantity number is due"),
    ("rule=+2*1:5", 8, "the character *, where a digit, a sign or a colon is due"),
    ("rule=+01:5", 7, "a leading zero"),
    ("rule=:5", 6, "the character :, where a sign, + or -, is due"),
    ("rule=", 6, "the line ends here, where a sign, + or -, is due"),
    ("rule=+1:", 9, "the line ends here, where a bound, an integer, is due"),
    ("rule=+1:+5", 9, "a + before the bound: only - may stand there"),
    ("rule=+1:--5", 10, "the sign -, where a bound, an integer, is due"),
    ("rule=+1:-0", 9, "^^ -0: zero is written 0"),
    ("rule=+1:05", 9, "a leading zero"),
    ("rule=+1:-05", 10, "a leading zero"),
    ("rule=+1:5.0", 10, "^^ a decimal point: numbers are integers"),
    ("rule=+1:5,5", 10, "^^ a decimal comma: numbers are integers"),
    ("rule=+1:5.5", 10, "what helps: write an integer; a bound is rounded down"),
    ("rule=+1:0.500", 10, "^^^^ a decimal point: numbers are integers"),
    ("rule=+1:1234,567", 13, "^^^^ a decimal comma: numbers are integers"),
    ("rule=+1:1.000", 10, "^ a separator of thousands or a decimal point: numbers have digits alone"),
    ("rule=+1:1.000", 10, "what helps: where thousands are meant, write 1000; where a fraction is, write an integer;"),
    ("rule=+1:1.000", 10, ROUNDED),
    ("rule=+1:-12.500", 12, "where thousands are meant, write -12500; "),
    ("rule=+1:1,000", 10, "a separator of thousands or a decimal comma: numbers have digits alone"),
    ("rule=+1:1,000", 10, ROUNDED),
    ("rule=+1:1'000", 10, "a separator of thousands: numbers have digits alone"),
    ("rule=+1.5+2:5", 8, "the character ., where a digit, a sign or a colon is due"),
    ("rule=+1.5+2:5", 8, NUMBERED),
    ("rule=+1+2,5", 10, NUMBERED),
    ("rule=+2*1:5", 8, NUMBERED),
    ("rule=+1:1.000.000", 10, "a separator of thousands"),
    ("rule=+1:1 000", 10, "a separator of thousands"),
    ("rule=+1:1_000", 10, "a separator of thousands"),
    ("rule=+1:1e9", 10, "^^ an exponent: numbers have digits alone"),
    ("rule=+1:5:6", 10, "the character :, where a digit or the end of the line is due"),
    (
        "rule=+1\u{2212}2:5",
        8,
        "rule=+1<U+2212>2:5\n           ^^^^^^^^ a Unicode minus or dash (U+2212); the sign is -",
    ),
    ("rule=\u{2013}2:5", 6, "a Unicode minus or dash (U+2013)"),
    ("rule=+1:\u{2014}5", 9, "a Unicode minus or dash (U+2014)"),
    ("rule=+\u{661}:5", 7, "a digit that is not ASCII (U+0661)"),
    ("rule=+1:5\u{a0}", 10, "a Unicode blank (U+00A0)"),
    ("rule=+1:5\u{200b}", 10, "an invisible character (U+200B)"),
    ("rule=+\u{e9}:5", 7, "a letter that is not ASCII (U+00E9)"),
    ("rule=+1\u{2260}", 8, "no rules say 'unequal'"),
    ("rule=+1\u{2248}5", 8, "a character that is not ASCII (U+2248)"),
];

/// Signs of relation in the place of the colon, what their rule is said to be, and the rules that say so: of the words
/// `quantity 1 + quantity 2` the sign, and 5.
pub const RELATIONS: &[(&str, &str, &[&str])] = &[
    ("<=", "<=", &["+1+2:5"]),
    ("=<", "<=", &["+1+2:5"]),
    ("\u{2264}", "<=", &["+1+2:5"]),
    ("\u{2a7d}", "<=", &["+1+2:5"]),
    ("<", "<", &["+1+2:4"]),
    (">=", ">=", &["-1-2:-5"]),
    ("=>", ">=", &["-1-2:-5"]),
    ("\u{2265}", ">=", &["-1-2:-5"]),
    ("\u{2a7e}", ">=", &["-1-2:-5"]),
    (">", ">", &["-1-2:-6"]),
    ("=", "=", &["+1+2:5", "-1-2:-5"]),
    ("==", "=", &["+1+2:5", "-1-2:-5"]),
];

const END: &str = "expected: the end of the text after 1 rule line, since line 3 says rules=1";
const CR: &str = "what helps: remove the line; CR LF is the line end of Windows; all CR are taken away by  tr -d '\\r'";
const ONE_MORE: &str = "a rule line more than line 3 announces";
const FOLLOW: &str = "what helps: line 3 says rules=1, and 2 rule lines follow it; change the number or the lines";
const REMOVED: &str = "what helps: remove the empty line; line 3 says rules=2, and 2 rule lines follow it\n";
const HEADER: &str = "expected: hidden= and the hidden quantities";
const MARK: &str = "^^^^^^^^ a byte order mark (the bytes EF BB BF)";

pub const NOT_ASCII: &[Case] = &[
    (b"\xef\xbb\xbfquantities=3\n", (2, 1, 1), &["    <U+FEFF>quantities=3\n", MARK, "tail -c +4 FILE > NEW"]),
    (b"\xff\xfe\0\0q\0\0\0", (2, 1, 1), &["the byte order mark of UTF-32"]),
    (b"quantities=\xe9\n", (2, 1, 12), &["    quantities=<0xE9>\n", "the byte 0xE9, which is neither ASCII nor UTF-8"]),
    (b"q\0\0\0u\0\0\0a\0\0\0", (2, 1, 1), &["three NUL bytes after each", "iconv -f UTF-32LE -t ASCII FILE > NEW"]),
    (b"\0\0\0q\0\0\0u\0\0\0a", (2, 1, 1), &["three NUL bytes before each", "iconv -f UTF-32BE -t ASCII FILE > NEW"]),
    (b"#\0 \0\xa9\x03A\0:\0\n\0", (2, 1, 1), &["a NUL byte after each", "iconv -f UTF-16LE -t ASCII FILE > NEW"]),
    (b"quantities=3\nh\0i\0d\0d\0e\0n\0=\0\n\0", (2, 2, 1), &["a NUL byte after each", "save all of it as ASCII"]),
    (b"quantities=3\nhidden=\nrules=0\nr\0u\0l\0e\0\n\0", (2, 4, 1), &["a NUL byte after each"]),
    (b"quantities=3\0\n", (2, 1, 13), &["    quantities=3<NUL>\n", "a NUL byte, where"]),
    (b"quantities=3\x1b[2J\n", (2, 1, 13), &["    quantities=3<0x1B>[2J\n", "the control character 0x1B, where"]),
];

pub const ENDS: &[Case] = &[
    (
        b"quantities=3\r\nhidden=\r\nrules=0\r\n",
        (2, 1, 13),
        &["    quantities=3<CR>\n                ^^^^ a carriage return (CR, byte 13)", "tr -d '\\r' < FILE > NEW"],
    ),
    (b"quantities=3\nhidden=\r\nrules=0\n", (2, 2, 8), &["a carriage return (CR, byte 13) before the end of the line"]),
    (b"quantities=3\rhidden=\rrules=0\r", (2, 1, 13), &["inside of a line", "tr '\\r' '\\n' < FILE > NEW"]),
    (
        b"quantities=3\r\r\nhidden=\r\r\nrules=0\r\r\n",
        (2, 1, 13),
        &[
            "<CR><CR>\n",
            "^^^^^^^^ carriage returns (CR, byte 13) before the end of the line",
            "tr -d '\\r' < FILE > NEW",
        ],
    ),
    (b"quantities=3\n\rhidden=\n", (2, 2, 1), &["at the beginning of a line", "tr -d '\\r' < FILE > NEW"]),
    (b"", (2, 1, 0), &["    the text is empty\n"]),
    (b"quantities=3", (2, 1, 13), &["no line feed (byte 10) at the end of the last line", "printf '\\n' >> FILE"]),
    (b"quantities=3\nhidden=\nrules=1\nrule=+1:5", (2, 4, 10), &["no line feed (byte 10) at the end of the last line"]),
    (b"quantities=3\nhidden=", (2, 2, 8), &["no line feed (byte 10) at the end of the last line"]),
    (b"quantities=3\nhidden=2,", (2, 2, 10), &["the line ends here, where a quantity number is due"]),
    (b"quantities=3\n", (2, 2, 0), &["the text ends after 1 line; line 2 is missing", HEADER]),
    (
        b"quantities=3\nhidden=\n",
        (2, 3, 0),
        &["the text ends after 2 lines; line 3 is missing", "expected: rules= and"],
    ),
];

pub const ORDER: &[Case] = &[
    (
        b"hidden=2\nquantities=3\n",
        (2, 1, 1),
        &["hidden stands where quantities= is due", "in the order quantities=, hidden="],
    ),
    (b"quantities=3\nrules=0\nhidden=\n", (2, 2, 1), &["rules stands where hidden= is due"]),
    (b"quantities=3\nhidden=\nrule=+1:5\n", (2, 3, 1), &["rule stands where rules= is due"]),
    (b"quantities=3\nhidden=\nrules=1,000\n", (2, 3, 8), &["a separator of thousands", "as 1000000"]),
];

pub const COUNTS: &[Case] = &[
    (
        b"quantities=3\nhidden=\nrules=3\nrule=+1:5\nrule=+2:5\n",
        (2, 6, 0),
        &["the text ends after 5 lines; line 6 is missing", "line 3 says rules=3, and 2 rule lines follow it"],
    ),
    (
        b"quantities=3\nhidden=\nrules=1\nrule=+1:5\nrule=+2:5\n",
        (2, 5, 1),
        &["a rule line more than line 3 announces", "line 3 says rules=1, and 2 rule lines follow it", END],
    ),
    (
        b"quantities=3\nhidden=\nrules=0\nrule=+1:5\n",
        (2, 4, 1),
        &["line 3 says rules=0, and 1 rule line follows it", "expected: the end of the text, since rules=0 on line 3"],
    ),
    (
        b"quantities=3\nhidden=\nrules=5\nrule=+1:5\n\nrule=+2:5\n",
        (2, 5, 1),
        &[
            "an empty line, where rule= is due",
            "remove the empty line; line 3 says rules=5, and 2 rule lines follow it; change the number or the lines",
        ],
    ),
    (
        b"quantities=3\nhidden=\nrules=2\nrule=+1:5\n\nrule=+2:5\n",
        (2, 5, 1),
        &["an empty line, where rule= is due", REMOVED],
    ),
    (
        b"quantities=3\nhidden=\nrules=2\nrule=+1:5\n \t\nrule=+2:5\n",
        (2, 5, 1),
        &["a line of blanks alone, where rule= is due", REMOVED],
    ),
    (b"quantities=3\nhidden=\nrules=2\n\nrule=+1:5\n\nrule=+2:5\n", (2, 4, 1), &[REMOVED]),
    (
        b"quantities=3\nhidden=\nrules=1\nrule=+1:5\n\nrule=+2:5\n",
        (2, 5, 1),
        &[
            "an empty line after the last line",
            "remove the empty line; line 3 says rules=1, and 2 rule lines follow it;",
        ],
    ),
    (b"quantities=3\nhidden=\nrules=1\nrule=+1:5\n\n", (2, 5, 1), &["an empty line after the last line", END]),
    (b"quantities=3\nhidden=\nrules=1\nrule=+1:5\n \n", (2, 5, 1), &["blanks after the last line", END]),
    (b"quantities=3\nhidden=\nrules=1\nrule=+1:5\n# end\n", (2, 5, 1), &["a comment: a text has none", END]),
    (b"quantities=3\nhidden=\nrules=1\nrule=+1:5\n  # end\n", (2, 5, 3), &["^^^^^ a comment: a text has none", END]),
    (
        b"quantities=3\nhidden=\nrules=1\nrule=+1:5\n\r\n",
        (2, 5, 1),
        &["an empty line after the last line, with a", CR, END],
    ),
    (b"quantities=3\nhidden=\nrules=1\nrule=+1:5\nrule +3:5\n", (2, 5, 1), &[ONE_MORE, FOLLOW, END]),
    (b"quantities=3\nhidden=\nrules=1\nrule=+1:5\n Rule: +3:5\n", (2, 5, 1), &[ONE_MORE, FOLLOW, END]),
    (b"quantities=3\nhidden=\nrules=1\nrule=+1:5\n+3:5\n", (2, 5, 1), &[ONE_MORE, FOLLOW, END]),
    (b"quantities=3\nhidden=\nrules=1\nrule=+1:5\nruler", (2, 5, 1), &["5 bytes after the last line", END]),
    (b"quantities=3\nhidden=\nrules=1\nrule=+1:5\nabc", (2, 5, 1), &["3 bytes after the last line", END]),
];

const BOUND: &str = "the bound 1000000001 is outside its limits, which are -1,000,000,000 and 1,000,000,000";
const TO_THREE: &str = "this text has the quantities 1 to 3, as line 1 says";

pub const LIMITS: &[Case] = &[
    (b"quantities=0\n", (3, 1, 12), &["0 quantities: a text has 1 to 32"]),
    (b"quantities=33\n", (3, 1, 12), &["^^ 33 quantities: a text has 1 to 32"]),
    (b"quantities=3\nhidden=0,1\n", (3, 2, 8), &["the hidden quantity 0: quantities are numbered from 1, here 1 to 3"]),
    (b"quantities=3\nhidden=2,4\n", (3, 2, 10), &["the hidden quantity 4: ", TO_THREE]),
    (b"quantities=3\nhidden=\nrules=2049\n", (3, 3, 7), &["2049 rule lines: a text has at most 2,048"]),
    (b"quantities=3\nhidden=\nrules=1\nrule=+4:0\n", (3, 4, 7), &["quantity 4: ", TO_THREE]),
    (
        b"quantities=3\nhidden=\nrules=1\nrule=+1-0:0\n",
        (3, 4, 9),
        &["quantity 0: quantities are numbered from 1, here 1 to 3"],
    ),
    (b"quantities=3\nhidden=\nrules=1\nrule=+1:1000000001\n", (3, 4, 9), &[BOUND]),
    (
        b"quantities=3\nhidden=\nrules=1\nrule=+1:-1000000001\n",
        (3, 4, 10),
        &["the bound -1000000001 is outside its limits"],
    ),
];

const TWICE: &str =
    "the bound 2000000001 is outside its limits, which are -2,000,000,000 and 2,000,000,000 for a script with 1 \
                     hidden quantity\n";
const ONCE: &str = "the bound 1000000001 is outside its limits, which are -1,000,000,000 and 1,000,000,000\n";
const COPY: &str =
    "what helps: where line 2 is not the sheet's, copy it: a script's limits follow from the hidden quantities";

/// Scripts whose bounds are outside the limits that their own hidden lists give.
pub const SCRIPT_LIMITS: &[Case] = &[
    (b"quantities=3\nhidden=2\nrules=1\nrule=+1-3:2000000001\n", (3, 4, 11), &[TWICE, COPY]),
    (b"quantities=3\nhidden=2\nrules=1\nrule=+1+1:2000000001\n", (3, 4, 11), &[TWICE, COPY]),
    (b"quantities=3\nhidden=2\nrules=2\nrule=+1:-2000000000\nrule=+3:2000000001\n", (3, 5, 9), &[TWICE]),
    (b"quantities=3\nhidden=\nrules=1\nrule=+1-3:1000000001\n", (3, 4, 11), &[ONCE, COPY]),
    (
        b"quantities=3\nhidden=1,2\nrules=1\nrule=+3:-4000000001\n",
        (3, 4, 10),
        &["the bound -4000000001 is outside its limits, which are -4,000,000,000 and 4,000,000,000 for a script with 2 \
           hidden quantities\n"],
    ),
    (b"quantities=3\nhidden=2\nrules=1\nrule=+4:3000000000\n", (3, 4, 7), &["quantity 4: ", TO_THREE]),
];

const ADDED: &str = "quantity 2 is added and taken away, so that the rule is always met: leave it out";
const BY_ONE: &str = "expected: rules that some integers satisfy together";

pub const SENSELESS: &[Case] = &[
    (b"quantities=3\nhidden=\nrules=1\nrule=+2-2:5\n", (4, 4, 6), &["    rule=+2-2:5\n         ^^^^ ", ADDED]),
    (
        b"quantities=3\nhidden=\nrules=2\nrule=+1:0\nrule=-3+3:-1\n",
        (4, 5, 6),
        &["quantity 3 is added and taken away, so that the rule is never met", "expected: two quantities that differ"],
    ),
    (
        b"quantities=3\nhidden=\nrules=3\nrule=+1:0\nrule=+2:5\nrule=-1:-1\n",
        (5, 0, 0),
        &["lines 4 and 6 contradict each other:\n        line 4: rule=+1:0\n        line 6: rule=-1:-1\n", BY_ONE],
    ),
    (
        b"quantities=3\nhidden=\nrules=2\nrule=+1+1:1\nrule=-1-1:-1\n",
        (5, 0, 0),
        &["lines 4 and 5 contradict each other", "fractions satisfy all rules, but the quantities are integers"],
    ),
];
