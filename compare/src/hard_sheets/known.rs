//! Small sheets whose answers were worked out by hand, the requirements' first. Both sides are held against them.

/// A sheet, and what it prints.
pub type Known = (&'static str, &'static str);

#[rustfmt::skip]
pub const KNOWN: [Known; 24] = [
    // The worked sheet (examples/sheets).
    ("       1    4288      32       2       2\n     300\n    1000\n       1     400\n       0       0\n",
     "       1     300       1\n       2     607       2\n"),
    // No reading at all: position and velocity stay 0.
    ("       1       0       1       1       1\n       1\n       0       0\n", "       1       0       1\n"),
    // The worked gain is 3/4: of -1 that gives -0.75, of -2 -1.5 and a velocity of -1.53515625, of 0 nothing.
    ("       1    4288      32       1       1\n       1\n       1      -1\n", "       1      -1       1\n"),
    ("       1    4288      32       2       2\n       1\n       2\n       1      -2\n       0       0\n",
     "       1      -2       1\n       2      -4       1\n"),
    ("       1    4288      32       1       1\n       1\n       1       0\n", "       1       0       1\n"),
    // 4 gives 3: at the first end, past it, before it, past the last.
    ("       1    4288      32       2       1\n       3\n       9\n       1       4\n", "       1       3       1\n"),
    ("       1    4288      32       2       1\n       2\n       9\n       1       4\n", "       1       3       2\n"),
    ("       1    4288      32       2       1\n       4\n       9\n       1       4\n", "       1       3       1\n"),
    ("       1    4288      32       2       1\n       1\n       2\n       1       4\n", "       1       3       2\n"),
    // 9,999,999 gives 7,499,999.25, and the next position is past the limit.
    ("       1    4288      32       1       1\n 9999999\n       1 9999999\n", "       1 7499999       1\n"),
    ("       1    4288      32       1       2\n 9999999\n       1 9999999\n       0       0\n", "       9       4\n"),
    ("       1    4288      32       1       2\n 9999999\n       1-9999999\n       0       0\n", "       9       4\n"),
    // Form and range, line by line.
    ("", "       7       1\n"),
    ("       1       0       1       1       1\n", "       7       2\n"),
    ("       1       0       1       1       1\n       1\n", "       7       3\n"),
    ("       1       0       1       1       1\n       1\n       0       0", "       7       3\n"),
    ("       1       0       1       1       1\n       1\n       0       0\n\n", "       7       4\n"),
    ("       0       0       1       1       1\n", "       8       1\n"),
    ("       1       0       1       1       1\n       0\n", "       8       2\n"),
    ("       1       0       1       2       1\n       5\n       5\n", "       8       3\n"),
    ("       1       0       1       1       1\n       1\n       2       0\n", "       8       3\n"),
    ("       1       0       1       1       1\n       1\n       0       1\n", "       8       3\n"),
    ("       1       0       1       1       1\n       1\n       0      -0\n", "       7       3\n"),
    ("      -1       0       1       1      01\n", "       7       1\n"),
];
