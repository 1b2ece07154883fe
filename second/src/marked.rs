//! The packs and runs that are written down: document 01's small pack with its twelve marked cases, whose moves request
//! No. 2 changed and are counted by hand, the packs of that request, and the two examples of reject sets in source
//! document 000.

use crate::text::words_of;

/// The small pack. `by` outranks names; blanks are layout; S is `name` or `name by name`.
/// Terminals: 1 `by`, 2 name, 3 blank.
pub const SMALL_PACK: &str = "\
pack=1
size=4,1,2,5,5,5,6,0
layout=0000000000000008
dom=0000000000000000
dom=0000000000000000
dom=0000000000000002
dom=0000000000000000
prod=0,1,2
prod=0,3,2,1,2
act=0,0,4,0
act=3,6,0,0
act=0,0,8,0
act=5,0,0,0
act=1,0,0,0
goto=5
goto=0
goto=0
goto=0
goto=0
class=32,32,4
class=97,97,3
class=98,98,1
class=99,120,3
class=121,121,2
class=122,122,3
move=0,2,4,4,5
move=0,4,3,4,0
move=0,4,4,4,0
move=0,4,4,4,0
move=0,0,0,0,5
scan=0000000000000000,0000000000000000,000000000000000e
scan=0000000000000004,0000000000000000,0000000000000006
scan=0000000000000002,0000000000000004,0000000000000006
scan=0000000000000004,0000000000000000,0000000000000004
scan=0000000000000008,0000000000000000,0000000000000008
";

/// Source document 000, sections 5.1 and 5.2.4 (Figure 5.1): terminal 1 is i, `[a-z]+`; 2 is k1, `for`; 3 is k2,
/// `form`; both keywords outrank i. The scan of `form*` with the valid set {i, k2} remembers i at `f` and `fo`,
/// forgets it at `for`, and gives k2 at `form`. S is i or k2, so that row 0 has that valid set.
pub const FORM_PACK: &str = "\
pack=1
size=4,1,2,4,6,6,9,0
layout=0000000000000000
dom=0000000000000000
dom=000000000000000c
dom=0000000000000000
dom=0000000000000000
prod=0,1,1
prod=0,1,3
act=0,4,0,6
act=3,0,0,0
act=5,0,0,0
act=1,0,0,0
goto=4
goto=0
goto=0
goto=0
class=97,101,5
class=102,102,1
class=103,108,5
class=109,109,4
class=110,110,5
class=111,111,2
class=112,113,5
class=114,114,3
class=115,122,5
move=0,2,6,6,6,6
move=0,6,3,6,6,6
move=0,6,6,4,6,6
move=0,6,6,6,5,6
move=0,6,6,6,6,6
move=0,6,6,6,6,6
scan=0000000000000000,0000000000000000,000000000000000e
scan=0000000000000002,0000000000000000,000000000000000e
scan=0000000000000002,0000000000000000,000000000000000e
scan=0000000000000004,0000000000000002,000000000000000e
scan=0000000000000008,0000000000000002,000000000000000a
scan=0000000000000002,0000000000000000,0000000000000002
";

/// Source document 000, section 5.2.2: terminal 1 is k, `keyword`; 2 is i, `[A-Za-z]+`; k outranks i. The scan of
/// `keyword` with the valid set {i} gives no match, and not the name `keywor`. S is i.
pub const KEYWORD_PACK: &str = "\
pack=1
size=3,1,1,3,9,9,14,0
layout=0000000000000000
dom=0000000000000000
dom=0000000000000000
dom=0000000000000002
prod=0,1,2
act=0,0,4
act=3,0,0
act=1,0,0
goto=3
goto=0
goto=0
class=65,90,8
class=97,99,8
class=100,100,7
class=101,101,2
class=102,106,8
class=107,107,1
class=108,110,8
class=111,111,5
class=112,113,8
class=114,114,6
class=115,118,8
class=119,119,4
class=120,120,8
class=121,121,3
move=0,2,9,9,9,9,9,9,9
move=0,9,3,9,9,9,9,9,9
move=0,9,9,4,9,9,9,9,9
move=0,9,9,9,5,9,9,9,9
move=0,9,9,9,9,6,9,9,9
move=0,9,9,9,9,9,7,9,9
move=0,9,9,9,9,9,9,8,9
move=0,9,9,9,9,9,9,9,9
move=0,9,9,9,9,9,9,9,9
scan=0000000000000000,0000000000000000,0000000000000006
scan=0000000000000004,0000000000000000,0000000000000006
scan=0000000000000004,0000000000000000,0000000000000006
scan=0000000000000004,0000000000000000,0000000000000006
scan=0000000000000004,0000000000000000,0000000000000006
scan=0000000000000004,0000000000000000,0000000000000006
scan=0000000000000004,0000000000000000,0000000000000006
scan=0000000000000002,0000000000000004,0000000000000006
scan=0000000000000004,0000000000000000,0000000000000004
";

/// The least pack that accepts something: no terminal but the end, and S is the empty text.
pub const LEAST_PACK: &str = "\
pack=1
size=1,1,1,2,1,1,0,0
layout=0000000000000000
dom=0000000000000000
prod=0,0
act=3
act=1
goto=2
goto=0
move=0
scan=0000000000000000,0000000000000000,0000000000000000
";

/// Terminals 1 and 2 are both `a`, 3 is `b`; S is 2 3 or 1. Row 0 sees both, and the group chooses 2.
pub const GROUP_PACK: &str = "\
pack=1
size=4,1,2,5,3,3,2,1
layout=0000000000000000
dom=0000000000000000
dom=0000000000000000
dom=0000000000000000
dom=0000000000000000
prod=0,2,2,3
prod=0,1,1
act=0,10,4,0
act=0,0,0,6
act=3,0,0,0
act=1,0,0,0
act=5,0,0,0
goto=4
goto=0
goto=0
goto=0
goto=0
class=97,97,1
class=98,98,2
move=0,2,3
move=0,0,0
move=0,0,0
scan=0000000000000000,0000000000000000,000000000000000e
scan=0000000000000006,0000000000000000,0000000000000006
scan=0000000000000008,0000000000000000,0000000000000008
group=0000000000000006,2
";

/// Terminal 1 is `a`, and states 0 and 1 shift it to state 1, so that 511 of them fill the stack. At the end of the
/// text state 1 reduces by the empty production 0.
pub const DEEP_PACK: &str = "\
pack=1
size=2,1,2,3,2,2,1,0
layout=0000000000000000
dom=0000000000000000
dom=0000000000000000
prod=0,0
prod=0,1,1
act=0,4
act=3,4
act=0,0
goto=0
goto=3
goto=0
class=97,97,1
move=0,2
move=0,0
scan=0000000000000000,0000000000000000,0000000000000002
scan=0000000000000002,0000000000000000,0000000000000002
";

/// S is `a S` or `a`: the stack becomes one state higher than the text is long. It passes.
pub const NESTED_PACK: &str = "\
pack=1
size=2,1,2,4,2,2,1,0
layout=0000000000000000
dom=0000000000000000
dom=0000000000000000
prod=0,2,1,64
prod=0,1,1
act=0,4
act=5,4
act=3,0
act=1,0
goto=4
goto=3
goto=0
goto=0
class=97,97,1
move=0,2
move=0,0
scan=0000000000000000,0000000000000000,0000000000000002
scan=0000000000000002,0000000000000000,0000000000000002
";

/// What makes of it: S is `a S` or nothing. The stack becomes two states higher than the text is long.
pub const NESTED_EMPTY: [(&str, usize, &str); 2] =
    [("prod=", 1, "prod=0,0"), ("act=", 0, "act=5,4")];

/// `a` is S, and S is S for ever: a node for each record of the room. It passes.
pub const ENDLESS_PACK: &str = "\
pack=1
size=2,1,2,3,2,2,1,0
layout=0000000000000000
dom=0000000000000000
dom=0000000000000000
prod=0,1,1
prod=0,1,64
act=0,4
act=3,0
act=5,0
goto=3
goto=0
goto=0
class=97,97,1
move=0,2
move=0,0
scan=0000000000000000,0000000000000000,0000000000000002
scan=0000000000000002,0000000000000000,0000000000000002
";

/// Request No. 2: terminal 1 is a name, `a+`; 2 the operator `//=`; 3 blanks and 4 the comment `//a*` are layout. S is a
/// name, or name `//=` name. Nothing asks for the group. It passes.
pub const OPERATOR_PACK: &str = "\
pack=1
size=5,1,2,5,7,5,4,1
layout=0000000000000018
dom=0000000000000000
dom=0000000000000000
dom=0000000000000000
dom=0000000000000000
dom=0000000000000000
prod=0,1,1
prod=0,3,1,2,1
act=0,4,0,0,0
act=3,0,6,0,0
act=0,8,0,0,0
act=5,0,0,0,0
act=1,0,0,0,0
goto=5
goto=0
goto=0
goto=0
goto=0
class=32,32,4
class=47,47,2
class=61,61,3
class=97,97,1
move=0,2,3,0,6
move=0,2,0,0,0
move=0,0,4,0,0
move=0,7,0,5,0
move=0,0,0,0,0
move=0,0,0,0,6
move=0,7,0,0,0
scan=0000000000000000,0000000000000000,000000000000001e
scan=0000000000000002,0000000000000000,0000000000000002
scan=0000000000000000,0000000000000000,0000000000000014
scan=0000000000000010,0000000000000000,0000000000000014
scan=0000000000000004,0000000000000000,0000000000000004
scan=0000000000000008,0000000000000000,0000000000000008
scan=0000000000000010,0000000000000000,0000000000000010
group=0000000000000014,2
";

type Replaced = [(&'static str, usize, &'static str)];

/// What makes of it: `//` is the operator too. The group chooses the operator, or the comment, or there is none.
pub const OPERATOR_OR_COMMENT: [&Replaced; 3] = [
    &[EITHER],
    &[EITHER, ("group=", 0, "group=0000000000000014,4")],
    &[EITHER, ("group=", 0, "group=0000000000000016,2")],
];

const EITHER: (&str, usize, &str) = (
    "scan=",
    3,
    "scan=0000000000000014,0000000000000000,0000000000000014",
);

/// What makes of it: blanks are comments too. The group chooses one of the two, or there is none.
pub const BLANK_OR_COMMENT: [&Replaced; 3] = [
    &[BOTH, ("group=", 0, "group=0000000000000018,3")],
    &[BOTH, ("group=", 0, "group=0000000000000018,4")],
    &[BOTH],
];

const BOTH: (&str, usize, &str) = (
    "scan=",
    5,
    "scan=0000000000000018,0000000000000000,0000000000000018",
);

/// What makes of it: the comment goes on with `=` too, as one that runs to the end of its line does.
pub const COMMENT_TO_THE_END: &Replaced = &[
    ("move=", 4, "move=0,7,0,7,0"),
    ("move=", 6, "move=0,7,0,7,0"),
    (
        "scan=",
        4,
        "scan=0000000000000014,0000000000000000,0000000000000014",
    ),
];

/// Terminal 1 is a name, `[a=]+`, 2 is `//=`, 3 is `//` and is layout. S is A and a name, A is a name. The state behind the
/// first name reduces on `//=` too, as a table that merges look-ahead may; the one behind A does not know it, and sees
/// layout and a name there. It passes.
pub const REDUCED_PACK: &str = "\
pack=1
size=4,2,2,5,5,4,3,0
layout=0000000000000008
dom=0000000000000000
dom=0000000000000000
dom=0000000000000000
dom=0000000000000000
prod=0,2,65,1
prod=1,1,1
act=0,4,0,0
act=0,5,5,0
act=0,8,0,0
act=3,0,0,0
act=1,0,0,0
goto=5,3
goto=0,0
goto=0,0
goto=0,0
goto=0,0
class=47,47,2
class=61,61,3
class=97,97,1
move=0,2,3,2
move=0,2,0,2
move=0,0,4,0
move=0,0,0,5
move=0,0,0,0
scan=0000000000000000,0000000000000000,000000000000000e
scan=0000000000000002,0000000000000000,0000000000000002
scan=0000000000000000,0000000000000000,000000000000000c
scan=0000000000000008,0000000000000000,000000000000000c
scan=0000000000000004,0000000000000000,0000000000000004
";

/// Terminal 1 is `a`; 2 and 3 are both `ab`, outrank each other, and are layout. S is `a`. It passes.
pub const CIRCLE_PACK: &str = "\
pack=1
size=4,1,1,3,3,3,2,0
layout=000000000000000c
dom=0000000000000000
dom=0000000000000000
dom=0000000000000008
dom=0000000000000004
prod=0,1,1
act=0,4,0,0
act=3,0,0,0
act=1,0,0,0
goto=3
goto=0
goto=0
class=97,97,1
class=98,98,2
move=0,2,0
move=0,0,3
move=0,0,0
scan=0000000000000000,0000000000000000,000000000000000e
scan=0000000000000002,0000000000000000,000000000000000e
scan=0000000000000000,000000000000000c,000000000000000c
";

/// The image of one of the texts above, with some of its lines replaced.
pub fn image_with(text: &str, replaced: &[(&str, usize, &str)]) -> Vec<u16> {
    let mut lines: Vec<&str> = text.lines().collect();
    for &(name, number, line) in replaced {
        let first = lines.iter().position(|l| l.starts_with(name));
        lines[first.expect("a line of that name") + number] = line;
    }
    let text: String = lines.iter().map(|line| format!("{line}\n")).collect();
    words_of(text.as_bytes()).expect("a text of the form")
}

pub fn image_of(text: &str) -> Vec<u16> {
    image_with(text, &[])
}

pub fn small_image() -> Vec<u16> {
    image_of(SMALL_PACK)
}

/// The small pack with its first goto row 0 (case 11).
pub fn without_goto() -> Vec<u16> {
    image_with(SMALL_PACK, &[("goto=", 0, "goto=0")])
}

const SCAN_2_BOTH: (&str, usize, &str) = (
    "scan=",
    2,
    "scan=0000000000000006,0000000000000000,0000000000000006",
);

/// The small pack with scan state 2 as 6,0,6 (case 12).
pub fn without_reject() -> Vec<u16> {
    image_with(SMALL_PACK, &[SCAN_2_BOTH])
}

/// The same with act row 2 as 0,8,8,0 too.
pub fn with_two_terminals() -> Vec<u16> {
    image_with(SMALL_PACK, &[SCAN_2_BOTH, ("act=", 2, "act=0,8,8,0")])
}

/// One marked case: an image, a query, tree room in records, an allowance, and
/// code, place, length, terminal, records, moves.
pub struct Marked {
    pub number: u32,
    pub image: Vec<u16>,
    pub query: &'static str,
    pub room: usize,
    pub allowance: u32,
    pub answer: [u32; 6],
}

/// The marked cases' parses, in order, all variants.
pub fn marked_parses() -> Vec<Marked> {
    const AMPLE: usize = 100;
    const ALL: u32 = u32::MAX;
    let small = small_image;
    let case = |number, image, query, room, allowance, answer| Marked {
        number,
        image,
        query,
        room,
        allowance,
        answer,
    };
    vec![
        case(1, small(), "tax", AMPLE, ALL, [0, 3, 0, 0, 2, 3]),
        case(2, small(), "bye", AMPLE, ALL, [0, 3, 0, 0, 2, 3]),
        case(3, small(), "by", AMPLE, ALL, [8, 0, 2, 1, 0, 4]),
        case(4, small(), "", AMPLE, ALL, [8, 0, 0, 0, 0, 0]),
        case(5, small(), "7", AMPLE, ALL, [7, 0, 0, 0, 0, 0]),
        case(6, small(), "tax day", AMPLE, ALL, [8, 4, 3, 2, 1, 8]),
        case(7, small(), "tax by", AMPLE, ALL, [8, 6, 0, 0, 2, 6]),
        case(8, small(), " ", AMPLE, ALL, [8, 1, 0, 0, 0, 1]),
        case(9, small(), "tax", AMPLE, 2, [13, 0, 0, 0, 0, 2]),
        case(9, small(), "tax", AMPLE, 3, [0, 3, 0, 0, 2, 3]),
        case(10, small(), "tax", 1, ALL, [11, 3, 0, 0, 1, 3]),
        case(11, without_goto(), "tax", AMPLE, ALL, [10, 3, 0, 0, 1, 3]),
        case(
            12,
            with_two_terminals(),
            "tax by by",
            AMPLE,
            ALL,
            [9, 7, 2, 0, 2, 9],
        ),
    ]
}

/// The marked cases' checks: an image and code, condition or word, places.
pub fn marked_checks() -> Vec<(u32, Vec<u16>, [u32; 4])> {
    vec![
        (0, small_image(), [0, 0, 0, 0]),
        (11, without_goto(), [5, 5, 1, 0]),
        (12, without_reject(), [5, 1, 2, 0]),
        (12, with_two_terminals(), [5, 1, 2, 0]),
    ]
}

/// The records of `tax by day` in the small pack.
pub const TAX_BY_DAY: (&str, [u32; 6], [[u16; 4]; 4]) = (
    "tax by day",
    [0, 10, 0, 0, 4, 10],
    [[2, 0, 3, 0], [1, 4, 2, 1], [2, 7, 3, 2], [64, 1, 3, 0]],
);
