//! Fixed brackets one behind another and behind other parts (document 02, S-2): where each begins and ends
//! decides. The lines that do not match would match, most of them, if a bracket began or ended a byte away.

use crate::fixed::Fixed;
use crate::letters::{Letters, BOTH};

const YES: &str = "match";
const NO: &str = "no match";
const BAD: &str = "refused 8";

/// A pattern, whole lines that it takes, and lines that it does not take whole; so under both choices of case.
type Row = (&'static str, &'static [&'static str], &'static [&'static str]);

/// A `]` first, or behind.
const CLOSINGS: &[Row] = &[
    ("[]][]]", &["]]"], &["]", "]]]", "[]", "][", "[]]"]),
    ("[]a][^]b]", &["]a", "aa", "ac", "a[", "]^"], &["]]", "ab", "bc", "a", "]b", "[a", "a]"]),
    ("[a]]", &["a]"], &["a", "]", "]]", "a]]"]),
    ("[[][]]", &["[]"], &["[", "]", "[[", "]]", "]["]),
    ("[^]][^^][]^]", &["aa]", "^]^", "[[]", "aa^", "a]^"], &["]a]", "a^]", "aaa", "^]", "a]", "aa["]),
    ("[^^]]", &["a]", "]]", "[]"], &["^]", "a", "]", "^", "a^"]),
    ("[]^]", &["]", "^"], &["a", "[", "]^"]),
    ("[^]^]", &["a", "[", "-"], &["]", "^", "aa"]),
    ("[^]]]", &["a]", "^]", "[]"], &["]]", "]", "a", "a]]"]),
    ("[]]]", &["]]"], &["]", "]]]", "[]"]),
    ("[]]][]]", &["]]]"], &["]]", "]]]]", "][]"]),
    ("[a][b]", &["ab"], &["a", "b", "ba", "a]", "a][b", "[b"]),
    ("[]a]b]", &["]b]", "ab]"], &["a", "b", "]b", "bb]", "]"]),
    ("[^]a]b]", &["bb]", "[b]", "^b]"], &["]b]", "ab]", "b", "c"]),
    ("[][]", &["]", "["], &["][", "a", "-"]),
    ("[][][][]", &["][", "[]", "]]"], &["]", "]a", "][]", "][]["]),
    ("[^][][^][]", &["ab", "^^"], &["a]", "[b", "a", "]]"]),
    ("[][][^][]", &["]a", "[^"], &["]]", "a]", "]", "[["]),
    ("[][a][^][a]", &["]b", "[^", "ab"], &["ba", "]]", "a", "b"]),
];

/// A `-` first, last, or in a range.
const RANGES: &[Row] = &[
    ("[A-]b]", &["Ab]", "-b]"], &["Bb]", "]b]", "b", "B", "-", "\\b]"]),
    ("[A-]][]-a]", &["A]^", "-]]", "A]a"], &["B]^", "A^", "A]b", "A]-", "]]^"]),
    ("[]-a][a-]", &["^-", "_a", "]-", "a-"], &["-a", "]]", "a^", "b-", "]"]),
    ("[--/][+--]", &["/+", ".-", "-,"], &[",+", "/.", "+/", "-"]),
    ("[--][--]", &["--"], &["-", "---", "-]"]),
    ("[---][-]", &["--"], &["-", "---", "]-"]),
    ("[%--][--]", &["%-", "&-", "--"], &["%", "-%", "$-", ".-"]),
    ("[-a][a-][-]", &["-a-", "a--"], &["b--", "-b-", "--", "-a"]),
    ("[^-][^-a]", &["a^", "]b"], &["-b", "a-", "aa", "b"]),
    ("[[:digit:]-][]-]", &["5]", "--", "-]"], &["]5", "5", "a-", "55"]),
];

/// A `[` inside, and class names.
const OPENINGS: &[Row] = &[
    ("[[]]", &["[]"], &["[", "]", "]]", "[]]"]),
    ("[[]][[]]", &["[][]"], &["[]", "[[]]", "[]]", "[["]),
    ("[[][[][[]", &["[[["], &["[[", "[", "[[[[", "][["]),
    ("[[a][]a]", &["[]", "aa", "[a", "a]"], &["][", "[[", "]]", "a"]),
    ("[a[][a[]]", &["a[]", "[a]", "aa]"], &["a[", "]a]", "aa", "[]]"]),
    ("[[]a]", &["[a]"], &["a", "[", "[a"]),
    ("[.][=]", &[".="], &["=.", ".", "=", "]="]),
    ("[a][.b]", &["a.", "ab"], &["aa", "a", "b.", "a["]),
    ("[a][=b]", &["a=", "ab"], &["aa", "a]", "="]),
    ("[a][:b]", &["a:", "ab"], &["aa", "a", ":b"]),
    ("[:][:alpha:]", &[":a", "::", ":h"], &[":b", "a:", ":", "ab"]),
    ("[[][.]", &["[."], &["[", ".", "[[", "]."]),
    ("[^[][.]", &["a.", "].", ".."], &["[.", "a", "aa", "."]),
    ("[]][:]", &["]:"], &["]", ":", "[:"]),
    ("[[:alpha:]][[:digit:]]", &["a1", "Z9"], &["1a", "a]", "a", ":1", "a1]", "]1"]),
    ("[[:alpha:]]]", &["a]"], &["a", "]", "a]]", ":]"]),
    ("[[:alpha:][]", &["[", "a"], &[":", "]", "[]", "a]", "a["]),
    ("[[:alpha:]][]]", &["a]"], &["a[", "a", "]]", "]"]),
    ("[][:alpha:]]", &["]", "q"], &["[", ":", "]]", "1"]),
    ("[][:digit:]][^][:digit:]]", &["]a", "5[", "0:"], &["5]", "[a", "]5", "a", "]"]),
    ("[^[:alpha:]][^[:digit:]]", &["1a", "]]", "[:"], &["a1", "11", "aa", "1"]),
    ("[[:xdigit:]][[:xdigit:]]]", &["aF]", "09]"], &["aF", "ag]", "a]", "aF]]"]),
];

/// Behind groups and marks, and in them.
const GROUPS: &[Row] = &[
    ("(a)[]]", &["a]"], &["a", "]", "a]]"]),
    ("([]])[]]", &["]]"], &["]", "]]]", "])"]),
    ("([]])]", &["]]"], &["]", "]]]"]),
    ("([a)]])", &["a]", ")]"], &["a", ")", "]", "a)"]),
    ("[(][)]", &["()"], &["(", ")", "(a)"]),
    ("([)])[(]", &[")("], &["()", ")", "("]),
    ("([]|])", &["]", "|"], &["[", "", "a"]),
    ("(a|[]])[^]]", &["ab", "]b", "a["], &["]]", "a]", "a", "]"]),
    ("([]]|[^]])]", &["]]", "a]"], &["]", "a", "]a"]),
    ("((([]])))[[]", &["]["], &["]", "[", "]]"]),
    ("[*]*[]]+", &["]", "**]]"], &["*", "]*", "", "*["]),
    ("[]]*[^]]", &["]]a", "a"], &["]]", "", "aa"]),
    ("[]]?]", &["]", "]]"], &["]]]", "", "a]"]),
    ("[a]?]", &["a]", "]"], &["a", "aa]"]),
    ("([]])*([^]])+", &["]]ab", "a"], &["]]", "", "a]"]),
];

/// Behind an escaped `\[`, a plain `]` and other bytes that could be taken for a bracket's.
const BEHIND: &[Row] = &[
    ("\\[]", &["[]"], &["[", "]", "\\[]"]),
    ("\\[[]]", &["[]"], &["[[", "]", "[]]", "["]),
    ("\\[a]", &["[a]"], &["a", "[a", "a]"]),
    ("\\[[a]]", &["[a]"], &["[a", "a]", "[[a]]"]),
    ("\\[[^a]]", &["[b]", "[]]"], &["[a]", "[b", "b]"]),
    ("\\\\[a]", &["\\a"], &["\\[a]", "a", "[a]"]),
    ("\\\\\\[a]", &["\\[a]"], &["\\a", "[a]", "\\[a"]),
    ("[\\][a]", &["\\a"], &["[a", "a", "]a", "\\"]),
    ("[\\[][\\]]", &["[\\]", "\\\\]"], &["[]", "[\\", "]\\]"]),
    ("[$][\\^]", &["$^", "$\\"], &["^$", "$", "$]"]),
    ("\\^[^]]", &["^a"], &["^]", "a", "^"]),
    ("][a]", &["]a"], &["a", "]", "]]", "[a"]),
    ("][]]", &["]]"], &["]", "]]]", "]["]),
    ("]]", &["]]"], &["]", "]]]"]),
    ("a][]a]", &["a]]", "a]a"], &["a]b", "a]", "aa"]),
    ("][^]]", &["]a"], &["]]", "]", "a]"]),
    ("}[}]", &["}}"], &["}", "]}"]),
    ("-[-]", &["--"], &["-", "---"]),
    ("a-[a-]", &["a--", "a-a"], &["a-", "a-b", "--"]),
    (".[]].", &["a]b", "]]]"], &["ab", "a]", "aab"]),
    (":[:]:", &[":::"], &["::", ":"]),
];

/// Pattern, line, document 01's answer, the answer with case ignored.
const CASED: &[(&str, &str, &str, &str)] = &[
    ("^[]a][^]b]$", "Ac", NO, YES),
    ("^[]a][^]b]$", "aB", YES, NO),
    ("^[^]k]K]$", "xk]", NO, YES),
    ("^[^]k]K]$", "KK]", YES, NO),
    ("^[^^k][^]]$", "Ka", YES, NO),
    ("^[[:upper:]][]k]$", "aK", NO, YES),
    ("^[k][^k]$", "kK", YES, NO),
    ("^[k][^k]$", "Kj", NO, YES),
    ("^[[k][]K]$", "[k", NO, YES),
    ("^\\[[k]]$", "[K]", NO, YES),
    ("^(K)[^k]]$", "kj]", NO, YES),
    ("^[^[:lower:]-][]-b]$", "KA", NO, NO),
    ("^[^[:lower:]-][]-b]$", "1A", NO, YES),
];

/// One bracket is closed and another is not, or another is bad; a blank after each.
const REFUSED: &str = r"
    []][] [][][] [a]][] [[:alpha:]][ [a][^] [^]][^] []a][^ [a[.b] [a[=b] [a[:b] [][.] [][=] [][:] [[[.] [^][:]
    []][a [(]) ([)] ([] ([]) []-][a--] [a-]-b][z-a] [b-a][a] [a][b-a] []--][a] [a-c-e][a] [a][a-c-e]
    [[:alpha:]-z][a] [a][[:alpha:]-z] [a][A-[:digit:]] [a][[:foo:]] \[[ \[[] \[[a ][ ]][] []]{ []]** []][]]**
    [a]| []]^ []]$[]] [[]\] [\]\] [^^ [^- [^]- []-
";

pub fn rows() -> Vec<Fixed> {
    let mut fixed = Vec::new();
    let rows = [CLOSINGS, RANGES, OPENINGS, GROUPS, BEHIND].concat();
    for letters in BOTH {
        for row in &rows {
            fixed.extend(one_row(letters, row));
        }
        for pattern in REFUSED.split_whitespace() {
            fixed.push(Fixed::line(letters, pattern.as_bytes(), b"a", BAD));
            fixed.push(Fixed::run(letters, pattern.as_bytes(), b"a\n]", BAD));
        }
    }
    for (pattern, line, apart, alike) in CASED {
        fixed.push(Fixed::line(Letters::Apart, pattern.as_bytes(), line.as_bytes(), apart));
        fixed.push(Fixed::line(Letters::Alike, pattern.as_bytes(), line.as_bytes(), alike));
    }
    fixed
}

/// Between anchors each line alone and all in one run; without them the lines that match.
fn one_row(letters: Letters, (pattern, good, bad): &Row) -> Vec<Fixed> {
    let whole = format!("^{pattern}$");
    let ask =
        |pattern: &str, line: &str, stated| Fixed::line(letters, pattern.as_bytes(), line.as_bytes(), stated);
    let mut fixed = Vec::new();
    for line in *good {
        fixed.push(ask(&whole, line, YES));
        fixed.push(ask(pattern, line, YES));
    }
    for line in *bad {
        fixed.push(ask(&whole, line, NO));
    }
    let run: String = bad.iter().chain(*good).map(|line| format!("{line}\n")).collect();
    let stated = format!("lines {}", good.len());
    fixed.push(Fixed::run(letters, whole.as_bytes(), run.as_bytes(), &stated));
    fixed
}
