//! The twelve class names and their ranges (document 01, "Patterns").

pub type Class = (&'static str, &'static [(u8, u8)]);

pub const CLASSES: [Class; 12] = [
    ("upper", &[(65, 90)]),
    ("lower", &[(97, 122)]),
    ("alpha", &[(65, 90), (97, 122)]),
    ("digit", &[(48, 57)]),
    ("alnum", &[(65, 90), (97, 122), (48, 57)]),
    ("xdigit", &[(48, 57), (65, 70), (97, 102)]),
    ("punct", &[(33, 47), (58, 64), (91, 96), (123, 126)]),
    ("graph", &[(33, 126)]),
    ("print", &[(32, 126)]),
    ("cntrl", &[(0, 31), (127, 127)]),
    ("space", &[(9, 13), (32, 32)]),
    ("blank", &[(9, 9), (32, 32)]),
];
