//! Markers, requirements, environments and versions that are drawn at random, the same ones for the same
//! seed.
#![allow(dead_code)]

const VERSION_KEYS: [&str; 3] = [
    "python_version",
    "python_full_version",
    "implementation_version",
];
const TEXT_KEYS: [&str; 8] = [
    "os_name",
    "os.name",
    "sys_platform",
    "sys.platform",
    "platform_machine",
    "platform.version",
    "platform_version",
    "python_implementation",
];
const VERSIONS: [&str; 12] = [
    "3",
    "3.8",
    "3.8.0",
    "3.8.1",
    "3.11",
    "3.11.4",
    "3.11.4rc1",
    "3.9.dev0",
    "3.9.post1",
    "3.12",
    "1!3",
    "3.9+x",
];
const VERSION_LISTS: [&str; 6] = ["3.8 3.9", "3.11.4rc1", "1", "1+x", "3.8+x 1!3", ""];
const TEXTS: [&str; 12] = [
    "nt",
    "posix",
    "linux",
    "win32",
    "",
    "it's",
    "x' and sys_platform == 'win32",
    "a\"b",
    "a) or (b",
    "a ; b",
    "\u{e9}",
    "((((",
];
const EXTRAS: [&str; 4] = ["a", "b", "Some_Name", "no name!"];
const SPECIFIERS: [&str; 8] = [
    "",
    ">=1",
    "==1.0+x",
    "===1.0",
    "~=1.2,!=1.3",
    "<2,>=1.2",
    "==1.*",
    ">1rc1",
];
const URLS: [&str; 6] = [
    "https://example.org/foo",
    "https://example.org/;x",
    "https://example.org/a;b#c",
    "https://example.org/a b",
    "file:///tmp/a'b",
    "git+https://example.org/foo.git@main#egg=foo;x",
];

/// Numbers that look random (splitmix64).
pub struct Draws(u64);

impl Draws {
    pub fn of(seed: u64) -> Draws {
        Draws(seed)
    }

    fn next(&mut self) -> u64 {
        self.0 = self.0.wrapping_add(0x9e37_79b9_7f4a_7c15);
        let mixed = (self.0 ^ (self.0 >> 30)).wrapping_mul(0xbf58_476d_1ce4_e5b9);
        let mixed = (mixed ^ (mixed >> 27)).wrapping_mul(0x94d0_49bb_1331_11eb);
        mixed ^ (mixed >> 31)
    }

    /// A number below another one.
    pub fn below(&mut self, end: usize) -> usize {
        (self.next() % end as u64) as usize
    }

    /// True for one of `count` draws on average.
    fn once_in(&mut self, count: usize) -> bool {
        self.below(count) == 0
    }

    pub fn one<Item: Copy>(&mut self, all: &[Item]) -> Item {
        all[self.below(all.len())]
    }

    /// The text of a marker with up to `most` comparisons.
    pub fn marker(&mut self, most: usize) -> String {
        let count = 1 + self.below(most);
        self.pieces(count)
    }

    fn pieces(&mut self, count: usize) -> String {
        if count == 1 {
            return self.comparison();
        }
        let left = 1 + self.below(count - 1);
        let connective = self.one(&["and", "or"]);
        let (left, right) = (self.piece(left), self.piece(count - left));
        format!("{left} {connective} {right}")
    }

    fn piece(&mut self, count: usize) -> String {
        let text = self.pieces(count);
        if self.once_in(2) {
            format!("({text})")
        } else {
            text
        }
    }

    fn comparison(&mut self) -> String {
        match self.below(12) {
            0..=3 => self.of_versions(),
            4..=8 => self.of_texts(),
            9 | 10 => {
                let (operator, extra) = (self.one(&["==", "!="]), self.one(&EXTRAS));
                format!("extra {operator} {}", quoted(extra))
            }
            _ => self
                .one(&["'a' == 'b'", "os_name == sys_platform"])
                .to_string(),
        }
    }

    fn of_versions(&mut self) -> String {
        let key = self.one(&VERSION_KEYS);
        if self.once_in(4) {
            let operator = self.one(&["in", "not in"]);
            return format!("{key} {operator} {}", quoted(self.one(&VERSION_LISTS)));
        }
        if self.once_in(5) {
            return format!(
                "{key} {} '3.{}.*'",
                self.one(&["==", "!="]),
                7 + self.below(5)
            );
        }
        let operator = self.one(&["==", "!=", "<", "<=", ">", ">=", "~="]);
        let version = quoted(self.one(&VERSIONS));
        if operator != "~=" && self.once_in(5) {
            return format!("{version} {operator} {key}");
        }
        format!("{key} {operator} {version}")
    }

    fn of_texts(&mut self) -> String {
        let operator = self.one(&["==", "==", "!=", "<", "<=", ">", ">=", "in", "not in"]);
        let (key, text) = (self.one(&TEXT_KEYS), quoted(self.one(&TEXTS)));
        if self.once_in(4) {
            format!("{text} {operator} {key}")
        } else {
            format!("{key} {operator} {text}")
        }
    }

    /// The text of a requirement of the package `foo`, and of its marker.
    pub fn requirement(&mut self) -> (String, String) {
        let marker = self.marker(3);
        let extras = self.one(&["", "[a]", "[B_c, a]"]);
        let source = if self.once_in(3) {
            format!(" @ {} ", self.one(&URLS))
        } else {
            format!(" {}", self.one(&SPECIFIERS))
        };
        let blanks = self.one(&["", " ", "  "]);
        (
            format!("{blanks}Foo{extras}{source};{blanks} {marker}{blanks}"),
            marker,
        )
    }

    /// An environment as JSON, with this version of Python.
    pub fn environment(&mut self, full_version: &str) -> String {
        let mut value = |key: &str| format!("\"{key}\": \"{}\"", escaped(self.one(&TEXTS)));
        let texts: Vec<String> = [
            "implementation_name",
            "os_name",
            "platform_machine",
            "platform_python_implementation",
            "platform_release",
            "platform_system",
            "platform_version",
            "sys_platform",
        ]
        .iter()
        .map(|it| value(it))
        .collect();
        let implementation = self.version();
        format!(
            "{{{}, \"implementation_version\": \"{implementation}\", \"python_full_version\": \"{full_version}\", \
             \"python_version\": \"3.8\"}}",
            texts.join(", ")
        )
    }

    /// The text of a version that Python may have.
    pub fn version(&mut self) -> &'static str {
        self.one(&[
            "3.7.9",
            "3.8",
            "3.8.1",
            "3.9.0a1",
            "3.9",
            "3.9.2",
            "3.11.4rc1",
            "3.11.4",
            "3.12.1",
            "1",
        ])
    }

    /// Names of extras, none to two.
    pub fn extras(&mut self) -> Vec<&'static str> {
        let count = self.below(3);
        (0..count).map(|_| EXTRAS[self.below(3)]).collect()
    }
}

/// The text in quotes of a kind that it doesn't have.
fn quoted(text: &str) -> String {
    if text.contains('\'') {
        format!("\"{text}\"")
    } else {
        format!("'{text}'")
    }
}

/// The text in JSON, without the quotes around it.
pub fn escaped(text: &str) -> String {
    text.replace('\\', "\\\\").replace('"', "\\\"")
}
