//! Random texts of token-shaped fragments, whole, cut and damaged, and random bytes near UTF-8. The same seed gives the
//! same texts.

/// Characters that some rule tells apart.
const TELLING: &str = "(){}[];,\"\\$@_019afgAFGxXeEpPnutrizZ'.+-:!/`~ \t\n\r\0\u{1f}\u{7f}\
    \u{80}é\u{7ff}\u{800}\u{202a}\u{202c}\u{202e}\u{2069}\u{206b}\u{206c}€\u{d7ff}\u{e000}\u{ffff}\u{10000}\u{10ffff}";

const IDCHARS: &str = "0123456789abcdefghijklmnopqrstuvwxyzABCDEFGHIJKLMNOPQRSTUVWXYZ!#$%&'*+-./:<=>?@\\^_`|~";

/// The nine confusing characters and their neighbours.
const CONFUSING: &str = "\u{2029}\u{202a}\u{202b}\u{202c}\u{202d}\u{202e}\u{202f}\
    \u{2065}\u{2066}\u{2067}\u{2068}\u{2069}\u{206a}\u{206b}\u{206c}\u{206d}";

/// Numbers of `\u{..}` on both sides of each limit, in hexadecimal.
const ESCAPED: &[&str] = &[
    "0", "7f", "80", "7ff", "800", "d7ff", "d800", "dbff", "dfff", "e000", "ffff", "10000", "10ffff", "110000", "202e",
    "fffffff", "ffffffff", "100000000", "fffffffff", "1", "41", "e9",
];

/// What a long text begins with, is filled with and ends with: more than is looked at together.
const LONG: &[[&str; 3]] = &[
    [";;", "a", "\n"],
    [";;", "é", "\r"],
    ["(;", "a", ";)"],
    ["(;", ";", ";)"],
    ["(;", "(", ";)"],
    ["(;(;", "…", ";);)"],
    ["\"", "a", "\""],
    ["$\"", "語", "\""],
    ["\"", "😀", "\" "],
    ["", " ", "x"],
    ["(", "\n", ")"],
    ["", "a", " "],
    ["-", "7", " "],
    ["0x", "f", "_1 "],
];

/// What may stand anywhere in it.
const PIECES: &[&str] = &[
    "(;", ";)", ";", "(", ")", "\n", "\r", "\"", "\\", "\\n", " ", "_", "\0", "\u{7f}", "\u{2026}", "\u{202a}",
    "\u{202c}", "\u{202e}", "\u{2066}", "\u{206a}", "\u{206c}", "€", "\u{800}", "\u{d7ff}", "😀", "\u{10ffff}",
];

/// First bytes and later bytes of characters on both sides of each edge of the table of well-formed sequences.
const LEADS: [u8; 15] = [0x7f, 0xc1, 0xc2, 0xdf, 0xe0, 0xe1, 0xec, 0xed, 0xee, 0xef, 0xf0, 0xf1, 0xf3, 0xf4, 0xf5];
const TRAILS: [u8; 8] = [0x7f, 0x80, 0x8f, 0x90, 0x9f, 0xa0, 0xbf, 0xc0];

/// Numbers between which some rule or some number of bytes draws a line.
const LIMITS: [u32; 12] = [0, 0x10, 0x20, 0x27, 0x5c, 0x7f, 0x100, 0xd800, 0xe000, 0x1_0000, 0x11_0000, 0x100_0000];

/// Every sequence of up to `most` of the symbols, joined, behind what the text holds.
pub fn every(symbols: &[&[u8]], most: usize, text: &mut Vec<u8>, each: &mut impl FnMut(&[u8])) {
    each(text);
    if most == 0 {
        return;
    }
    for symbol in symbols {
        text.extend_from_slice(symbol);
        every(symbols, most - 1, text, each);
        text.truncate(text.len() - symbol.len());
    }
}

/// A generator of texts.
pub struct Texts {
    state: u64,
}

impl Texts {
    pub fn new(seed: u64) -> Texts {
        Texts { state: seed }
    }

    /// A text of at most `limit` bytes.
    pub fn text(&mut self, limit: usize) -> String {
        let mut text = String::new();
        self.fragment(&mut text);
        for _ in 0..self.pick(&[0, 0, 0, 1, 1, 2]) {
            text.push_str(self.pick(&["", " ", "\n", "(", ")", ";;"]));
            self.fragment(&mut text);
        }
        if self.one_in(4) {
            for _ in 0..=self.below(2) {
                self.damage(&mut text);
            }
        }
        while text.len() > limit {
            text.pop();
        }
        text
    }

    /// A text of some hundred bytes that is mostly one run, with telling pieces at any place of it.
    pub fn long(&mut self) -> String {
        let [open, fill, close] = self.pick(LONG);
        let mut text = format!("{open}{}{close}", fill.repeat(self.below(160 / fill.len())));
        for _ in 0..self.below(4) {
            let at = self.boundary(&text);
            text.insert_str(at, self.pick(PIECES));
        }
        text
    }

    /// The bytes of such a text, one of them another.
    pub fn long_bytes(&mut self) -> Vec<u8> {
        let mut bytes = self.long().into_bytes();
        if !bytes.is_empty() {
            let at = self.below(bytes.len());
            bytes[at] = if self.one_in(2) { self.pick(&LEADS) } else { self.pick(&TRAILS) };
        }
        bytes
    }

    /// At most `limit` bytes: characters, and sequences that miss one narrowly, some of them cut or run into each other.
    pub fn bytes(&mut self, limit: usize) -> Vec<u8> {
        let mut bytes = Vec::new();
        for _ in 0..self.below(5) {
            if self.one_in(2) {
                let c = self.any_char();
                bytes.extend_from_slice(c.encode_utf8(&mut [0; 4]).as_bytes());
            } else {
                bytes.push(self.pick(&LEADS));
                for _ in 0..self.below(4) {
                    bytes.push(self.pick(&TRAILS));
                }
            }
        }
        if self.one_in(3) {
            let at = self.below(bytes.len() + 1);
            match self.below(4) {
                0 => bytes.truncate(at),
                1 => _ = bytes.drain(..at),
                2 if at < bytes.len() => _ = bytes.remove(at),
                _ => bytes.insert(at, self.next() as u8),
            }
        }
        bytes.truncate(limit);
        bytes
    }

    /// At most `limit` bytes, half of which are CR and LF.
    pub fn line_ends(&mut self, limit: usize) -> Vec<u8> {
        let mut bytes = vec![b'a'; self.below(limit + 1)];
        for byte in &mut bytes {
            *byte = match self.below(4) {
                0 => b'\r',
                1 => b'\n',
                2 => b'a',
                _ => self.next() as u8,
            };
        }
        bytes
    }

    /// A number below `n`.
    pub fn below(&mut self, n: usize) -> usize {
        (self.next() % n as u64) as usize
    }

    /// A number of 32 bits: any, one of fewer bits, or one near a limit.
    pub fn any_number(&mut self) -> u32 {
        match self.below(3) {
            0 => self.next() as u32,
            1 => self.next() as u32 >> self.below(32),
            _ => self.pick(&LIMITS).wrapping_add(self.below(4) as u32).wrapping_sub(2),
        }
    }

    /// Any number of 128 bits.
    pub fn wide(&mut self) -> u128 {
        u128::from(self.next()) << 64 | u128::from(self.next())
    }

    /// One of the nine confusing characters, or a neighbour.
    pub fn near_confusing(&mut self) -> char {
        self.char_of(CONFUSING)
    }

    // splitmix64
    fn next(&mut self) -> u64 {
        self.state = self.state.wrapping_add(0x9e37_79b9_7f4a_7c15);
        let z = (self.state ^ (self.state >> 30)).wrapping_mul(0xbf58_476d_1ce4_e5b9);
        let z = (z ^ (z >> 27)).wrapping_mul(0x94d0_49bb_1331_11eb);
        z ^ (z >> 31)
    }

    fn one_in(&mut self, n: usize) -> bool {
        self.below(n) == 0
    }

    fn pick<T: Copy>(&mut self, from: &[T]) -> T {
        from[self.below(from.len())]
    }

    fn char_of(&mut self, from: &str) -> char {
        from.chars().nth(self.below(from.chars().count())).expect("a character that is there")
    }

    /// A character, those of one to four bytes alike.
    pub fn any_char(&mut self) -> char {
        let limit = self.pick(&[0x80, 0x800, 0x1_0000, 0x11_0000]);
        char::from_u32(self.below(limit) as u32).unwrap_or('\u{fffd}')
    }

    fn damage(&mut self, text: &mut String) {
        let at = self.boundary(text);
        match self.below(4) {
            0 => text.truncate(at),
            1 => _ = text.drain(..at),
            2 if at < text.len() => _ = text.remove(at),
            _ => text.insert(at, self.char_of(TELLING)),
        }
    }

    /// A position between two characters, or at an end.
    pub fn boundary(&mut self, text: &str) -> usize {
        let mut at = self.below(text.len() + 1);
        while !text.is_char_boundary(at) {
            at -= 1;
        }
        at
    }

    fn fragment(&mut self, text: &mut String) {
        match self.below(24) {
            0..=4 => self.number(text),
            5..=9 => self.string(text),
            10 | 11 => {
                text.push(self.pick(&['$', '@']));
                self.string(text);
            }
            12 => {
                text.push(self.pick(&['$', '@']));
                self.word(text);
            }
            13 => {
                text.push(char::from(b'a' + self.below(26) as u8));
                self.word(text);
            }
            14 => self.word(text),
            15..=17 => self.block_comment(text, 0),
            18..=19 => self.line_comment(text),
            20 => self.spaces(text),
            21 => text.push(self.pick(&['(', ')', ';', ',', '[', ']', '{', '}'])),
            22 => text.push(self.char_of(TELLING)),
            _ => text.push(self.any_char()),
        }
    }

    fn word(&mut self, text: &mut String) {
        for _ in 0..self.below(6) {
            text.push(self.char_of(IDCHARS));
        }
    }

    fn spaces(&mut self, text: &mut String) {
        for _ in 0..=self.below(5) {
            text.push(self.pick(&[' ', '\t', '\n', '\r']));
        }
    }

    /// A number, or what misses one narrowly.
    fn number(&mut self, text: &mut String) {
        text.push_str(self.pick(&["", "", "+", "-"]));
        match self.below(8) {
            0 => text.push_str(self.pick(&["inf", "nan", "inf", "nan", "infinity", "inf_", "nan:", "Inf", "nan:1"])),
            1 => {
                text.push_str(self.pick(&["nan:0x", "nan:0x", "nan:0x", "nan:0X", "nan:0x_"]));
                self.digits(text, true);
            }
            shape => {
                let hex = shape < 5;
                if hex {
                    text.push_str(self.pick(&["0x", "0x", "0x", "0x", "0x", "0X"]));
                }
                self.digits(text, hex);
                if self.one_in(3) {
                    text.push('.');
                    if !self.one_in(3) {
                        self.digits(text, hex);
                    }
                }
                if self.one_in(3) {
                    let mark = if hex { ["p", "P", "e"] } else { ["e", "E", "p"] };
                    text.push_str(mark[self.below(9).saturating_sub(1) / 4]);
                    text.push_str(self.pick(&["", "+", "-"]));
                    self.digits(text, false);
                }
            }
        }
    }

    /// Digits with underscores, most of which stand alone between two digits.
    fn digits(&mut self, text: &mut String, hex: bool) {
        let digits = if hex { "0123456789abcdefABCDEF" } else { "0123456789" };
        if self.one_in(12) {
            text.push_str(self.pick(&["", "_", "g", "a"]));
        }
        let count = 1 + self.below(4);
        for i in 0..count {
            text.push(char::from(self.pick(digits.as_bytes())));
            if (i + 1 < count && self.one_in(5)) || self.one_in(24) {
                text.push('_');
            }
        }
    }

    fn string(&mut self, text: &mut String) {
        text.push('"');
        for _ in 0..self.below(5) {
            self.element(text);
        }
        if !self.one_in(10) {
            text.push('"');
        }
    }

    /// An element of a string, or what is none.
    fn element(&mut self, text: &mut String) {
        match self.below(20) {
            0..=3 => text.push(self.char_of(IDCHARS)),
            4 => text.push_str(self.pick(&[" ", "(;", ";)", ";;", "'", "é", "€", "𐀀"])),
            5 => text.push(self.any_char()),
            6 | 7 => {
                text.push('\\');
                text.push(self.pick(&['t', 'n', 'r', '"', '\'', '\\']));
            }
            8 | 9 => text.push_str(&format!("\\{:02x}", self.below(256))),
            10 => text.push_str(&format!("\\{:02X}", self.below(256))),
            11 => {
                text.push('\\');
                text.push(self.char_of(TELLING));
            }
            12 => {
                text.push('\\');
                text.push(self.pick(&['0', '8', 'a', 'F', 'b', 'f']));
                text.push(self.char_of(TELLING));
            }
            13 => text.push(self.pick(&['\0', '\t', '\n', '\r', '\x1f', '\x7f', '\u{80}', ' '])),
            14 => text.push(self.char_of(CONFUSING)),
            _ => self.unicode_escape(text),
        }
    }

    /// `\u{..}`, or what misses it.
    fn unicode_escape(&mut self, text: &mut String) {
        text.push_str("\\u");
        if self.one_in(16) {
            text.push(self.char_of(TELLING));
        } else {
            text.push('{');
        }
        if self.one_in(12) {
            text.push(self.char_of(TELLING));
        }
        text.push_str(self.pick(&["", "", "", "0", "00"]));
        // few underscores, or so many that pairs of them are common
        let underscores = self.pick(&[12, 3]);
        for digit in self.pick(ESCAPED).chars() {
            text.push(if self.one_in(4) { digit.to_ascii_uppercase() } else { digit });
            while self.one_in(underscores) {
                text.push('_');
            }
        }
        match self.below(10) {
            0 => text.push(self.char_of(TELLING)),
            1 => {}
            _ => text.push('}'),
        }
    }

    fn block_comment(&mut self, text: &mut String, depth: usize) {
        text.push_str("(;");
        for _ in 0..self.below(4) {
            match self.below(10) {
                0 | 1 if depth < 3 => self.block_comment(text, depth + 1),
                2 => text.push(self.char_of(CONFUSING)),
                _ => self.comment_char(text),
            }
        }
        if !self.one_in(8) {
            text.push_str(";)");
        }
    }

    fn line_comment(&mut self, text: &mut String) {
        text.push_str(";;");
        for _ in 0..self.below(5) {
            self.comment_char(text);
        }
        text.push_str(self.pick(&["", "\n", "\r", "\r\n"]));
    }

    fn comment_char(&mut self, text: &mut String) {
        match self.below(6) {
            0 => text.push(self.char_of(CONFUSING)),
            1 => text.push(self.char_of(TELLING)),
            2 => text.push_str(self.pick(&["(", ";", ")", "(;", ";)", "("])),
            3 => text.push(self.any_char()),
            _ => text.push(self.char_of(IDCHARS)),
        }
    }
}
