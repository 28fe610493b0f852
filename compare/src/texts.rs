// Random texts: right ones, and right ones with faults put in.

/// Marsaglia's xorshift, so that every run has the same texts.
pub struct Random(pub u64);

impl Random {
    fn next(&mut self) -> u64 {
        self.0 ^= self.0 << 13;
        self.0 ^= self.0 >> 7;
        self.0 ^= self.0 << 17;
        self.0
    }

    /// A number below `n`, which is not 0.
    pub fn below(&mut self, n: usize) -> usize {
        ((self.next() >> 11) % n as u64) as usize
    }

    fn within(&mut self, low: i64, high: i64) -> i64 {
        low + self.below((high - low + 1) as usize) as i64
    }

    // Mostly a small number, at times any, and at times an end of the range.
    fn number(&mut self, low: i64, high: i64) -> i64 {
        match self.below(8) {
            0 => low,
            1 => high,
            2 => self.within(low, high),
            _ => self.within(low.max(-9), high.min(9)),
        }
    }

    fn pick<T: Copy>(&mut self, from: &[T]) -> T {
        from[self.below(from.len())]
    }
}

// Numbers at and about every limit, numbers that wrap to small ones, and what is no number.
const EDGES: &[&str] = &[
    "",
    "-",
    "--1",
    "+1",
    "0",
    "-0",
    "00",
    "01",
    "-01",
    "1",
    "-1",
    "2",
    "3",
    "199",
    "200",
    "201",
    "999",
    "1000",
    "1001",
    "-999",
    "-1000",
    "-1001",
    "999999",
    "1000000",
    "1000001",
    "-1000000",
    "-1000001",
    "9999999",
    "-9999999",
    "10000000",
    "-10000000",
    "00000001",
    "-00000001",
    "4294967296",
    "4294967297",
    "18446744073709551617",
    "99999999999999999999",
    "1 ",
    " 1",
    "1-",
    "1x",
];

const LINES: &[&str] = &[
    "\n",
    " \n",
    "(\n",
    "()\n",
    "(stock 0 1)\n",
    "(stock 0 0)\n",
    "(arc (0 1) (0 1) (1 1))\n",
    "(arc (0 0) (0 1) (1 1))\n",
    "(arc (0 1) (1 0) (1 1))\n",
    "(net 1 0)\n",
    "(stock)\n",
    "(arc)\n",
    "(stock 0)\n",
    "(arc (0 1))\n",
    "(stocks 0 1)\n",
    "(a\n",
];

const WORDS: &[&str] = &[
    "net", "stock", "arc", "stoc", "stocks", "ar", "arcs", "st", "a", "s", "", "Arc", "network",
];

const BYTES: &[u8] = b"()()-- \n\n\r\t0123456789acenorstkx+\0\xff";

/// The next text: a right one, or one with up to three changes.
pub fn text(random: &mut Random) -> Vec<u8> {
    let mut text = right(random);
    for _ in 0..random.below(4) {
        change(random, &mut text);
    }
    if random.below(400) == 0 {
        pad(random, &mut text);
    }
    text
}

// A text with no fault. A large network is rare, since its text is long.
fn right(random: &mut Random) -> Vec<u8> {
    let (nodes, arcs) = match random.below(300) {
        0 => (200, 1_000),
        1 => (random.within(2, 200), random.within(0, 1_000)),
        2..=20 => (1, 0),
        21..=40 => (random.within(1, 200), 0),
        _ => (random.within(2, 6), random.within(0, 7)),
    };
    let mut text = format!("(net {nodes} {arcs})\n");
    // The nodes from a random one on, some of them left out.
    let first = random.within(0, nodes - 1);
    for i in 0..nodes {
        if random.below(2) == 0 {
            let amount = random.number(-1_000_000, 1_000_000);
            text += &format!("(stock {} {amount})\n", (first + i) % nodes);
        }
    }
    for _ in 0..arcs {
        let tail = random.within(0, nodes - 1);
        let head = (tail + random.within(1, nodes - 1)) % nodes;
        let most = random.number(0, 1_000);
        let least = random.number(0, most);
        let (first, second) = (random.number(-1_000, 1_000), random.number(-1_000, 1_000));
        text += &format!("(arc ({tail} {head}) ({least} {most}) ({first} {second}))\n");
    }
    text.into_bytes()
}

// One change that may put a fault in.
fn change(random: &mut Random, text: &mut Vec<u8>) {
    if text.is_empty() {
        text.push(random.pick(BYTES));
        return;
    }
    let at = random.below(text.len());
    match random.below(12) {
        0 => text[at] = random.pick(BYTES),
        1 => drop(text.remove(at)),
        2 => text.insert(at, text[at]),
        3 => text.insert(at, random.pick(BYTES)),
        4 => text.truncate(at),
        5 => change_lines(random, text, |random, lines, i| {
            let j = random.below(lines.len());
            lines.swap(i, j);
        }),
        6 => change_lines(random, text, |random, lines, i| {
            let j = random.below(lines.len() + 1);
            lines.insert(j, lines[i].clone());
        }),
        7 => change_lines(random, text, |_, lines, i| drop(lines.remove(i))),
        8 => change_lines(random, text, |random, lines, i| {
            lines.insert(i, random.pick(LINES).into())
        }),
        9 => change_lines(random, text, |random, lines, i| {
            let word = lines[i].iter().position(|&byte| byte == b' ').unwrap_or(0);
            if word > 0 {
                lines[i].splice(1..word, random.pick(WORDS).bytes());
            }
        }),
        _ => change_number(random, text, at),
    }
}

// Changes the lines of a text, each with its byte 10, by what is done at a random one.
fn change_lines(
    random: &mut Random,
    text: &mut Vec<u8>,
    by: impl Fn(&mut Random, &mut Vec<Vec<u8>>, usize),
) {
    let mut lines: Vec<Vec<u8>> = text
        .split_inclusive(|&byte| byte == b'\n')
        .map(<[u8]>::to_vec)
        .collect();
    let i = random.below(lines.len());
    by(random, &mut lines, i);
    *text = lines.concat();
}

// Puts another number for the first one from `at` on.
fn change_number(random: &mut Random, text: &mut Vec<u8>, at: usize) {
    let figure = |byte: &u8| byte.is_ascii_digit() || *byte == b'-';
    if let Some(start) = text[at..].iter().position(figure) {
        let start = at + start;
        let length = text[start..].iter().take_while(|byte| figure(byte)).count();
        text.splice(start..start + length, random.pick(EDGES).bytes());
    }
}

// Makes a text about as long as a text may be, at its front or at its end.
fn pad(random: &mut Random, text: &mut Vec<u8>) {
    let length = 65_535 + random.below(4);
    let filling = random.pick(b" 0(\n");
    if random.below(2) == 0 {
        text.resize(length, filling);
    } else {
        let missing = length.saturating_sub(text.len());
        text.splice(0..0, vec![filling; missing]);
    }
}
