//! The bench sheet: its lines, their order, what each means, and the refusals 51 and 52.

/// A body with its box, sag and materials, as a sheet gives it. Floats are kept as their bits.
#[derive(Debug, Default, Clone, PartialEq)]
pub struct Sheet {
    pub corners: [u64; 6],
    pub sag: u64,
    pub default: Option<u32>,
    pub materials: Vec<(u32, u32)>,
    pub rows: Vec<Row>,
}

/// A face line with its vertices and triangles, or a fail line: its outcome is 0, or the upstream failure's number. Its bin is 0 where
/// the line names none; the Rust knows nothing of it.
#[derive(Debug, Default, Clone, PartialEq)]
pub struct Row {
    pub shell: u32,
    pub face: u32,
    pub outcome: u32,
    pub bin: u32,
    pub positions: Vec<[u32; 3]>,
    pub normals: Vec<[u32; 3]>,
    pub indices: Vec<u32>,
}

impl Sheet {
    pub fn vertices(&self) -> usize {
        self.rows.iter().map(|r| r.positions.len()).sum()
    }
    pub fn indices(&self) -> usize {
        self.rows.iter().map(|r| r.indices.len()).sum()
    }
}

/// Why a sheet is refused: the number of document 01, and a sentence for a person.
#[derive(Debug, Clone, PartialEq)]
pub struct Refusal {
    pub number: u32,
    pub why: String,
}

impl Refusal {
    pub fn new(number: u32, why: impl Into<String>) -> Refusal {
        Refusal { number, why: why.into() }
    }
}

/// The limits of the bench program; a sheet read without them may have any size.
#[derive(Debug, Clone, Copy)]
pub struct Limits {
    pub rows: usize,
    pub vertices: usize,
    pub indices: usize,
    pub face: u32,
    pub result: usize,
}

pub const BENCH: Limits = Limits { rows: 16, vertices: 96, indices: 96, face: 63, result: 192 };

/// One line of a sheet.
#[derive(Debug, Clone, PartialEq)]
pub enum Line {
    Box([u64; 6]),
    Sag(u64),
    Default(Option<u32>),
    Material(u32, u32),
    Face(u32, u32, u32),
    Vertex([u32; 3], [u32; 3]),
    Triangle([u32; 3]),
    Fail(u32, u32, u32, u32),
}

/// The rest of a line that is being read.
struct Cursor<'a>(&'a [u8]);

impl Cursor<'_> {
    fn word(&mut self, word: &str) -> Option<()> {
        self.0 = self.0.strip_prefix(word.as_bytes())?;
        Some(())
    }

    /// A space, then upper-case hex of exactly so many digits.
    fn bits(&mut self, digits: usize) -> Option<u64> {
        self.word(" ")?;
        if self.0.len() < digits {
            return None;
        }
        let (head, rest) = self.0.split_at(digits);
        let mut value = 0u64;
        for c in head {
            let digit = match c {
                b'0'..=b'9' => c - b'0',
                b'A'..=b'F' => c - b'A' + 10,
                _ => return None,
            };
            value = value * 16 + digit as u64;
        }
        self.0 = rest;
        Some(value)
    }

    /// A space, then a decimal number below 2^32 without leading zeros.
    fn number(&mut self) -> Option<u32> {
        self.word(" ")?;
        let count = self.0.iter().take_while(|c| c.is_ascii_digit()).count();
        let (head, rest) = self.0.split_at(count);
        if count == 0 || count > 10 || (count > 1 && head[0] == b'0') {
            return None;
        }
        let value = head.iter().fold(0u64, |n, c| n * 10 + (c - b'0') as u64);
        self.0 = rest;
        u32::try_from(value).ok()
    }

    /// Such a number, or 0 where the line ends here.
    fn number_or_none(&mut self) -> Option<u32> {
        if self.0 == b")" { Some(0) } else { self.number() }
    }

    fn point(&mut self) -> Option<[u32; 3]> {
        Some([self.bits(8)? as u32, self.bits(8)? as u32, self.bits(8)? as u32])
    }

    fn end(&self) -> Option<()> {
        self.0.is_empty().then_some(())
    }
}

/// The line that some bytes are, LF left off, if they have a form.
pub fn line_of(bytes: &[u8]) -> Option<Line> {
    let name_end = bytes.iter().position(|c| *c == b' ')?;
    let mut c = Cursor(&bytes[name_end..]);
    let line = match &bytes[..name_end] {
        b"(box" => {
            let mut corners = [0u64; 6];
            for corner in &mut corners {
                *corner = c.bits(16)?;
            }
            Line::Box(corners)
        }
        b"(sag" => Line::Sag(c.bits(16)?),
        b"(default" if c.0 == b" -)" => {
            c.word(" -")?;
            Line::Default(None)
        }
        b"(default" => Line::Default(Some(c.number()?)),
        b"(material" => Line::Material(c.number()?, c.number()?),
        b"(face" => Line::Face(c.number()?, c.number()?, c.number_or_none()?),
        b"(fail" => Line::Fail(c.number()?, c.number()?, c.number()?, c.number_or_none()?),
        b"(t" => Line::Triangle([c.number()?, c.number()?, c.number()?]),
        b"(v" => {
            c.word(" (p")?;
            let position = c.point()?;
            c.word(") (n")?;
            let normal = c.point()?;
            c.word(")")?;
            Line::Vertex(position, normal)
        }
        _ => return None,
    };
    c.word(")")?;
    c.end()?;
    Some(line)
}

/// Where the reader stands: what lines may follow.
#[derive(Debug, Clone, Copy, PartialEq)]
enum Place {
    WantsBox,
    WantsSag,
    WantsDefault,
    Materials,
    Vertices,
    Triangles,
    Failed,
}

/// Where a line leads, if it may stand here. A fail line's number is not 0.
fn next_place(place: Place, line: &Line) -> Option<Place> {
    use Place::*;
    match (line, place) {
        (Line::Box(_), WantsBox) => Some(WantsSag),
        (Line::Sag(_), WantsSag) => Some(WantsDefault),
        (Line::Default(_), WantsDefault) => Some(Materials),
        (Line::Material(..), Materials) => Some(Materials),
        (Line::Face(..), Materials | Vertices | Triangles | Failed) => Some(Vertices),
        (Line::Fail(_, _, number, _), Materials | Vertices | Triangles | Failed) if *number != 0 => Some(Failed),
        (Line::Vertex(..), Vertices) => Some(Vertices),
        (Line::Triangle(..), Vertices | Triangles) => Some(Triangles),
        _ => None,
    }
}

/// Whether a line passes a limit of the program, the sheet having come so far.
fn passes(limits: &Limits, sheet: &Sheet, line: &Line) -> bool {
    match line {
        Line::Material(face, _) => *face > limits.face,
        Line::Face(_, face, _) | Line::Fail(_, face, _, _) => *face > limits.face || sheet.rows.len() == limits.rows,
        Line::Vertex(..) => sheet.vertices() == limits.vertices,
        Line::Triangle(..) => sheet.indices() + 3 > limits.indices,
        _ => false,
    }
}

fn add(sheet: &mut Sheet, line: Line) {
    match line {
        Line::Box(corners) => sheet.corners = corners,
        Line::Sag(sag) => sheet.sag = sag,
        Line::Default(default) => sheet.default = default,
        Line::Material(face, material) => sheet.materials.push((face, material)),
        Line::Face(shell, face, bin) => sheet.rows.push(Row { shell, face, bin, ..Row::default() }),
        Line::Fail(shell, face, outcome, bin) => sheet.rows.push(Row { shell, face, outcome, bin, ..Row::default() }),
        Line::Vertex(position, normal) => {
            let row = sheet.rows.last_mut().expect("a face line stands before");
            row.positions.push(position);
            row.normals.push(normal);
        }
        Line::Triangle(corners) => sheet.rows.last_mut().expect("a face line stands before").indices.extend(corners),
    }
}

/// The sheet that a text is, or the refusal of its first line that is no such form, out of order, missing, or past a limit.
pub fn parse(text: &[u8], limits: Option<&Limits>) -> Result<Sheet, Refusal> {
    let mut sheet = Sheet::default();
    let mut place = Place::WantsBox;
    let mut number = 0usize;
    let mut rest = text;
    while let Some(end) = rest.iter().position(|c| *c == b'\n') {
        number += 1;
        let shown = || String::from_utf8_lossy(&rest[..end.min(60)]).escape_debug().to_string();
        let line = line_of(&rest[..end]).ok_or_else(|| Refusal::new(51, format!("line {number} is no line of a sheet: {}", shown())))?;
        let next = next_place(place, &line)
            .ok_or_else(|| Refusal::new(51, format!("line {number} is out of order, or fails with number 0: {}", shown())))?;
        if limits.is_some_and(|l| passes(l, &sheet, &line)) {
            return Err(Refusal::new(52, format!("line {number} passes a limit of the bench program: {}", shown())));
        }
        add(&mut sheet, line);
        place = next;
        rest = &rest[end + 1..];
    }
    if !rest.is_empty() {
        return Err(Refusal::new(51, format!("line {} has no line feed at its end", number + 1)));
    }
    if matches!(place, Place::WantsBox | Place::WantsSag | Place::WantsDefault) {
        return Err(Refusal::new(51, "the box, sag or default line is missing".to_string()));
    }
    Ok(sheet)
}
