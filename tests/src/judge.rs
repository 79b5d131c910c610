//! An independent judge of tables, and an independent run: the table decoded into plain data first.

#[derive(Clone, Copy)]
pub enum Cmd {
    Move(usize, usize),
    Set(usize),
}

pub struct Row {
    pub hi: u8,
    pub next: usize,
    pub cmds: Vec<Cmd>,
}

pub struct Sit {
    pub answer: u8,
    pub fields: [u8; 8],
    pub rows: Vec<Row>,
}

pub struct Table {
    pub start: Vec<Cmd>,
    pub sits: Vec<Sit>,
}

struct Items<'a> {
    left: &'a [u8],
}

impl<'a> Items<'a> {
    /// The body of the next item, if it is of that kind and whole.
    fn item(&mut self, kind: u8, size: usize) -> Option<&'a [u8]> {
        if *self.left.first()? != kind || self.left.len() < size + 1 {
            return None;
        }
        let body = &self.left[1..size + 1];
        self.left = &self.left[size + 1..];
        Some(body)
    }

    /// A list of commands whose targets rise and whose numbers are below the count of registers.
    fn cmds(&mut self, regs: u8, moves: bool) -> Option<Vec<Cmd>> {
        let mut list = Vec::new();
        let mut low = 0;
        loop {
            let (to, cmd) = if let Some(b) = self.item(0x25, 1) {
                (b[0], Cmd::Set(b[0] as usize))
            } else if let (true, Some(0x24)) = (moves, self.left.first()) {
                let b = self.item(0x24, 2)?;
                if b[1] >= regs {
                    return None;
                }
                (b[0], Cmd::Move(b[0] as usize, b[1] as usize))
            } else {
                return Some(list);
            };
            if to >= regs || (to as usize) < low {
                return None;
            }
            low = to as usize + 1;
            list.push(cmd);
        }
    }

    fn sit(&mut self, tags: u8, regs: u8, sits: u8) -> Option<Sit> {
        let b = self.item(0x22, 9)?;
        let answer = b[0];
        let fields: [u8; 8] = b[1..].try_into().expect("eight");
        for (tag, field) in fields.iter().enumerate() {
            if *field != 255 && (answer == 255 || tag >= tags as usize || *field >= regs) {
                return None;
            }
        }
        let mut rows = Vec::new();
        let mut lo = 0usize;
        while lo < 256 {
            let b = self.item(0x23, 3)?;
            if b[0] as usize != lo || b[1] < b[0] || b[2] >= sits {
                return None;
            }
            lo = b[1] as usize + 1;
            rows.push(Row { hi: b[1], next: b[2] as usize, cmds: self.cmds(regs, true)? });
        }
        Some(Sit { answer, fields, rows })
    }
}

/// The table that the bytes are, if their form is right.
pub fn decode(bytes: &[u8]) -> Option<Table> {
    let mut items = Items { left: bytes };
    let head = items.item(0x21, 4)?;
    let (edition, tags, regs, count) = (head[0], head[1], head[2], head[3]);
    if edition != 1 || tags > 8 || regs > 64 || count == 0 || count > 96 {
        return None;
    }
    let start = items.cmds(regs, false)?;
    let sits = (0..count).map(|_| items.sit(tags, regs, count)).collect::<Option<Vec<_>>>()?;
    items.left.is_empty().then_some(Table { start, sits })
}

fn writes(cmds: &[Cmd], r: usize) -> bool {
    cmds.iter().any(|c| matches!(c, Cmd::Move(to, _) | Cmd::Set(to) if *to == r))
}

fn reads(cmds: &[Cmd], r: usize) -> bool {
    cmds.iter().any(|c| matches!(c, Cmd::Move(_, from) if *from == r))
}

/// Whether some line reads register r while it is empty: a walk over the situations it can be empty in.
fn reads_empty(t: &Table, r: usize) -> bool {
    if writes(&t.start, r) {
        return false;
    }
    let mut seen = vec![false; t.sits.len()];
    let mut todo = vec![0];
    seen[0] = true;
    while let Some(q) = todo.pop() {
        let sit = &t.sits[q];
        if sit.fields.contains(&(r as u8)) || sit.rows.iter().any(|row| reads(&row.cmds, r)) {
            return true;
        }
        for row in sit.rows.iter().filter(|row| !writes(&row.cmds, r)) {
            if !std::mem::replace(&mut seen[row.next], true) {
                todo.push(row.next);
            }
        }
    }
    false
}

/// What the loader answers.
pub fn judge(bytes: &[u8]) -> u8 {
    match decode(bytes) {
        None => 13,
        Some(t) if (0..64).any(|r| reads_empty(&t, r)) => 14,
        Some(_) => 0,
    }
}

/// What a run answers: code, answer and places.
pub fn run(bytes: &[u8], line: &[u8]) -> (u8, u8, [i16; 8]) {
    let refused = |code| (code, 255, [-1; 8]);
    let judged = judge(bytes);
    if judged != 0 {
        return refused(judged);
    }
    if line.len() > 32767 {
        return refused(15);
    }
    let t = decode(bytes).expect("judged");
    let mut bank = [-1i16; 64];
    apply(&t.start, 0, &mut bank);
    let mut q = 0;
    for (i, b) in line.iter().enumerate() {
        let row = t.sits[q].rows.iter().find(|row| *b <= row.hi).expect("rows reach 255");
        apply(&row.cmds, (i + 1) as i16, &mut bank);
        q = row.next;
    }
    let sit = &t.sits[q];
    if sit.answer == 255 {
        return refused(16);
    }
    (0, sit.answer, sit.fields.map(|f| if f == 255 { -1 } else { bank[f as usize] }))
}

fn apply(cmds: &[Cmd], place: i16, bank: &mut [i16; 64]) {
    let old = *bank;
    for c in cmds {
        match *c {
            Cmd::Move(to, from) => bank[to] = old[from],
            Cmd::Set(to) => bank[to] = place,
        }
    }
}
