// Rule files, read by recursive descent.
#[derive(Clone, Copy)]
pub struct Window {
    pub low: u64,
    pub high: Option<u64>,
}

#[derive(Clone, Copy)]
pub enum Node {
    True,
    Some(u8, i32, i32),
    Every(u8, i32, i32),
    Fact(u8, u32, i32),
    Number(u8, u32, u32),
    Refer(u8, u8),
    Level(u8, u8),
    Not(usize),
    And(usize, usize),
    Or(usize, usize),
    Implies(usize, usize),
    Next(Window, usize),
    AllNext(Window, usize),
    Sometime(Window, usize),
    Always(Window, usize),
    Until(Window, usize, usize),
    Previous(Window, usize),
    Once(Window, usize),
    SoFar(Window, usize),
    Since(Window, usize, usize),
}

pub struct Table {
    pub nodes: Vec<Node>,
    pub rules: Vec<(u8, usize)>,
}

pub struct Fault;

struct Reader<'a> {
    text: &'a [u8],
    at: usize,
    nodes: Vec<Node>,
}

impl Reader<'_> {
    fn take(&mut self, byte: u8) -> Result<(), Fault> {
        if self.text.get(self.at) == Some(&byte) {
            self.at += 1;
            Ok(())
        } else {
            Err(Fault)
        }
    }

    fn word(&mut self) -> &str {
        let start = self.at;
        while self.text.get(self.at).is_some_and(|b| b.is_ascii_lowercase()) {
            self.at += 1;
        }
        std::str::from_utf8(&self.text[start..self.at]).unwrap_or("")
    }

    fn number(&mut self, low: i64, high: i64) -> Result<i64, Fault> {
        self.take(b' ')?;
        let start = self.at;
        while self.text.get(self.at).is_some_and(|b| b.is_ascii_digit() || *b == b'-') {
            self.at += 1;
        }
        let text = std::str::from_utf8(&self.text[start..self.at]).map_err(|_| Fault)?;
        let digits = text.strip_prefix('-').unwrap_or(text);
        if digits.is_empty() || (digits.starts_with('0') && text != "0") {
            return Err(Fault);
        }
        let value: i64 = text.parse().map_err(|_| Fault)?;
        if value < low || value > high {
            return Err(Fault);
        }
        Ok(value)
    }

    fn relation(&mut self) -> Result<u8, Fault> {
        Ok(self.number(0, 15)? as u8)
    }

    fn value(&mut self) -> Result<i32, Fault> {
        Ok(self.number(-1_000_000_000, 1_000_000_000)? as i32)
    }

    fn values(&mut self) -> Result<(u8, i32, i32), Fault> {
        let (relation, low, high) = (self.relation()?, self.value()?, self.value()?);
        if high < low { Err(Fault) } else { Ok((relation, low, high)) }
    }

    fn window(&mut self) -> Result<Window, Fault> {
        let low = self.number(0, 1_000_000_000)? as u64;
        if self.text[self.at..].starts_with(b" end") {
            self.at += 4;
            return Ok(Window { low, high: None });
        }
        let high = self.number(0, 1_000_000_000)? as u64;
        if high < low { Err(Fault) } else { Ok(Window { low, high: Some(high) }) }
    }

    fn operand(&mut self, levels: usize) -> Result<usize, Fault> {
        self.take(b' ')?;
        self.formula(levels)
    }

    fn formula(&mut self, levels: usize) -> Result<usize, Fault> {
        if levels == 0 {
            return Err(Fault);
        }
        let inner = levels - 1;
        self.take(b'(')?;
        let word = self.word().to_owned();
        let node = match word.as_str() {
            "true" => Node::True,
            "some" => {
                let (relation, low, high) = self.values()?;
                Node::Some(relation, low, high)
            }
            "every" => {
                let (relation, low, high) = self.values()?;
                Node::Every(relation, low, high)
            }
            "fact" => Node::Fact(self.relation()?, self.number(0, 65_535)? as u32, self.value()?),
            "number" => {
                let relation = self.relation()?;
                let (least, most) = (self.number(0, 1_000_000)?, self.number(0, 1_000_000)?);
                if most < least {
                    return Err(Fault);
                }
                Node::Number(relation, least as u32, most as u32)
            }
            "refer" => Node::Refer(self.relation()?, self.relation()?),
            "level" => Node::Level(self.relation()?, self.relation()?),
            "not" => Node::Not(self.operand(inner)?),
            "and" => Node::And(self.operand(inner)?, self.operand(inner)?),
            "or" => Node::Or(self.operand(inner)?, self.operand(inner)?),
            "implies" => Node::Implies(self.operand(inner)?, self.operand(inner)?),
            "next" => Node::Next(self.window()?, self.operand(inner)?),
            "allnext" => Node::AllNext(self.window()?, self.operand(inner)?),
            "sometime" => Node::Sometime(self.window()?, self.operand(inner)?),
            "always" => Node::Always(self.window()?, self.operand(inner)?),
            "until" => Node::Until(self.window()?, self.operand(inner)?, self.operand(inner)?),
            "previous" => Node::Previous(self.window()?, self.operand(inner)?),
            "once" => Node::Once(self.window()?, self.operand(inner)?),
            "sofar" => Node::SoFar(self.window()?, self.operand(inner)?),
            "since" => Node::Since(self.window()?, self.operand(inner)?, self.operand(inner)?),
            _ => return Err(Fault),
        };
        self.take(b')')?;
        if self.nodes.len() == 64 {
            return Err(Fault);
        }
        self.nodes.push(node);
        Ok(self.nodes.len() - 1)
    }
}

pub fn read(text: &[u8]) -> Result<Table, Fault> {
    let mut reader = Reader { text, at: 0, nodes: Vec::new() };
    let mut rules: Vec<(u8, usize)> = Vec::new();
    while rules.is_empty() || reader.at < text.len() {
        reader.take(b'(')?;
        if rules.len() == 16 || reader.word() != "rule" {
            return Err(Fault);
        }
        let number = reader.number(1, 99)? as u8;
        if rules.last().is_some_and(|last| last.0 >= number) {
            return Err(Fault);
        }
        let root = reader.operand(12)?;
        reader.take(b')')?;
        reader.take(b'\n')?;
        rules.push((number, root));
    }
    Ok(Table { nodes: reader.nodes, rules })
}
