//! "The two texts" and "Reading": both texts, or the number and the line of the refusal.

use crate::plan::*;

pub const MAX_TEXT: usize = 16_384;

#[derive(Clone, Copy, PartialEq, Eq, Debug)]
pub struct Refusal {
    pub number: u8,
    pub line: usize,
}

/// Where each name stands in the plan text, as (start, end).
pub type Names = Vec<(usize, usize)>;

struct Reader<'a> {
    text: &'a [u8],
    at: usize,
    line: usize,
}

impl<'a> Reader<'a> {
    fn new(text: &'a [u8]) -> Result<Reader<'a>, Refusal> {
        if text.len() > MAX_TEXT {
            return Err(Refusal { number: 1, line: 0 });
        }
        Ok(Reader { text, at: 0, line: 0 })
    }

    fn refuse<T>(&self, number: u8) -> Result<T, Refusal> {
        Err(Refusal { number, line: self.line })
    }

    /// The rest of the next due line after its key: 2 if it is missing, lacks byte 10 or has another key.
    fn field(&mut self, key: &[u8]) -> Result<&'a [u8], Refusal> {
        self.line += 1;
        let rest = &self.text[self.at..];
        let Some(length) = rest.iter().position(|&b| b == 10) else { return self.refuse(2) };
        self.at += length + 1;
        match rest[..length].strip_prefix(key) {
            Some(field) => Ok(field),
            None => self.refuse(2),
        }
    }

    fn number(&mut self, key: &[u8], low: usize, high: usize) -> Result<usize, Refusal> {
        let field = self.field(key)?;
        match number(field) {
            None => self.refuse(2),
            Some(v) if v < low || v > high => self.refuse(3),
            Some(v) => Ok(v),
        }
    }

    fn mask(&mut self, key: &[u8], digits: usize, count: u32) -> Result<u64, Refusal> {
        let field = self.field(key)?;
        match mask(field, digits) {
            None => self.refuse(2),
            Some(v) if beyond(v, count) => self.refuse(4),
            Some(v) => Ok(v),
        }
    }

    /// Nothing may follow the last due line.
    fn finish(&mut self) -> Result<(), Refusal> {
        self.line += 1;
        if self.at < self.text.len() {
            return self.refuse(2);
        }
        Ok(())
    }
}

/// 1 to 4 decimal digits, no leading zero except in `0`.
fn number(field: &[u8]) -> Option<usize> {
    if field.is_empty() || field.len() > 4 || !field.iter().all(u8::is_ascii_digit) {
        return None;
    }
    if field[0] == b'0' && field.len() > 1 {
        return None;
    }
    Some(field.iter().fold(0, |v, &d| v * 10 + (d - b'0') as usize))
}

fn mask(field: &[u8], digits: usize) -> Option<u64> {
    if field.len() != digits {
        return None;
    }
    let mut value = 0;
    for &b in field {
        let digit = match b {
            b'0'..=b'9' => b - b'0',
            b'a'..=b'f' => b - b'a' + 10,
            _ => return None,
        };
        value = value << 4 | digit as u64;
    }
    Some(value)
}

fn two_numbers(field: &[u8]) -> Option<(usize, usize)> {
    let comma = field.iter().position(|&b| b == b',')?;
    Some((number(&field[..comma])?, number(&field[comma + 1..])?))
}

/// The layout of a form, before any range is looked at: its kind (0 end, 1 go, 2 either, 3 both) and its numbers.
fn form(field: &[u8]) -> Option<(u8, Vec<usize>)> {
    if field == b"end" {
        return Some((0, vec![]));
    }
    if let Some(rest) = field.strip_prefix(b"go:") {
        return Some((1, vec![number(rest)?]));
    }
    for (kind, key) in [(2, &b"either:"[..]), (3, &b"both:"[..])] {
        if let Some(rest) = field.strip_prefix(key) {
            let (y, z) = two_numbers(rest)?;
            return Some((kind, vec![y, z]));
        }
    }
    None
}

pub fn read_plan(text: &[u8]) -> Result<(Plan, Names), Refusal> {
    let mut r = Reader::new(text)?;
    let n = r.number(b"templates=", 1, MAX_TEMPLATES)?;
    let m = r.number(b"identifiers=", 0, MAX_IDENTIFIERS)? as u32;
    let mut plan = Plan { n: n as u32, m, templates: [BLANK; MAX_TEMPLATES] };
    let mut names: Names = vec![];
    for i in 0..n {
        let t = &mut plan.templates[i];
        let name = r.field(b"name=")?;
        let spelled = name.iter().all(|b| matches!(b, b'a'..=b'z' | b'0'..=b'9'));
        if name.is_empty() || name.len() > 16 || !spelled {
            return r.refuse(2);
        }
        if names.iter().any(|&(start, end)| &text[start..end] == name) {
            return r.refuse(5);
        }
        let end = r.at - 1;
        names.push((end - name.len(), end));

        let field = r.field(b"form=")?;
        let Some((kind, to)) = form(field) else { return r.refuse(2) };
        if to.iter().any(|&y| y >= n) {
            return r.refuse(3);
        }
        t.form = match kind {
            0 => Form::End,
            1 => Form::Go(to[0] as u8),
            2 => Form::Either(to[0] as u8, to[1] as u8),
            _ => Form::Both(to[0] as u8, to[1] as u8),
        };
        t.lab = r.mask(b"lab=", 8, m)? as u32;
        t.pos = r.mask(b"pos=", 8, m)? as u32;
        t.neg = r.mask(b"neg=", 8, m)? as u32;
        t.creates = r.mask(b"creates=", 8, m)? as u32;
        t.risk = match r.field(b"risk=")? {
            b"0" => false,
            b"1" => true,
            _ => return r.refuse(2),
        };
    }
    r.finish()?;
    Ok((plan, names))
}

pub fn read_policy(text: &[u8], plan: &Plan) -> Result<Vec<Assertion>, Refusal> {
    let last = plan.n as usize - 1;
    let mut r = Reader::new(text)?;
    let k = r.number(b"assertions=", 0, 32)?;
    let mut policy = vec![];
    for _ in 0..k {
        let kind = match r.field(b"kind=")? {
            b"secrecy" => Kind::Secrecy,
            b"prot" => Kind::Prot,
            _ => return r.refuse(2),
        };
        let source = r.number(b"source=", 0, last)?;
        let sink = r.number(b"sink=", 0, last)?;
        let anc = r.number(b"anc=", 0, last)?;
        let declass = r.mask(b"declass=", 16, plan.n)?;
        let own = declass >> source & 1 == 1 || declass >> sink & 1 == 1;
        let wrong = match kind {
            Kind::Secrecy => own,
            Kind::Prot => declass != 0,
        };
        if wrong {
            return r.refuse(6);
        }
        policy.push(Assertion { kind, source, sink, anc, declass });
    }
    r.finish()?;
    Ok(policy)
}
