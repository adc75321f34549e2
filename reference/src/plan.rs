//! What the two texts say, once read.

pub const MAX_TEMPLATES: usize = 64;
pub const MAX_IDENTIFIERS: usize = 32;

#[derive(Clone, Copy, PartialEq, Eq, Debug)]
pub enum Form {
    End,
    Go(u8),
    Either(u8, u8),
    Both(u8, u8),
}

impl Form {
    /// Y, then Z.
    pub fn successors(self) -> impl Iterator<Item = usize> {
        let row = match self {
            Form::End => [None, None],
            Form::Go(y) => [Some(y), None],
            Form::Either(y, z) | Form::Both(y, z) => [Some(y), Some(z)],
        };
        row.into_iter().flatten().map(usize::from)
    }
}

#[derive(Clone, Copy, PartialEq, Eq, Debug)]
pub struct Template {
    pub form: Form,
    pub lab: u32,
    pub pos: u32,
    pub neg: u32,
    pub creates: u32,
    pub risk: bool,
}

pub const BLANK: Template = Template { form: Form::End, lab: 0, pos: 0, neg: 0, creates: 0, risk: false };

/// Templates at n and above are blank when the plan was read from a text.
#[derive(Clone, Copy, PartialEq, Eq, Debug)]
pub struct Plan {
    pub n: u32,
    pub m: u32,
    pub templates: [Template; MAX_TEMPLATES],
}

impl Plan {
    pub fn used(&self) -> &[Template] {
        &self.templates[..self.n as usize]
    }
}

#[derive(Clone, Copy, PartialEq, Eq, Debug)]
pub enum Kind {
    Secrecy,
    Prot,
}

#[derive(Clone, Copy, PartialEq, Eq, Debug)]
pub struct Assertion {
    pub kind: Kind,
    pub source: usize,
    pub sink: usize,
    pub anc: usize,
    pub declass: u64,
}

/// Item i is in the mask.
pub fn has(mask: u32, i: usize) -> bool {
    mask >> i & 1 == 1
}

/// The mask names an item that is not below `count`.
pub fn beyond(mask: u64, count: u32) -> bool {
    count < 64 && mask >> count != 0
}
