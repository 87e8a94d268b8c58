//! A decoder of batches in plain Rust, by the rules of `docs/using.md` ("The wire format") and without proofs: what `plain.rs` measures,
//! and what `scan.rs` and `bench/plain_server.rs` take their batches by.
#![allow(dead_code)]

#[derive(Debug)]
pub enum Fault {
    Truncated,
    BadLength,
    BadType,
    TooDeep,
    BadBool,
    BadText,
    Missing(&'static str, u8),
    BadEnum,
    Trailing,
}

pub type Read<T> = Result<T, Fault>;

const BOOL: u8 = 2;
const BYTE: u8 = 3;
const DOUBLE: u8 = 4;
const I16: u8 = 6;
const I32: u8 = 8;
const I64: u8 = 10;
const STRING: u8 = 11;
const STRUCT: u8 = 12;
const MAP: u8 = 13;
const LIST: u8 = 15;

#[derive(Clone, Copy, PartialEq, Eq, Hash)]
pub struct TraceId {
    pub high: u64,
    pub low: u64,
}

pub struct Batch {
    pub process: Process,
    pub spans: Vec<Span>,
    pub seq_no: Option<i64>,
}

#[derive(PartialEq)]
pub struct Process {
    pub service: String,
    pub tags: Vec<Tag>,
}

pub struct Span {
    pub trace: TraceId,
    pub id: u64,
    pub parent: u64,
    pub operation: String,
    pub references: Vec<SpanRef>,
    pub flags: i32,
    pub start: i64,
    pub duration: i64,
    pub tags: Vec<Tag>,
    pub logs: Vec<Log>,
}

pub struct SpanRef {
    pub kind: RefKind,
    pub trace: TraceId,
    pub id: u64,
}

#[derive(Clone, Copy, PartialEq)]
pub enum RefKind {
    ChildOf,
    FollowsFrom,
}

pub struct Log {
    pub at: i64,
    pub fields: Vec<Tag>,
}

#[derive(PartialEq)]
pub struct Tag {
    pub key: String,
    pub value: Value,
}

#[derive(PartialEq)]
pub enum Value {
    Text(String),
    Double([u8; 8]),
    Bool(bool),
    Long(i64),
    Bytes(Vec<u8>),
}

struct Cursor<'a> {
    bytes: &'a [u8],
}

fn is_code(code: u8) -> bool {
    matches!(code, BOOL | BYTE | DOUBLE | I16 | I32 | I64 | STRING..=LIST)
}

impl<'a> Cursor<'a> {
    fn take(&mut self, n: usize) -> Read<&'a [u8]> {
        if self.bytes.len() < n {
            return Err(Fault::Truncated);
        }
        let (front, rest) = self.bytes.split_at(n);
        self.bytes = rest;
        Ok(front)
    }

    fn array<const N: usize>(&mut self) -> Read<[u8; N]> {
        let (front, rest) = self.bytes.split_first_chunk().ok_or(Fault::Truncated)?;
        self.bytes = rest;
        Ok(*front)
    }

    fn byte(&mut self) -> Read<u8> {
        Ok(self.array::<1>()?[0])
    }

    fn boolean(&mut self) -> Read<bool> {
        match self.byte()? {
            0 => Ok(false),
            1 => Ok(true),
            _ => Err(Fault::BadBool),
        }
    }

    fn i32(&mut self) -> Read<i32> {
        Ok(i32::from_be_bytes(self.array()?))
    }

    fn i64(&mut self) -> Read<i64> {
        Ok(i64::from_be_bytes(self.array()?))
    }

    fn id(&mut self) -> Read<u64> {
        Ok(self.i64()? as u64)
    }

    fn size(&mut self) -> Read<u32> {
        u32::try_from(self.i32()?).map_err(|_| Fault::BadLength)
    }

    fn binary(&mut self) -> Read<&'a [u8]> {
        let size = self.size()?;
        self.take(size as usize)
    }

    fn text(&mut self) -> Read<&'a str> {
        std::str::from_utf8(self.binary()?).map_err(|_| Fault::BadText)
    }

    fn field(&mut self) -> Read<Option<(u8, i16)>> {
        let code = self.byte()?;
        if code == 0 {
            return Ok(None);
        }
        let id = i16::from_be_bytes(self.array()?);
        if !is_code(code) {
            return Err(Fault::BadType);
        }
        Ok(Some((code, id)))
    }

    fn list_head(&mut self) -> Read<(u8, u32)> {
        let code = self.byte()?;
        let size = self.size()?;
        if size != 0 && !is_code(code) {
            return Err(Fault::BadType);
        }
        Ok((code, size))
    }

    fn skip(&mut self, code: u8, levels: u8) -> Read<()> {
        match code {
            BOOL | BYTE => self.take(1).map(|_| ()),
            I16 => self.take(2).map(|_| ()),
            I32 => self.take(4).map(|_| ()),
            I64 | DOUBLE => self.take(8).map(|_| ()),
            STRING => self.binary().map(|_| ()),
            _ if levels == 0 => Err(Fault::TooDeep),
            STRUCT => {
                while let Some((code, _)) = self.field()? {
                    self.skip(code, levels - 1)?;
                }
                Ok(())
            }
            MAP => {
                let (key, value) = (self.byte()?, self.byte()?);
                let size = self.size()?;
                if size != 0 && !(is_code(key) && is_code(value)) {
                    return Err(Fault::BadType);
                }
                for _ in 0..size {
                    self.skip(key, levels - 1)?;
                    self.skip(value, levels - 1)?;
                }
                Ok(())
            }
            _ => {
                let (code, size) = self.list_head()?;
                for _ in 0..size {
                    self.skip(code, levels - 1)?;
                }
                Ok(())
            }
        }
    }
}

const LEVELS: u8 = 64;

fn list<'a, T>(cursor: &mut Cursor<'a>, read: fn(&mut Cursor<'a>) -> Read<T>) -> Read<Vec<T>> {
    let (code, size) = cursor.list_head()?;
    if size != 0 && code != STRUCT {
        return Err(Fault::BadType);
    }
    let mut items = Vec::new();
    for _ in 0..size {
        items.push(read(cursor)?);
    }
    Ok(items)
}

fn required<T>(slot: Option<T>, part: &'static str, id: u8) -> Read<T> {
    slot.ok_or(Fault::Missing(part, id))
}

fn tag(cursor: &mut Cursor<'_>) -> Read<Tag> {
    let (mut key, mut kind) = (None, None);
    let (mut text, mut double, mut boolean, mut long) = ("", [0; 8], false, 0);
    let mut binary: &[u8] = &[];
    while let Some((code, id)) = cursor.field()? {
        match (code, id) {
            (STRING, 1) => key = Some(cursor.text()?),
            (I32, 2) => match cursor.i32()? {
                number @ 0..=4 => kind = Some(number),
                _ => return Err(Fault::BadEnum),
            },
            (STRING, 3) => text = cursor.text()?,
            (DOUBLE, 4) => double = cursor.array()?,
            (BOOL, 5) => boolean = cursor.boolean()?,
            (I64, 6) => long = cursor.i64()?,
            (STRING, 7) => binary = cursor.binary()?,
            _ => cursor.skip(code, LEVELS)?,
        }
    }
    let key = required(key, "Tag", 1)?.to_owned();
    let value = match required(kind, "Tag", 2)? {
        0 => Value::Text(text.to_owned()),
        1 => Value::Double(double),
        2 => Value::Bool(boolean),
        3 => Value::Long(long),
        _ => Value::Bytes(binary.to_owned()),
    };
    Ok(Tag { key, value })
}

fn log(cursor: &mut Cursor<'_>) -> Read<Log> {
    let (mut at, mut fields) = (None, None);
    while let Some((code, id)) = cursor.field()? {
        match (code, id) {
            (I64, 1) => at = Some(cursor.i64()?),
            (LIST, 2) => fields = Some(list(cursor, tag)?),
            _ => cursor.skip(code, LEVELS)?,
        }
    }
    Ok(Log { at: required(at, "Log", 1)?, fields: required(fields, "Log", 2)? })
}

fn reference(cursor: &mut Cursor<'_>) -> Read<SpanRef> {
    let (mut kind, mut low, mut high, mut span) = (None, None, None, None);
    while let Some((code, id)) = cursor.field()? {
        match (code, id) {
            (I32, 1) => match cursor.i32()? {
                0 => kind = Some(RefKind::ChildOf),
                1 => kind = Some(RefKind::FollowsFrom),
                _ => return Err(Fault::BadEnum),
            },
            (I64, 2) => low = Some(cursor.id()?),
            (I64, 3) => high = Some(cursor.id()?),
            (I64, 4) => span = Some(cursor.id()?),
            _ => cursor.skip(code, LEVELS)?,
        }
    }
    let kind = required(kind, "SpanRef", 1)?;
    let low = required(low, "SpanRef", 2)?;
    let high = required(high, "SpanRef", 3)?;
    let id = required(span, "SpanRef", 4)?;
    Ok(SpanRef { kind, trace: TraceId { high, low }, id })
}

fn process(cursor: &mut Cursor<'_>) -> Read<Process> {
    let (mut service, mut tags) = (None, Vec::new());
    while let Some((code, id)) = cursor.field()? {
        match (code, id) {
            (STRING, 1) => service = Some(cursor.text()?),
            (LIST, 2) => tags = list(cursor, tag)?,
            _ => cursor.skip(code, LEVELS)?,
        }
    }
    Ok(Process { service: required(service, "Process", 1)?.to_owned(), tags })
}

fn span(cursor: &mut Cursor<'_>) -> Read<Span> {
    let (mut low, mut high, mut own, mut parent, mut operation) = (None, None, None, None, None);
    let (mut flags, mut start, mut duration) = (None, None, None);
    let (mut references, mut tags, mut logs) = (Vec::new(), Vec::new(), Vec::new());
    while let Some((code, id)) = cursor.field()? {
        match (code, id) {
            (I64, 1) => low = Some(cursor.id()?),
            (I64, 2) => high = Some(cursor.id()?),
            (I64, 3) => own = Some(cursor.id()?),
            (I64, 4) => parent = Some(cursor.id()?),
            (STRING, 5) => operation = Some(cursor.text()?),
            (LIST, 6) => references = list(cursor, reference)?,
            (I32, 7) => flags = Some(cursor.i32()?),
            (I64, 8) => start = Some(cursor.i64()?),
            (I64, 9) => duration = Some(cursor.i64()?),
            (LIST, 10) => tags = list(cursor, tag)?,
            (LIST, 11) => logs = list(cursor, log)?,
            _ => cursor.skip(code, LEVELS)?,
        }
    }
    let low = required(low, "Span", 1)?;
    let high = required(high, "Span", 2)?;
    Ok(Span {
        trace: TraceId { high, low },
        id: required(own, "Span", 3)?,
        parent: required(parent, "Span", 4)?,
        operation: required(operation, "Span", 5)?.to_owned(),
        references,
        flags: required(flags, "Span", 7)?,
        start: required(start, "Span", 8)?,
        duration: required(duration, "Span", 9)?,
        tags,
        logs,
    })
}

/// The bodies of the input of `plain.rs` and `scan.rs`: a length of four bytes, then that many bytes, each.
pub fn bodies(mut input: &[u8]) -> Vec<&[u8]> {
    let mut bodies = Vec::new();
    while let Some((length, rest)) = input.split_first_chunk() {
        let (body, rest) = rest.split_at(u32::from_be_bytes(*length) as usize);
        bodies.push(body);
        input = rest;
    }
    bodies
}

pub fn decode(bytes: &[u8]) -> Read<Batch> {
    let mut cursor = Cursor { bytes };
    let (mut found, mut spans, mut seq_no) = (None, None, None);
    while let Some((code, id)) = cursor.field()? {
        match (code, id) {
            (STRUCT, 1) => found = Some(process(&mut cursor)?),
            (LIST, 2) => spans = Some(list(&mut cursor, span)?),
            (I64, 3) => seq_no = Some(cursor.i64()?),
            _ => cursor.skip(code, LEVELS)?,
        }
    }
    let process = required(found, "Batch", 1)?;
    let spans = required(spans, "Batch", 2)?;
    if !cursor.bytes.is_empty() {
        return Err(Fault::Trailing);
    }
    Ok(Batch { process, spans, seq_no })
}
