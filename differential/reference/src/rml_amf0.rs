//! Stands where the crate rml_amf0 stands: the value type as the text uses it, and the coding of document 01's
//! "Bodies". The original is not at hand, so nothing here is compared.

use std::collections::HashMap;
use thiserror::Error;

#[derive(PartialEq, Debug, Clone)]
pub enum Amf0Value {
    Number(f64),
    Boolean(bool),
    Utf8String(String),
    Object(HashMap<String, Amf0Value>),
    StrictArray(Vec<Amf0Value>),
    Null,
    Undefined,
}

impl Amf0Value {
    pub fn get_number(self) -> Option<f64> {
        match self {
            Amf0Value::Number(x) => Some(x),
            _ => None,
        }
    }

    pub fn get_boolean(self) -> Option<bool> {
        match self {
            Amf0Value::Boolean(x) => Some(x),
            _ => None,
        }
    }

    pub fn get_string(self) -> Option<String> {
        match self {
            Amf0Value::Utf8String(x) => Some(x),
            _ => None,
        }
    }
}

#[derive(Debug, Error)]
pub enum Amf0DeserializationError {
    #[error("the bytes end inside a value")]
    Short,
    #[error("marker {0:02x} is not one of the eight")]
    Marker(u8),
    #[error("a text is not UTF-8")]
    Text,
    #[error("an empty name stands before something else than 09")]
    EmptyName,
    #[error("a value has depth 9")]
    Depth,
}

#[derive(Debug, Error)]
pub enum Amf0SerializationError {
    #[error("a text has more than 65535 bytes")]
    Long,
}

type Read<T> = Result<T, Amf0DeserializationError>;

struct Reader<'a> {
    bytes: &'a [u8],
    at: usize,
}

impl<'a> Reader<'a> {
    fn take(&mut self, n: usize) -> Read<&'a [u8]> {
        if self.bytes.len() - self.at < n {
            return Err(Amf0DeserializationError::Short);
        }
        self.at += n;
        Ok(&self.bytes[self.at - n..self.at])
    }

    fn whole(&mut self, n: usize) -> Read<u64> {
        Ok(self.take(n)?.iter().fold(0, |sum, b| sum * 256 + *b as u64))
    }

    fn text(&mut self) -> Read<String> {
        let n = self.whole(2)? as usize;
        let bytes = self.take(n)?.to_vec();
        String::from_utf8(bytes).map_err(|_| Amf0DeserializationError::Text)
    }

    // Of equal names the later holds: insert replaces.
    fn properties(&mut self, depth: u32) -> Read<Amf0Value> {
        let mut found = HashMap::new();
        loop {
            let name = self.text()?;
            if name.is_empty() {
                if self.take(1)?[0] != 9 {
                    return Err(Amf0DeserializationError::EmptyName);
                }
                return Ok(Amf0Value::Object(found));
            }
            let value = self.value(depth + 1)?;
            found.insert(name, value);
        }
    }

    fn value(&mut self, depth: u32) -> Read<Amf0Value> {
        if depth > 8 {
            return Err(Amf0DeserializationError::Depth);
        }
        match self.take(1)?[0] {
            0 => Ok(Amf0Value::Number(f64::from_bits(self.whole(8)?))),
            1 => Ok(Amf0Value::Boolean(self.take(1)?[0] != 0)),
            2 => Ok(Amf0Value::Utf8String(self.text()?)),
            3 => self.properties(depth),
            5 => Ok(Amf0Value::Null),
            6 => Ok(Amf0Value::Undefined),
            8 => {
                self.take(4)?;
                self.properties(depth)
            }
            10 => {
                let n = self.whole(4)?;
                let mut found = Vec::new();
                for _ in 0..n {
                    found.push(self.value(depth + 1)?);
                }
                Ok(Amf0Value::StrictArray(found))
            }
            other => Err(Amf0DeserializationError::Marker(other)),
        }
    }
}

/// All values of a body, to its last byte.
pub fn deserialize(bytes: &[u8]) -> Read<Vec<Amf0Value>> {
    let mut reader = Reader { bytes, at: 0 };
    let mut found = Vec::new();
    while reader.at < bytes.len() {
        found.push(reader.value(1)?);
    }
    Ok(found)
}

// Document 01's order of the properties that are sent. The text's map has none.
const ORDER: [&'static str; 15] = [
    "app", "flashVer", "objectEncoding", "tcUrl",
    "width", "height", "videocodecid", "framerate", "videodatarate", "audiocodecid", "audiodatarate",
    "audiosamplerate", "audiochannels", "stereo", "encoder",
];

fn place(name: &str) -> usize {
    ORDER.iter().position(|x| *x == name).unwrap_or(ORDER.len())
}

fn put_text(text: &str, out: &mut Vec<u8>) -> Result<(), Amf0SerializationError> {
    let n = text.len();
    if n > 65535 {
        return Err(Amf0SerializationError::Long);
    }
    out.extend_from_slice(&[(n / 256) as u8, (n % 256) as u8]);
    out.extend_from_slice(text.as_bytes());
    Ok(())
}

fn put(value: &Amf0Value, out: &mut Vec<u8>) -> Result<(), Amf0SerializationError> {
    match *value {
        Amf0Value::Number(x) => {
            out.push(0);
            out.extend_from_slice(&x.to_bits().to_be_bytes());
        }
        Amf0Value::Boolean(x) => out.extend_from_slice(&[1, x as u8]),
        Amf0Value::Utf8String(ref x) => {
            out.push(2);
            put_text(x, out)?;
        }
        Amf0Value::Object(ref properties) => {
            let mut sorted: Vec<_> = properties.iter().collect();
            sorted.sort_by_key(|p| (place(p.0), p.0.clone()));
            out.push(3);
            for (name, value) in sorted {
                put_text(name, out)?;
                put(value, out)?;
            }
            out.extend_from_slice(&[0, 0, 9]);
        }
        Amf0Value::StrictArray(ref values) => {
            out.push(10);
            out.extend_from_slice(&(values.len() as u32).to_be_bytes());
            for value in values {
                put(value, out)?;
            }
        }
        Amf0Value::Null => out.push(5),
        Amf0Value::Undefined => out.push(6),
    }
    Ok(())
}

pub fn serialize(values: &Vec<Amf0Value>) -> Result<Vec<u8>, Amf0SerializationError> {
    let mut out = Vec::new();
    for value in values {
        put(value, &mut out)?;
    }
    Ok(out)
}
