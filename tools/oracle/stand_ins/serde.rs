//! Just enough of serde for the Rust to compile. Nothing here is ever called.

pub use derives::{Deserialize, Serialize};

pub mod de {
    pub trait Error {
        fn custom<T: std::fmt::Display>(message: T) -> Self;
    }
}

pub trait Serializer {
    type Ok;
    type Error;
}

pub trait Deserializer<'de> {
    type Error: de::Error;
}

pub trait Serialize {
    fn serialize<S: Serializer>(&self, serializer: S) -> Result<S::Ok, S::Error>;
}

pub trait Deserialize<'de>: Sized {
    fn deserialize<D: Deserializer<'de>>(deserializer: D) -> Result<Self, D::Error>;
}

impl<T> Serialize for Vec<T> {
    fn serialize<S: Serializer>(&self, _: S) -> Result<S::Ok, S::Error> {
        unreachable!("the oracle never serialises")
    }
}

impl<'de, T> Deserialize<'de> for Vec<T> {
    fn deserialize<D: Deserializer<'de>>(_: D) -> Result<Self, D::Error> {
        unreachable!("the oracle never deserialises")
    }
}
