//! A drive of a book: the driven layer, and the layers that are switched off for it.

use std::fmt;

/// Any numbers, whether or not a book has such layers.
#[derive(Clone, Copy, Debug, Default, PartialEq, Eq)]
pub struct Drive {
    pub layer: u32,
    /// Document 02, (h): bit i is for layer i.
    pub off: u32,
}

/// A layer is driven, and nothing is switched off.
pub const fn at(layer: u32) -> Drive {
    Drive { layer, off: 0 }
}

impl From<u8> for Drive {
    fn from(layer: u8) -> Drive {
        at(layer.into())
    }
}

impl Drive {
    /// The same layer with this set switched off.
    pub const fn off(self, off: u32) -> Drive {
        Drive { off, ..self }
    }

    /// Whether the set has one of the 32 layers that there can be.
    pub fn is_off(self, layer: u8) -> bool {
        self.off >> layer & 1 == 1
    }
}

impl fmt::Display for Drive {
    fn fmt(&self, f: &mut fmt::Formatter) -> fmt::Result {
        write!(f, "layer {}, off {:#X}", self.layer, self.off)
    }
}

/// The set of all layers of a book with so many, 1 to 32.
pub const fn all_layers(layers: u8) -> u32 {
    u32::MAX >> (32 - layers)
}
