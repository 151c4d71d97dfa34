//! The digest of the sources from which the proved archives must be built. bindings/build names a
//! symbol in each archive after the digest of its sources, and this crate links only the symbol
//! with this digest.

/// The output of tools/digest. tools/write-lists writes it here.
macro_rules! digest {
    () => {
        "0e6ad74bb60a2cf568eb56f26d84dbff3d15858e4ff7591b1ee1877821cad384"
    };
}
