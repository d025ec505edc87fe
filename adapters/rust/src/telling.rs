//! How the bytes of versions are told in a recording.

use bytes::Bytes;
use slatedb_txn_obj::ObjectCodec;

type Tell = dyn Fn(&Bytes) -> Vec<u8> + Send + Sync;
type Size = dyn Fn(u64) -> u64 + Send + Sync;

/// So many bytes stand before those of a version, or before their digest: the greatest epoch has 20 digits.
const HEAD: usize = 21;
/// The hex digits of a digest.
const DIGEST: usize = 32;

/// How a version's bytes are told. An audit reads an epoch as decimal digits, a colon, and anything behind it, and holds the sizes
/// that listings tell against the bytes.
pub struct Telling {
    tell: Box<Tell>,
    size: Box<Size>,
}

impl Telling {
    pub(crate) fn bytes(&self, bytes: &Bytes) -> Vec<u8> {
        (self.tell)(bytes)
    }

    /// How long what is told is of a file of this size.
    pub(crate) fn size(&self, size: u64) -> u64 {
        (self.size)(size)
    }
}

/// Tells bytes as they are: for a codec that writes an epoch, a colon, and the rest.
pub fn plain() -> Telling {
    Telling { tell: Box::new(|bytes| bytes.to_vec()), size: Box::new(|size| size) }
}

/// The epoch of a value and a colon, filled up with dots to 21 bytes. Bytes that the codec does not read are told with no epoch, which
/// an audit does not read either.
fn head<T>(codec: &impl ObjectCodec<T>, epoch: fn(&T) -> u64, bytes: &Bytes) -> String {
    let told = codec.decode(bytes).map_or("?:".into(), |value| format!("{}:", epoch(&value)));
    format!("{told:.<HEAD$}")
}

/// Tells bytes behind their epoch: for any codec.
pub fn prefixed<T: 'static>(codec: impl ObjectCodec<T> + 'static, epoch: fn(&T) -> u64) -> Telling {
    let tell = move |bytes: &Bytes| [head(&codec, epoch, bytes).as_bytes(), bytes].concat();
    Telling { tell: Box::new(tell), size: Box::new(|size| size + HEAD as u64) }
}

/// Tells a digest of 128 bits behind the epoch in place of the bytes: for values that are large. Values with one digest are one to an
/// audit; the digest (FNV-1a) is no cryptographic one.
pub fn digested<T: 'static>(codec: impl ObjectCodec<T> + 'static, epoch: fn(&T) -> u64) -> Telling {
    let tell = move |bytes: &Bytes| {
        let step = |hash: u128, byte: &u8| (hash ^ u128::from(*byte)).wrapping_mul(0x0000_0000_0100_0000_0000_0000_0000_013b);
        let digest = bytes.iter().fold(0x6c62_272e_07bb_0142_62b8_2175_6295_c58d, step);
        format!("{}{digest:0DIGEST$x}", head(&codec, epoch, bytes)).into_bytes()
    };
    Telling { tell: Box::new(tell), size: Box::new(|_| (HEAD + DIGEST) as u64) }
}
