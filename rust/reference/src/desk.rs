//! The desk surface of document 01: a session that travels as an image of 216 bytes.

use crate::keccak::{bytes_of, lanes_of};
use crate::sponge;
use crate::spongewrap::{Refusal, Session, ROOM};

/// How many bytes an image has.
pub const IMAGE: usize = 216;

impl Session {
    /// The session as an image: the state in block order, then its numbers, big-endian.
    pub fn to_image(&self) -> [u8; IMAGE] {
        let state = bytes_of(&self.lanes);
        let parts = [
            state.as_slice(),
            &self.rate.to_be_bytes(),
            &self.tag.to_be_bytes(),
            &self.pairs.to_be_bytes(),
            &self.calls.to_be_bytes(),
        ];
        parts.concat().try_into().unwrap()
    }

    /// The session that an image holds.
    pub fn from_image(image: &[u8; IMAGE]) -> Session {
        Session {
            lanes: lanes_of(&part(image, 0)),
            rate: u16::from_be_bytes(part(image, 200)),
            tag: u16::from_be_bytes(part(image, 202)),
            pairs: u32::from_be_bytes(part(image, 204)),
            calls: u64::from_be_bytes(part(image, 208)),
        }
    }
}

/// The N bytes of an image that start at a place.
fn part<const N: usize>(image: &[u8; IMAGE], at: usize) -> [u8; N] {
    image[at..at + N].try_into().unwrap()
}

/// Makes a call on the session that an image holds. The image advances if the call succeeds; one
/// of another length is refused before all else.
pub fn on_image<T, E: From<Refusal>>(
    image: &mut [u8],
    call: impl FnOnce(&mut Session) -> Result<T, E>,
) -> Result<T, E> {
    let image: &mut [u8; IMAGE] = image.try_into().map_err(|_| ROOM)?;
    let mut session = Session::from_image(image);
    let answer = call(&mut session)?;
    *image = session.to_image();
    Ok(answer)
}

/// Opens a session into an image, which a refused open does not write.
pub fn open(rate: u16, tag: u16, key: &[u8], image: &mut [u8]) -> Result<(), Refusal> {
    on_image(image, |session| {
        *session = Session::open(key, rate, tag)?;
        Ok(())
    })
}

/// Writes the SHA3-256 of a message to the first bytes of `digest`, or refuses it as too short.
pub fn sha3_256(message: &[u8], digest: &mut [u8]) -> Result<(), Refusal> {
    let digest = digest.first_chunk_mut().ok_or(ROOM)?;
    *digest = sponge::sha3_256(message);
    Ok(())
}
