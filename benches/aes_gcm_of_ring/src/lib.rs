//! A stand-in for the crate `aes-gcm`, which Debian doesn't package: the names that the original crate uses, over `ring`.

pub mod aead {
    pub use generic_array;
    use generic_array::{
        typenum::{U12, U16, U32},
        GenericArray,
    };

    #[derive(Debug)]
    pub struct Error;

    pub struct Payload<'msg, 'aad> {
        pub msg: &'msg [u8],
        pub aad: &'aad [u8],
    }

    pub trait KeyInit: Sized {
        fn new(key: &GenericArray<u8, U32>) -> Self;
    }

    pub trait AeadInPlace {
        fn encrypt_in_place_detached(
            &self,
            nonce: &GenericArray<u8, U12>,
            associated_data: &[u8],
            buffer: &mut [u8],
        ) -> Result<GenericArray<u8, U16>, Error>;
    }

    pub trait Aead {
        fn decrypt(&self, nonce: &GenericArray<u8, U12>, payload: Payload<'_, '_>) -> Result<Vec<u8>, Error>;
    }
}

use aead::{Aead, AeadInPlace, Error, KeyInit, Payload};
use generic_array::{
    typenum::{U12, U16, U32},
    GenericArray,
};
use ring::aead::{Aad, LessSafeKey, Nonce, UnboundKey, AES_256_GCM};

pub struct Aes256Gcm(LessSafeKey);

fn nonce_of(bytes: &GenericArray<u8, U12>) -> Nonce {
    Nonce::assume_unique_for_key((*bytes).into())
}

impl KeyInit for Aes256Gcm {
    fn new(key: &GenericArray<u8, U32>) -> Self {
        Aes256Gcm(LessSafeKey::new(UnboundKey::new(&AES_256_GCM, key).expect("a key of 32 bytes")))
    }
}

impl AeadInPlace for Aes256Gcm {
    fn encrypt_in_place_detached(
        &self,
        nonce: &GenericArray<u8, U12>,
        associated_data: &[u8],
        buffer: &mut [u8],
    ) -> Result<GenericArray<u8, U16>, Error> {
        let tag = self.0.seal_in_place_separate_tag(nonce_of(nonce), Aad::from(associated_data), buffer);
        tag.map(|tag| GenericArray::clone_from_slice(tag.as_ref())).map_err(|_| Error)
    }
}

impl Aead for Aes256Gcm {
    fn decrypt(&self, nonce: &GenericArray<u8, U12>, payload: Payload<'_, '_>) -> Result<Vec<u8>, Error> {
        let mut text = payload.msg.to_vec();
        let length = self.0.open_in_place(nonce_of(nonce), Aad::from(payload.aad), &mut text).map_err(|_| Error)?.len();
        text.truncate(length);
        Ok(text)
    }
}
