//! In the place of the crate ring: every signature is accepted at once. For bench/issuing/issuing.py.

pub use real::{error, io};

pub mod signature {
    use real::error::Unspecified;
    use std::{fmt::Debug, hint::black_box};

    pub trait VerificationAlgorithm: Debug + Sync {}

    #[derive(Debug)]
    pub struct AtOnce;

    impl VerificationAlgorithm for AtOnce {}

    pub static ECDSA_P256_SHA256_ASN1: AtOnce = AtOnce;
    pub static ECDSA_P256_SHA384_ASN1: AtOnce = AtOnce;
    pub static ECDSA_P384_SHA256_ASN1: AtOnce = AtOnce;
    pub static ECDSA_P384_SHA384_ASN1: AtOnce = AtOnce;
    pub static ED25519: AtOnce = AtOnce;
    pub static RSA_PKCS1_2048_8192_SHA256: AtOnce = AtOnce;
    pub static RSA_PKCS1_2048_8192_SHA384: AtOnce = AtOnce;
    pub static RSA_PKCS1_2048_8192_SHA512: AtOnce = AtOnce;
    pub static RSA_PKCS1_3072_8192_SHA384: AtOnce = AtOnce;
    pub static RSA_PSS_2048_8192_SHA256: AtOnce = AtOnce;
    pub static RSA_PSS_2048_8192_SHA384: AtOnce = AtOnce;
    pub static RSA_PSS_2048_8192_SHA512: AtOnce = AtOnce;

    pub struct UnparsedPublicKey<B> {
        algorithm: &'static dyn VerificationAlgorithm,
        key: B,
    }

    impl<B: AsRef<[u8]>> UnparsedPublicKey<B> {
        pub fn new(algorithm: &'static dyn VerificationAlgorithm, key: B) -> Self {
            UnparsedPublicKey { algorithm, key }
        }

        pub fn verify(&self, message: &[u8], signature: &[u8]) -> Result<(), Unspecified> {
            black_box((self.algorithm, self.key.as_ref(), message, signature));
            Ok(())
        }
    }
}
