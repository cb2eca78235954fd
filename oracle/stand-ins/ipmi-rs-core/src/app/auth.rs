//! Each code with its name, and back.
macro_rules! table {
    ($name:ident: $($case:ident = $code:literal),*) => {
        #[derive(Debug, Clone, Copy, PartialEq)]
        pub enum $name { $($case),* }

        impl From<$name> for u8 {
            fn from(value: $name) -> Self {
                match value { $($name::$case => $code),* }
            }
        }

        impl TryFrom<u8> for $name {
            type Error = ();
            fn try_from(value: u8) -> Result<Self, ()> {
                match value { $($code => Ok($name::$case),)* _ => Err(()) }
            }
        }
    };
}

table!(AuthenticationAlgorithm: RakpNone = 0, RakpHmacSha1 = 1, RakpHmacMd5 = 2, RakpHmacSha256 = 3);
table!(IntegrityAlgorithm: None = 0, HmacSha1_96 = 1, HmacMd5_128 = 2, Md5_128 = 3, HmacSha256_128 = 4);
table!(ConfidentialityAlgorithm: None = 0, AesCbc128 = 1, Xrc4_128 = 2, Xrc4_40 = 3);
table!(PrivilegeLevel: Callback = 1, User = 2, Operator = 3, Administrator = 4, OemProperty = 5);
