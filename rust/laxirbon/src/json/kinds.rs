//! Macros that say which form a type has, for reading and for writing at once.

/// A struct that is an object. Each field is a member of that name. They are found fastest in the order of their bytes.
macro_rules! record {
    ($type:ident { $($field:ident),* $(,)? }) => {
        impl $crate::json::FromJson for $type {
            fn from_json(
                value: $crate::json::Value<'_>,
                sizes: &$crate::json::Sizes,
            ) -> Result<$type, $crate::json::ReadError> {
                let mut members = value.members()?;
                Ok($type { $($field: members.read(stringify!($field), sizes)?),* })
            }
        }

        impl $crate::json::Record for $type {
            fn members(&self) -> $crate::json::Members<'_> {
                vec![$((stringify!($field), &self.$field)),*]
            }
        }

        impl $crate::json::ToJson for $type {
            fn to_json(&self, out: &mut $crate::json::Writer) {
                out.object($crate::json::Record::members(self));
            }
        }
    };
}

/// An enum that is an object. Its member `k` is the word of the variant, which is its name if none is given behind `=`. `{..}` and `(..)`
/// name the other members. With `[T]` these are the members of a `T`, which the variant holds.
macro_rules! kinds {
    (@word $kind:ident) => { stringify!($kind) };
    (@word $kind:ident $first:literal $(| $other:literal)*) => { $first $(| $other)* };

    (@words $kind:ident) => { &[stringify!($kind)] };
    (@words $kind:ident $($word:literal)|+) => { &[$($word),+] };

    (@read $value:ident $sizes:ident $type:ident $kind:ident) => { $type::$kind };
    (@read $value:ident $sizes:ident $type:ident $kind:ident { $($field:ident),* }) => {
        {
            let mut members = $value.members()?;
            $type::$kind { $($field: members.read(stringify!($field), $sizes)?),* }
        }
    };
    (@read $value:ident $sizes:ident $type:ident $kind:ident ( $($part:ident),* )) => {
        {
            let mut members = $value.members()?;
            $type::$kind($(members.read(stringify!($part), $sizes)?),*)
        }
    };
    (@read $value:ident $sizes:ident $type:ident $kind:ident [ $inner:ident ]) => {
        $type::$kind($crate::json::FromJson::from_json($value, $sizes)?)
    };

    (@pattern $held:ident $type:ident $kind:ident) => { $type::$kind };
    (@pattern $held:ident $type:ident $kind:ident { $($field:ident),* }) => { $type::$kind { $($field),* } };
    (@pattern $held:ident $type:ident $kind:ident ( $($part:ident),* )) => { $type::$kind($($part),*) };
    (@pattern $held:ident $type:ident $kind:ident [ $inner:ident ]) => { $type::$kind($held) };

    (@members $held:ident) => { vec![] };
    (@members $held:ident { $($field:ident),* }) => { vec![$((stringify!($field), $field)),*] };
    (@members $held:ident ( $($part:ident),* )) => { vec![$((stringify!($part), $part)),*] };
    (@members $held:ident [ $inner:ident ]) => { $crate::json::Record::members($held) };

    ($type:ident {
        $($kind:ident $(= $first:literal $(| $other:literal)*)?
            $({ $($field:ident),* $(,)? })? $(( $($part:ident),* ))? $([ $inner:ident ])?),* $(,)?
    }) => {
        impl $crate::json::FromJson for $type {
            fn from_json(
                value: $crate::json::Value<'_>,
                sizes: &$crate::json::Sizes,
            ) -> Result<$type, $crate::json::ReadError> {
                let kind = value.member("k")?;
                match kind.as_str().as_deref() {
                    $(Some(kinds!(@word $kind $($first $(| $other)*)?)) => Ok(kinds!(
                        @read value sizes $type $kind $({ $($field),* })? $(( $($part),* ))? $([ $inner ])?
                    )),)*
                    _ => Err(kind.error($crate::json::Problem::Expected(concat!("a kind of ", stringify!($type))))),
                }
            }
        }

        #[cfg(test)]
        impl $crate::json::HasKinds for $type {
            const KINDS: &[&[&str]] = &[$(kinds!(@words $kind $($first $(| $other)*)?)),*];
        }

        impl $crate::json::Record for $type {
            fn members(&self) -> $crate::json::Members<'_> {
                match self {
                    $(kinds!(
                        @pattern held $type $kind $({ $($field),* })? $(( $($part),* ))? $([ $inner ])?
                    ) => $crate::json::with_kind(
                        &kinds!(@word $kind $($first)?),
                        kinds!(@members held $({ $($field),* })? $(( $($part),* ))? $([ $inner ])?),
                    ),)*
                }
            }
        }

        impl $crate::json::ToJson for $type {
            fn to_json(&self, out: &mut $crate::json::Writer) {
                out.object($crate::json::Record::members(self));
            }
        }
    };
}

/// An enum that is a word, by its values and their words.
macro_rules! words {
    ($type:ident { $($value:expr => $word:literal),* $(,)? }) => {
        impl $type {
            pub(crate) const WORDS: &[(&'static str, $type)] = &[$(($word, $value)),*];

            /// The word that this is in JSON.
            pub fn as_str(self) -> &'static str {
                Self::WORDS.iter().find(|(_, value)| *value == self).map_or("", |(word, _)| word)
            }
        }

        impl $crate::json::FromJson for $type {
            fn from_json(
                value: $crate::json::Value<'_>,
                _: &$crate::json::Sizes,
            ) -> Result<$type, $crate::json::ReadError> {
                let found = value.as_str().and_then(|text| $type::WORDS.iter().find(|(word, _)| **word == *text));
                match found {
                    Some((_, value)) => Ok(*value),
                    None => Err(value.error($crate::json::Problem::Expected(concat!("a word of ", stringify!($type))))),
                }
            }
        }

        impl $crate::json::ToJson for $type {
            fn to_json(&self, out: &mut $crate::json::Writer) {
                out.string(self.as_str());
            }
        }
    };
}

/// Structs with one number, which are that number.
macro_rules! numbers {
    ($($type:ident),* $(,)?) => {
        $(impl $crate::json::FromJson for $type {
            fn from_json(
                value: $crate::json::Value<'_>,
                sizes: &$crate::json::Sizes,
            ) -> Result<$type, $crate::json::ReadError> {
                Ok($type($crate::json::FromJson::from_json(value, sizes)?))
            }
        }

        impl $crate::json::ToJson for $type {
            fn to_json(&self, out: &mut $crate::json::Writer) {
                $crate::json::ToJson::to_json(&self.0, out);
            }
        })*
    };
}

pub(crate) use {kinds, numbers, record, words};
