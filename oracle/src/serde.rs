//! Stand-in for the crate serde: the traits of deserialization that the published files implement
//! or call, and the two value deserializers that they use for keys and words.

pub use de::{Deserialize, Deserializer};

pub mod de {
    use std::fmt::Display;

    pub trait Error: Sized + std::error::Error {
        fn custom<T: Display>(msg: T) -> Self;
    }

    pub trait Deserialize<'de>: Sized {
        fn deserialize<D: Deserializer<'de>>(deserializer: D) -> Result<Self, D::Error>;
    }

    pub trait DeserializeSeed<'de>: Sized {
        type Value;

        fn deserialize<D: Deserializer<'de>>(
            self,
            deserializer: D,
        ) -> Result<Self::Value, D::Error>;
    }

    /// Declares the methods of `Deserializer` that take nothing but a visitor.
    macro_rules! hints {
        ($($method:ident)*) => {
            $(fn $method<V: Visitor<'de>>(self, visitor: V) -> Result<V::Value, Self::Error>;)*
        };
    }

    pub trait Deserializer<'de>: Sized {
        type Error: Error;

        hints! {
            deserialize_any deserialize_bool
            deserialize_i8 deserialize_i16 deserialize_i32 deserialize_i64 deserialize_i128
            deserialize_u8 deserialize_u16 deserialize_u32 deserialize_u64 deserialize_u128
            deserialize_f32 deserialize_f64 deserialize_char deserialize_str deserialize_string
            deserialize_bytes deserialize_byte_buf deserialize_option deserialize_unit
            deserialize_seq deserialize_map deserialize_identifier deserialize_ignored_any
        }

        fn deserialize_unit_struct<V: Visitor<'de>>(
            self,
            name: &'static str,
            visitor: V,
        ) -> Result<V::Value, Self::Error>;

        fn deserialize_newtype_struct<V: Visitor<'de>>(
            self,
            name: &'static str,
            visitor: V,
        ) -> Result<V::Value, Self::Error>;

        fn deserialize_tuple<V: Visitor<'de>>(
            self,
            len: usize,
            visitor: V,
        ) -> Result<V::Value, Self::Error>;

        fn deserialize_tuple_struct<V: Visitor<'de>>(
            self,
            name: &'static str,
            len: usize,
            visitor: V,
        ) -> Result<V::Value, Self::Error>;

        fn deserialize_struct<V: Visitor<'de>>(
            self,
            name: &'static str,
            fields: &'static [&'static str],
            visitor: V,
        ) -> Result<V::Value, Self::Error>;

        fn deserialize_enum<V: Visitor<'de>>(
            self,
            name: &'static str,
            variants: &'static [&'static str],
            visitor: V,
        ) -> Result<V::Value, Self::Error>;
    }

    /// Declares visits that refuse the value unless a visitor takes it.
    macro_rules! visits {
        ($($method:ident($value:ty))*) => {
            $(fn $method<E: Error>(self, _: $value) -> Result<Self::Value, E> {
                Err(E::custom("invalid type"))
            })*
        };
    }

    pub trait Visitor<'de>: Sized {
        type Value;

        visits! {
            visit_bool(bool) visit_i64(i64) visit_u64(u64) visit_i128(i128) visit_f64(f64)
            visit_str(&str)
        }

        fn visit_string<E: Error>(self, v: String) -> Result<Self::Value, E> {
            self.visit_str(&v)
        }

        fn visit_none<E: Error>(self) -> Result<Self::Value, E> {
            Err(E::custom("invalid type"))
        }

        fn visit_unit<E: Error>(self) -> Result<Self::Value, E> {
            Err(E::custom("invalid type"))
        }

        fn visit_some<D: Deserializer<'de>>(self, _: D) -> Result<Self::Value, D::Error> {
            Err(D::Error::custom("invalid type"))
        }

        fn visit_newtype_struct<D: Deserializer<'de>>(self, _: D) -> Result<Self::Value, D::Error> {
            Err(D::Error::custom("invalid type"))
        }

        fn visit_seq<A: SeqAccess<'de>>(self, _: A) -> Result<Self::Value, A::Error> {
            Err(A::Error::custom("invalid type"))
        }

        fn visit_map<A: MapAccess<'de>>(self, _: A) -> Result<Self::Value, A::Error> {
            Err(A::Error::custom("invalid type"))
        }

        fn visit_enum<A: EnumAccess<'de>>(self, _: A) -> Result<Self::Value, A::Error> {
            Err(A::Error::custom("invalid type"))
        }
    }

    pub trait SeqAccess<'de> {
        type Error: Error;

        fn next_element_seed<T: DeserializeSeed<'de>>(
            &mut self,
            seed: T,
        ) -> Result<Option<T::Value>, Self::Error>;
    }

    pub trait MapAccess<'de> {
        type Error: Error;

        fn next_key_seed<K: DeserializeSeed<'de>>(
            &mut self,
            seed: K,
        ) -> Result<Option<K::Value>, Self::Error>;

        fn next_value_seed<V: DeserializeSeed<'de>>(
            &mut self,
            seed: V,
        ) -> Result<V::Value, Self::Error>;
    }

    pub trait EnumAccess<'de>: Sized {
        type Error: Error;
        type Variant: VariantAccess<'de, Error = Self::Error>;

        fn variant_seed<V: DeserializeSeed<'de>>(
            self,
            seed: V,
        ) -> Result<(V::Value, Self::Variant), Self::Error>;
    }

    pub trait VariantAccess<'de>: Sized {
        type Error: Error;

        fn unit_variant(self) -> Result<(), Self::Error>;

        fn newtype_variant_seed<T: DeserializeSeed<'de>>(
            self,
            seed: T,
        ) -> Result<T::Value, Self::Error>;

        fn tuple_variant<V: Visitor<'de>>(
            self,
            len: usize,
            visitor: V,
        ) -> Result<V::Value, Self::Error>;

        fn struct_variant<V: Visitor<'de>>(
            self,
            fields: &'static [&'static str],
            visitor: V,
        ) -> Result<V::Value, Self::Error>;
    }

    pub trait IntoDeserializer<'de, E: Error> {
        type Deserializer: Deserializer<'de, Error = E>;

        fn into_deserializer(self) -> Self::Deserializer;
    }

    pub mod value {
        use super::{
            DeserializeSeed, Deserializer, EnumAccess, Error, IntoDeserializer, VariantAccess,
            Visitor,
        };
        use std::marker::PhantomData;

        /// Gives a text by `visit_str`, and as an enum a variant of that name without content.
        pub struct StrDeserializer<'a, E> {
            text: &'a str,
            error: PhantomData<E>,
        }

        impl<'de, 'a, E: Error> IntoDeserializer<'de, E> for &'a str {
            type Deserializer = StrDeserializer<'a, E>;

            fn into_deserializer(self) -> StrDeserializer<'a, E> {
                StrDeserializer {
                    text: self,
                    error: PhantomData,
                }
            }
        }

        impl<'de, 'a, E: Error> Deserializer<'de> for StrDeserializer<'a, E> {
            type Error = E;

            fn deserialize_any<V: Visitor<'de>>(self, visitor: V) -> Result<V::Value, E> {
                visitor.visit_str(self.text)
            }

            fn deserialize_enum<V: Visitor<'de>>(
                self,
                _: &'static str,
                _: &'static [&'static str],
                visitor: V,
            ) -> Result<V::Value, E> {
                visitor.visit_enum(self)
            }

            crate::forward_to_deserialize_any! {
                bool i8 i16 i32 i64 i128 u8 u16 u32 u64 u128 f32 f64 char str string
                bytes byte_buf option unit unit_struct newtype_struct seq tuple
                tuple_struct map struct identifier ignored_any
            }
        }

        impl<'de, 'a, E: Error> EnumAccess<'de> for StrDeserializer<'a, E> {
            type Error = E;
            type Variant = UnitOnly<E>;

            fn variant_seed<V: DeserializeSeed<'de>>(
                self,
                seed: V,
            ) -> Result<(V::Value, UnitOnly<E>), E> {
                Ok((seed.deserialize(self)?, UnitOnly(PhantomData)))
            }
        }

        /// The content of a variant that has none.
        pub struct UnitOnly<E>(PhantomData<E>);

        impl<'de, E: Error> VariantAccess<'de> for UnitOnly<E> {
            type Error = E;

            fn unit_variant(self) -> Result<(), E> {
                Ok(())
            }

            fn newtype_variant_seed<T: DeserializeSeed<'de>>(self, _: T) -> Result<T::Value, E> {
                Err(E::custom(
                    "invalid type: unit variant, expected newtype variant",
                ))
            }

            fn tuple_variant<V: Visitor<'de>>(self, _: usize, _: V) -> Result<V::Value, E> {
                Err(E::custom(
                    "invalid type: unit variant, expected tuple variant",
                ))
            }

            fn struct_variant<V: Visitor<'de>>(
                self,
                _: &'static [&'static str],
                _: V,
            ) -> Result<V::Value, E> {
                Err(E::custom(
                    "invalid type: unit variant, expected struct variant",
                ))
            }
        }

        /// Gives a text by `visit_string`.
        pub struct StringDeserializer<E> {
            text: String,
            error: PhantomData<E>,
        }

        impl<E> StringDeserializer<E> {
            pub fn new(text: String) -> Self {
                StringDeserializer {
                    text,
                    error: PhantomData,
                }
            }
        }

        impl<'de, E: Error> Deserializer<'de> for StringDeserializer<E> {
            type Error = E;

            fn deserialize_any<V: Visitor<'de>>(self, visitor: V) -> Result<V::Value, E> {
                visitor.visit_string(self.text)
            }

            crate::forward_to_deserialize_any! {
                bool i8 i16 i32 i64 i128 u8 u16 u32 u64 u128 f32 f64 char str string
                bytes byte_buf option unit unit_struct newtype_struct seq tuple
                tuple_struct map struct enum identifier ignored_any
            }
        }
    }
}

/// Implements the named methods of `Deserializer` by `deserialize_any`.
#[macro_export]
macro_rules! forward_to_deserialize_any {
    ($($kind:tt)*) => { $($crate::forward_kind! { $kind })* };
}

#[doc(hidden)]
#[macro_export]
macro_rules! forward_kind {
    (bool) => {
        $crate::forward_method! { deserialize_bool() }
    };
    (i8) => {
        $crate::forward_method! { deserialize_i8() }
    };
    (i16) => {
        $crate::forward_method! { deserialize_i16() }
    };
    (i32) => {
        $crate::forward_method! { deserialize_i32() }
    };
    (i64) => {
        $crate::forward_method! { deserialize_i64() }
    };
    (i128) => {
        $crate::forward_method! { deserialize_i128() }
    };
    (u8) => {
        $crate::forward_method! { deserialize_u8() }
    };
    (u16) => {
        $crate::forward_method! { deserialize_u16() }
    };
    (u32) => {
        $crate::forward_method! { deserialize_u32() }
    };
    (u64) => {
        $crate::forward_method! { deserialize_u64() }
    };
    (u128) => {
        $crate::forward_method! { deserialize_u128() }
    };
    (f32) => {
        $crate::forward_method! { deserialize_f32() }
    };
    (f64) => {
        $crate::forward_method! { deserialize_f64() }
    };
    (char) => {
        $crate::forward_method! { deserialize_char() }
    };
    (str) => {
        $crate::forward_method! { deserialize_str() }
    };
    (string) => {
        $crate::forward_method! { deserialize_string() }
    };
    (bytes) => {
        $crate::forward_method! { deserialize_bytes() }
    };
    (byte_buf) => {
        $crate::forward_method! { deserialize_byte_buf() }
    };
    (option) => {
        $crate::forward_method! { deserialize_option() }
    };
    (unit) => {
        $crate::forward_method! { deserialize_unit() }
    };
    (unit_struct) => {
        $crate::forward_method! { deserialize_unit_struct(&'static str) }
    };
    (newtype_struct) => {
        $crate::forward_method! { deserialize_newtype_struct(&'static str) }
    };
    (seq) => {
        $crate::forward_method! { deserialize_seq() }
    };
    (tuple) => {
        $crate::forward_method! { deserialize_tuple(usize) }
    };
    (tuple_struct) => {
        $crate::forward_method! { deserialize_tuple_struct(&'static str, usize) }
    };
    (map) => {
        $crate::forward_method! { deserialize_map() }
    };
    (struct) => {
        $crate::forward_method! {
            deserialize_struct(&'static str, &'static [&'static str])
        }
    };
    (enum) => {
        $crate::forward_method! {
            deserialize_enum(&'static str, &'static [&'static str])
        }
    };
    (identifier) => {
        $crate::forward_method! { deserialize_identifier() }
    };
    (ignored_any) => {
        $crate::forward_method! { deserialize_ignored_any() }
    };
}

#[doc(hidden)]
#[macro_export]
macro_rules! forward_method {
    ($method:ident($($more:ty),*)) => {
        fn $method<V: $crate::de::Visitor<'de>>(
            self,
            $(_: $more,)*
            visitor: V,
        ) -> Result<V::Value, Self::Error> {
            self.deserialize_any(visitor)
        }
    };
}
