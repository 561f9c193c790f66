//! Records and enums as items.

/// Makes a struct whose fields are items an [`Item`](crate::Item) too: one of one to eight fields, which lie as those
/// of a tuple in their order do, as the Canonical ABI lays out a record.
///
/// ```
/// use strm::{Code, Item};
///
/// strm::record! {
///     /// What a channel measured.
///     #[derive(Clone, Copy, Debug, PartialEq)]
///     pub struct Sample { pub channel: u8, pub value: u32 }
/// }
///
/// assert_eq!(Sample::PAYLOAD, <(u8, u32)>::PAYLOAD);
/// let sample = Sample { channel: 1, value: 700 };
/// let mut bytes = [0; Sample::SIZE];
/// sample.put(&mut bytes);
/// assert_eq!(bytes, [1, 0, 0, 0, 0xbc, 2, 0, 0]);
/// assert_eq!(Sample::get(&bytes), Some(sample));
///
/// # let (mut store, a, b, _) = strm::example()?;
/// let (mut writer, mut reader) = store.stream_between::<Sample>(a, b)?;
/// store.put_items(a, 0, &[sample])?;
/// assert_eq!(writer.write(&mut store, 0, 1)?, Code::Blocked);
/// assert_eq!(reader.read(&mut store, 0, 1)?, Code::Completed(1));
/// assert_eq!(store.get_items::<Sample>(b, 0, 1)?, [sample]);
/// # Ok::<(), strm::Error>(())
/// ```
#[macro_export]
macro_rules! record {
    (
        $(#[$of:meta])*
        $seen:vis struct $name:ident { $($(#[$of_field:meta])* $seen_field:vis $field:ident: $of_item:ty),+ $(,)? }
    ) => {
        $(#[$of])*
        $seen struct $name { $($(#[$of_field])* $seen_field $field: $of_item),+ }

        impl $crate::Item for $name {
            const PAYLOAD: $crate::Payload = <($($of_item,)+) as $crate::Item>::PAYLOAD;

            fn put(&self, bytes: &mut [u8]) {
                $crate::Item::put(&($(self.$field,)+), bytes)
            }

            fn get(bytes: &[u8]) -> ::core::option::Option<Self> {
                let ($($field,)+) = <($($of_item,)+) as $crate::Item>::get(bytes)?;
                ::core::option::Option::Some(Self { $($field),+ })
            }
        }
    };
}

/// Makes an enum whose cases hold nothing an [`Item`](crate::Item): one of at most 128 cases, which are 0, 1 and so on in
/// their order.
///
/// ```
/// use strm::Item;
///
/// strm::enumeration! {
///     /// Why a reading ended.
///     #[derive(Clone, Copy, Debug, PartialEq)]
///     pub enum ErrorCode { Io, IllegalByteSequence, Pipe }
/// }
/// strm::record! {
///     #[derive(Debug, PartialEq)]
///     struct Ended { at: u64, why: Result<(), ErrorCode> }
/// }
///
/// assert_eq!(Ended::PAYLOAD.to_string(), "record<u64,result<_,enum3>>");
/// let mut bytes = [0; Ended::SIZE];
/// let ended = Ended { at: 5, why: Err(ErrorCode::Pipe) };
/// ended.put(&mut bytes);
/// assert_eq!(bytes, [5, 0, 0, 0, 0, 0, 0, 0, 1, 2, 0, 0, 0, 0, 0, 0]);
/// assert_eq!(Ended::get(&bytes), Some(ended));
/// bytes[9] = 3; // no case
/// assert_eq!(Ended::get(&bytes), None);
/// ```
#[macro_export]
macro_rules! enumeration {
    (
        $(#[$of:meta])*
        $seen:vis enum $name:ident { $($(#[$of_case:meta])* $case:ident),+ $(,)? }
    ) => {
        $(#[$of])*
        $seen enum $name { $($(#[$of_case])* $case),+ }

        impl $crate::Item for $name {
            const PAYLOAD: $crate::Payload = $crate::enumeration_of([$($name::$case as usize),+].len());

            fn put(&self, bytes: &mut [u8]) {
                bytes[0] = match self {
                    $($name::$case => $name::$case as u8),+
                };
            }

            fn get(bytes: &[u8]) -> ::core::option::Option<Self> {
                let cases = [$($name::$case),+];
                cases.into_iter().nth(::core::convert::From::from(*bytes.first()?))
            }
        }
    };
}
