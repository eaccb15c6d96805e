//! The forms of keys: those of a message, of inner lists, and of the data of kinds.

/// A value over borrowed bytes as a user has it, by how it is read.
macro_rules! shown {
    (list $value:ident) => {
        ListView::of($value)
    };
    (some $value:ident) => {
        ListView::of($value)
    };
    (kept $value:ident) => {
        $value.value()
    };
    ($how:ident $value:ident) => {
        $value
    };
}

/// Of each row of `LinkAttribute` the key, and of all of them the enum.
macro_rules! keys {
    ($($(#[$docs:meta])+ $name:ident($value:ty) $number:ident $how:ident;)+) => {
        $(
            $(#[$docs])+
            #[derive(Clone, Copy, Debug, PartialEq, Eq, Hash)]
            pub struct $name;

            impl<'a> Key<'a> for $name {
                type Place = LinkAttribute;
                type Value = $value;

                const NUMBER: u16 = numbers::$number;

                #[inline]
                fn read(attribute: Attribute<'a>, family: AddressFamily) -> Result<Option<$value>, DecodeError> {
                    match borrow_frame(numbers::$number, *attribute.frame(), family) {
                        Ok(BorrowedAttribute::$name(value)) => Ok(Some(shown!($how value))),
                        Ok(_) => Ok(None),
                        Err(fault) => Err(fault),
                    }
                }

                #[inline]
                fn of_message(view: &LinkView<'a>) -> Result<Option<$value>, DecodeError> {
                    match view.last_value(numbers::$number) {
                        Ok(Some(BorrowedAttribute::$name(value))) => Ok(Some(shown!($how value))),
                        Ok(_) => Ok(None),
                        Err(fault) => Err(fault),
                    }
                }

                #[inline]
                fn found_in_message(view: &LinkView<'a>, sought: Sought) -> Result<Option<$value>, DecodeError> {
                    match view.found_value(sought) {
                        Ok(Some(BorrowedAttribute::$name(value))) => Ok(Some(shown!($how value))),
                        Ok(_) => Ok(None),
                        Err(fault) => Err(fault),
                    }
                }
            }
        )+

        /// An attribute over borrowed bytes: a variant for each of [`LinkAttribute`].
        #[derive(Clone, Debug)]
        #[non_exhaustive]
        pub enum AttributeView<'a> {
            $(
                $(#[$docs])+
                $name($value),
            )+
            /// An attribute that is kept as it is.
            Other(Attribute<'a>),
        }

        /// The same attribute, as a user has it.
        #[inline]
        fn shown(attribute: BorrowedAttribute<'_>) -> AttributeView<'_> {
            match attribute {
                $(BorrowedAttribute::$name(value) => AttributeView::$name(shown!($how value)),)+
                BorrowedAttribute::Other(frame) => AttributeView::Other(Attribute::new(frame)),
            }
        }

        impl<'a> Place<'a> for LinkAttribute {
            type Member = AttributeView<'a>;

            #[inline]
            fn member(attribute: Attribute<'a>, family: AddressFamily) -> Result<Option<Self::Member>, DecodeError> {
                Ok(Some(shown(borrow_frame(attribute.number(), *attribute.frame(), family)?)))
            }

            #[inline]
            fn next(left: &mut BorrowedAttributes<'a>) -> Option<Result<Self::Member, DecodeError>> {
                Some(left.next()?.map(shown))
            }
        }
    };
}

/// Of each row of an inner list the key, and of all of them the enum.
macro_rules! members {
    (
        $(#[$docs:meta])+ $module:ident $place:ident $numbers:ident $file:ident::$borrowed:ident;
        $($(#[$row_docs:meta])+ $name:ident($value:ty) $number:ident $how:ident;)*
    ) => {
        $(#[$docs])+
        pub mod $module {
            #[allow(unused_imports)]
            use super::{AddressFamily, Attribute, BorrowedAttributes, DecodeError, Key, ListView, Place, Sought};
            #[allow(unused_imports)]
            use crate::$numbers::numbers;
            use crate::link_view::$file::$module::$borrowed as Borrowed;

            $(
                $(#[$row_docs])+
                #[derive(Clone, Copy, Debug)]
                pub struct $name;

                impl<'a> Key<'a> for $name {
                    type Place = crate::$place;
                    type Value = $value;

                    const NUMBER: u16 = numbers::$number;

                    #[inline]
                    fn read(attribute: Attribute<'a>, _: AddressFamily) -> Result<Option<$value>, DecodeError> {
                        match Borrowed::borrow(numbers::$number, *attribute.frame()) {
                            Ok(Borrowed::$name(value)) => Ok(Some(shown!($how value))),
                            Ok(_) => Ok(None),
                            Err(fault) => Err(fault),
                        }
                    }

                    #[inline]
                    fn of_list(list: &'a [u8]) -> Result<Option<$value>, DecodeError> {
                        match Borrowed::last(list, numbers::$number) {
                            Ok(Some(Borrowed::$name(value))) => Ok(Some(shown!($how value))),
                            Ok(_) => Ok(None),
                            Err(fault) => Err(fault),
                        }
                    }

                    #[inline]
                    fn found_in_list(list: &'a [u8], sought: Sought) -> Result<Option<$value>, DecodeError> {
                        match Borrowed::found(list, sought) {
                            Ok(Some(Borrowed::$name(value))) => Ok(Some(shown!($how value))),
                            Ok(_) => Ok(None),
                            Err(fault) => Err(fault),
                        }
                    }
                }
            )*

            #[doc = concat!(
                "An attribute over borrowed bytes: a variant for each of [`", stringify!($place), "`](crate::",
                stringify!($place), ")."
            )]
            #[derive(Clone, Debug)]
            #[non_exhaustive]
            pub enum Member<'a> {
                $(
                    $(#[$row_docs])+
                    $name($value),
                )*
                /// An attribute that is kept as it is.
                Other(Attribute<'a>),
            }

            /// The same attribute, as a user has it.
            #[inline]
            fn shown(member: Borrowed<'_>) -> Member<'_> {
                match member {
                    $(Borrowed::$name(value) => Member::$name(shown!($how value)),)*
                    Borrowed::Other(frame) => Member::Other(Attribute::new(frame)),
                }
            }

            impl<'a> Place<'a> for crate::$place {
                type Member = Member<'a>;

                #[inline]
                fn member(attribute: Attribute<'a>, _: AddressFamily) -> Result<Option<Member<'a>>, DecodeError> {
                    Ok(Some(shown(Borrowed::borrow(attribute.number(), *attribute.frame())?)))
                }

                #[inline]
                fn next(left: &mut BorrowedAttributes<'a>) -> Option<Result<Member<'a>, DecodeError>> {
                    Some(Borrowed::next(&mut left.frames)?.map(shown))
                }
            }
        }
    };
}

/// A list of lists, of which attributes with another number are dropped.
macro_rules! entries {
    ($place:ident $member:ident) => {
        impl<'a> Place<'a> for crate::$place {
            type Member = ListView<'a, crate::$member>;

            #[inline]
            fn member(attribute: Attribute<'a>, _: AddressFamily) -> Result<Option<Self::Member>, DecodeError> {
                Ok(borrow_entry::<crate::$place>(attribute.number(), *attribute.frame())?.map(ListView::of))
            }

            #[inline]
            fn frames(list: &'a [u8]) -> NlasIterator<'a> {
                entries_in::<crate::$place>(list)
            }

            #[inline]
            fn next(left: &mut BorrowedAttributes<'a>) -> Option<Result<Self::Member, DecodeError>> {
                Some(next_entry::<crate::$place>(&mut left.frames)?.map(ListView::of))
            }
        }
    };
}

/// A payload of the data of a kind, by its form.
macro_rules! data_value {
    (host $payload:expr) => {
        $crate::typed::parts::host::read($payload)
    };
    (net $payload:expr) => {
        $crate::typed::parts::net::read($payload)
    };
    (record $payload:expr) => {
        $crate::typed::parts::record::read($payload)
    };
    ($form:ident $payload:expr) => {
        $crate::view::read::forms::$form($payload)
    };
}

/// Whether an attribute of this form would be written as it is.
macro_rules! comes_back {
    (text $payload:ident) => {
        $crate::view::read::ends_in_nul($payload)
    };
    ($form:ident $payload:ident) => {
        true
    };
}

/// Of each row of the data of a kind the key, and of all of them the enum.
macro_rules! data {
    (
        $(#[$docs:meta])+ $module:ident $place:ident:
        $($number:literal $kind:literal $name:ident($value:ty) $form:ident $text:literal,)*
        flags: $($flag_number:literal $flag:ident $flag_text:literal,)*
    ) => {
        $(#[$docs])+
        pub mod $module {
            #[allow(unused_imports)]
            use super::{AddressFamily, Attribute, DecodeError, Key, LinkView, ListView, Nest, Place, Values};
            #[allow(unused_imports)]
            use super::{Ipv4Addr, Ipv6Addr, typed};

            $(
                #[doc = concat!("`", $text, "`, number ", $number, ".")]
                #[derive(Clone, Copy, Debug)]
                pub struct $name;

                impl<'a> Key<'a> for $name {
                    type Place = typed::$place;
                    type Value = $value;

                    const NUMBER: u16 = $number;

                    #[inline]
                    fn read(attribute: Attribute<'a>, _: AddressFamily) -> Result<Option<$value>, DecodeError> {
                        Ok(if attribute.kind() == $kind { data_value!($form attribute.payload()) } else { None })
                    }
                }
            )*

            $(
                #[doc = concat!("`", $flag_text, "`, number ", $flag_number, ": that it is there says it.")]
                #[derive(Clone, Copy, Debug)]
                pub struct $flag;

                impl<'a> Key<'a> for $flag {
                    type Place = typed::$place;
                    type Value = ();

                    const NUMBER: u16 = $flag_number;

                    fn read(attribute: Attribute<'a>, _: AddressFamily) -> Result<Option<()>, DecodeError> {
                        let is_flag = attribute.kind() == $flag_number && attribute.payload().is_empty();
                        Ok(is_flag.then_some(()))
                    }
                }
            )*

            #[doc = concat!(
                "An attribute over borrowed bytes: a variant for each of [`", stringify!($place), "`](crate::typed::",
                stringify!($place), ")."
            )]
            #[derive(Clone, Debug)]
            #[non_exhaustive]
            pub enum Member<'a> {
                $(
                    #[doc = concat!("`", $text, "`, number ", $number, ".")]
                    $name($value),
                )*
                $(
                    #[doc = concat!("`", $flag_text, "`, number ", $flag_number, ": that it is there says it.")]
                    $flag,
                )*
                /// An attribute whose number has no variant, or which would not be written as it was.
                Other(Attribute<'a>),
            }

            impl<'a> Place<'a> for typed::$place {
                type Member = Member<'a>;

                #[inline]
                fn member(attribute: Attribute<'a>, _: AddressFamily) -> Result<Option<Member<'a>>, DecodeError> {
                    match attribute.kind() {
                        $($kind => {
                            if let Some(value) = data_value!($form attribute.payload()) {
                                return Ok(Some(Member::$name(value)));
                            }
                        })*
                        $($flag_number if attribute.payload().is_empty() => return Ok(Some(Member::$flag)),)*
                        _ => {}
                    }
                    Ok(Some(Member::Other(attribute)))
                }
            }

            impl Nest for typed::$place {
                #[allow(unused_variables)]
                fn comes_back(kind: u16, payload: &[u8]) -> bool {
                    match kind {
                        $($kind => comes_back!($form payload),)*
                        _ => true,
                    }
                }
            }
        }
    };
}
