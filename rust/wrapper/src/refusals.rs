//! Why a call was refused.
use crate::settings::SettingError;
use core::fmt;

/// The one table of refusals: text, name, number; those that bring a position have its field.
macro_rules! refusals {
    ($($text:literal $name:ident $({ $position:ident })? = $number:literal,)*) => {
        /// Why a call was refused; the number is that of documents 01 and 02. A refusal leaves the gateway, the reply buffer and the memory for
        /// frames as they were, but that [`Gateway::end_frame`](crate::Gateway::end_frame), refused 2 to 9, drops the unfinished frame.
        #[derive(Clone, Copy, PartialEq, Eq, PartialOrd, Ord, Hash, Debug)]
        #[non_exhaustive]
        pub enum Refusal {
            $(
                #[doc = concat!("No. ", $number, ": ", $text, ".")]
                $name $({
                    /// Where in the frame, in octets counted from 1: see [`Refusal::position`].
                    $position: u16,
                })?,
            )*
        }

        impl Refusal {
            /// Its number in documents 01 and 02.
            pub const fn number(self) -> u32 {
                match self {
                    $(Refusal::$name $({ $position: _ })? => $number,)*
                }
            }

            /// The refusal of a number; none of 0 and of those above the last. The position counts where the number is 5 or 6.
            ///
            /// ```
            /// # use isis_gr::Refusal;
            /// assert_eq!(Refusal::of_number(9, 0), Some(Refusal::NoRoom));
            /// assert_eq!(Refusal::of_number(6, 37), Some(Refusal::BadTlv { position: 37 }));
            /// assert_eq!(Refusal::of_number(0, 0), None);
            /// ```
            pub const fn of_number(number: u32, position: u16) -> Option<Refusal> {
                let _ = position;
                match number {
                    $($number => Some(Refusal::$name $({ $position: position })?),)*
                    _ => None,
                }
            }

            /// Its name, as in code.
            pub const fn name(self) -> &'static str {
                match self {
                    $(Refusal::$name $({ $position: _ })? => stringify!($name),)*
                }
            }

            /// Its text, that of `isis_gr_text` in `include/isis_gr.h`.
            pub const fn text(self) -> &'static str {
                match self {
                    $(Refusal::$name $({ $position: _ })? => $text,)*
                }
            }
        }
    };
}

refusals! {
    "no circuit of that number, or a level not enabled there"
    NoCircuit = 1,
    "reply buffer under 11 octets"
    ReplyRoom = 2,
    "not a hello that fits the circuit"
    NotHello = 3,
    "header length or PDU Length wrong"
    BadLength = 4,
    "a TLV passes the PDU Length"
    TlvPastEnd { position } = 5,
    "a TLV breaks its rule, or the circuit type is 0"
    BadTlv { position } = 6,
    "level not enabled, or our own System ID"
    WrongSource = 7,
    "the three-way TLV names another system or circuit"
    WrongNeighbor = 8,
    "the circuit's room is full"
    NoRoom = 9,
    "clock lower than before"
    ClockBack = 10,
    "a notice outside the modes Restarting and Starting"
    NotRestarting = 11,
    "a setting out of range"
    BadSetting = 12,
    "no frame is begun on that circuit"
    NotBegun = 13,
    "more than 1,500 octets joined"
    TooLong = 14,
}

impl Refusal {
    /// The position that refusals 5 and 6 bring (document 02, W-206), in octets of the frame counted from 1, 9 to 1,493; none of the others. Of 5: the type
    /// octet of the TLV that passes the PDU Length. Of 6: 9, the circuit type, where its low two bits are 0; else the type octet of the first TLV in the frame
    /// that breaks a rule, of one that came twice the second; else, where the three-way TLV is missing, the PDU Length plus 1.
    /// [`Refusal::in_frame`] says it in words.
    pub const fn position(self) -> Option<u16> {
        match self {
            Refusal::TlvPastEnd { position } | Refusal::BadTlv { position } => Some(position),
            _ => None,
        }
    }

    /// Refused where the word's code is not 0; the second word of a frame's answer has the position. The archive gives no code but 0 and the table's, and no
    /// position that has more than 16 bits.
    pub(crate) fn check(word: u64, second: u64) -> Result<(), Refusal> {
        match (word & 0xFF) as u32 {
            0 => Ok(()),
            code => Err(Refusal::of_number(code, second as u16).expect("a code of the table")),
        }
    }

    /// The value where the word's code is 0, of a call that reads no frame.
    pub(crate) fn unless<T>(word: u64, value: T) -> Result<T, Refusal> {
        Refusal::check(word, 0).map(|()| value)
    }
}

impl fmt::Display for Refusal {
    /// As `9 (the circuit's room is full)`, or `5 (a TLV passes the PDU Length), at octet 51`.
    fn fmt(&self, f: &mut fmt::Formatter<'_>) -> fmt::Result {
        write!(f, "{} ({})", self.number(), self.text())?;
        match self.position() {
            Some(position) => write!(f, ", at octet {position}"),
            None => Ok(()),
        }
    }
}

impl core::error::Error for Refusal {}

impl From<SettingError> for Refusal {
    /// A set-up is refused with this number alone.
    fn from(_: SettingError) -> Refusal {
        Refusal::BadSetting
    }
}
