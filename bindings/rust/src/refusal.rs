//! Names of refusals.

/// The enum of these names, numbers and words.
macro_rules! refusals {
    ($($name:ident = $number:literal, $words:literal;)*) => {
        /// Why something was refused: the number of a reply `{"refused":N}`. What is in backticks are keys of the
        /// reply.
        ///
        /// ```
        /// use rbbank::{Bank, Refusal};
        ///
        /// let mut bank = Bank::open(r#"{"accounts":[["ann",0]],"sites":2,"version":1}"#)?;
        /// let refusal = Refusal::of(bank.answer(r#"{"balance":"eve","site":0}"#)?);
        /// assert_eq!(refusal, Some(Refusal::UnknownAccount));
        /// # Ok::<(), Box<dyn std::error::Error>>(())
        /// ```
        #[derive(Clone, Copy, Debug, PartialEq, Eq, PartialOrd, Ord, Hash)]
        #[non_exhaustive]
        #[repr(u8)]
        pub enum Refusal {
            $(#[doc = concat!($words, ".")] $name = $number,)*
        }

        impl Refusal {
            /// The refusal of this number, if there is one.
            pub fn numbered(number: u8) -> Option<Refusal> {
                match number {
                    $($number => Some(Refusal::$name),)*
                    _ => None,
                }
            }

            /// What it means.
            pub fn words(self) -> &'static str {
                match self {
                    $(Refusal::$name => $words,)*
                }
            }
        }
    };
}

refusals! {
    UnknownAccount = 1, "unknown account";
    BadAmount = 2, "amount out of range: 1 to 100,000,000,000 cents";
    BadRate = 3, "rate out of range: 0 to 10,000 basis points";
    UnknownOperation = 4, "unknown operation: none of this name is applied here";
    NotCancellable = 5, "can't be cancelled (declined, or a cancellation)";
    AlreadyCancelled = 6, "already cancelled, first at `position`";
    NumbersExhausted = 7, "numbers, or epochs, are used up";
    NeedToken = 8, "the site hasn't the token";
    RedBehind = 9, "`seen` red operations applied, `needed` before the next";
    WouldOverdraw = 10, "would leave a balance below zero";
    DeltaTooLarge = 11, "interest over its limit";
    BadBatch = 12, "bad batch: no request, or more than 16";
    BatchRefused = 13, "a request of the batch would be declined or is refused";
    NotHeld = 14, "nothing is held under the name";
    NotReady = 15, "its past isn't applied here yet";
    InboxFull = 16, "the inbox is full, and the operation isn't ready";
    BadMessage = 17, "bad message";
    Conflict = 18, "another operation has the name, or it is said to be of this site, which didn't make it";
    NoMessage = 19, "no such message";
    NoSite = 20, "no such site, or the token passed to the own one";
    NotYours = 21, "the token message is for another site";
    PositionBeyond = 22, "the position is beyond the operations that the site applied";
    HistoryFull = 23, "the site's history is full";
    SameAccount = 24, "a transfer's two accounts are one";
    OtherRequest = 25, "the id is that of another request";
    OtherBank = 26, "the line is of another bank";
}

impl Refusal {
    /// Its number.
    pub fn number(self) -> u8 {
        self as u8
    }

    /// The refusal that a bank's reply is, or the reply in a site's answer, if it is one.
    pub fn of(answer: &str) -> Option<Refusal> {
        let reply = answer
            .split_once(r#""reply":{"#)
            .map_or(answer, |(_, reply)| reply);
        // A refusal has no object in it, and no text of a reply has a quotation mark or a brace.
        let (_, rest) = reply.split('}').next()?.split_once(r#""refused":"#)?;
        let number = rest.split(|char: char| !char.is_ascii_digit()).next()?;
        Refusal::numbered(number.parse().ok()?)
    }
}

impl std::fmt::Display for Refusal {
    fn fmt(&self, f: &mut std::fmt::Formatter<'_>) -> std::fmt::Result {
        write!(f, "refused {}: {}", self.number(), self.words())
    }
}
