//! The messages of docs/MESSAGES.md in plain Rust: a yardstick for the time it takes to read and to write one.
//! The sections named in the comments are those of that page.

use std::env;
use std::fmt;
use std::hint::black_box;
use std::io::{self, BufWriter, Write};
use std::process::ExitCode;
use std::time::Instant;

// ---- Values -------------------------------------------------------------------------------------------------------

/// A telephone number, 3 to 15 digits; behind the digits stand zeros, so that equal numbers are equal values.
#[derive(Clone, Copy, PartialEq, Eq)]
pub struct Number {
    digits: [u8; 15],
    count: u8,
}

/// A number and whether it is restricted.
#[derive(Clone, Copy, PartialEq, Eq)]
pub struct Party {
    pub number: Number,
    pub restricted: bool,
}

/// The call of a message, 0 to 63, and its leg, 0 to 5.
#[derive(Clone, Copy, PartialEq, Eq)]
pub struct Circuit {
    call: u8,
    leg: u8,
}

/// An enum of which each case has an octet, or part of one, as its code.
macro_rules! coded {
    ($name:ident { $($case:ident = $code:literal),+ $(,)? }) => {
        #[derive(Clone, Copy, PartialEq, Eq)]
        pub enum $name { $($case = $code),+ }

        impl $name {
            pub const fn code(self) -> u8 {
                self as u8
            }

            pub const fn from_code(code: u8) -> Option<Self> {
                match code {
                    $($code => Some(Self::$case),)+
                    _ => None,
                }
            }
        }
    };
}

coded!(Service { Speech = 0x00, Digital64 = 0x02, Audio = 0x03 });
coded!(LineStatus { Free = 0x04, NoIndication = 0x00 });
coded!(Event { Alerting = 0x01, Progress = 0x02 });
coded!(Indicator { Diverted = 3, AllRestricted = 4, NumberRestricted = 6 });
coded!(Notification { Unknown = 0, NotAllowed = 1, WithNumber = 2, WithoutNumber = 3 });
coded!(Restriction { Allowed = 0x00, Restricted = 0x01 });
coded!(Reason {
    Unknown = 0,
    Busy = 1,
    NoReply = 2,
    Unconditional = 3,
    DeflectionAlerting = 4,
    DeflectionImmediate = 5,
    MobileUnreachable = 6,
});

/// Why a call is released, 1 to 127.
#[derive(Clone, Copy, PartialEq, Eq)]
pub struct Cause(u8);

/// How often a call has been diverted, 1 to 5.
#[derive(Clone, Copy, PartialEq, Eq)]
pub struct Count(u8);

#[derive(Clone, Copy, PartialEq, Eq)]
pub struct RedirectionInformation {
    pub indicator: Indicator,
    pub count: Count,
    pub reason: Reason,
}

#[derive(Clone, Copy, PartialEq, Eq)]
pub struct Redirection {
    pub redirecting: Party,
    pub original: Party,
    pub information: RedirectionInformation,
}

#[derive(Clone, Copy, PartialEq, Eq)]
pub struct DiversionInformation {
    pub notification: Notification,
    pub reason: Reason,
}

#[derive(Clone, Copy, PartialEq, Eq)]
pub struct Notice {
    pub information: DiversionInformation,
    pub number: Number,
}

/// The optional parts of an address complete and of a call progress.
#[derive(Clone, Copy, PartialEq, Eq)]
pub struct Backward {
    pub may_divert: bool,
    pub notice: Option<Notice>,
    pub restriction: Option<Restriction>,
}

#[derive(Clone, Copy, PartialEq, Eq)]
pub enum Message {
    InitialAddress(Service, Number, Option<Redirection>),
    AddressComplete(LineStatus, Backward),
    CallProgress(Event, Backward),
    Answer(Option<Restriction>),
    Connect(Option<Restriction>),
    Release(Cause),
}

impl Circuit {
    pub fn new(call: u8, leg: u8) -> Option<Circuit> {
        (call <= 63 && leg <= 5).then_some(Circuit { call, leg })
    }

    fn from_octets(octets: [u8; 2]) -> Option<Circuit> {
        let code = u16::from_le_bytes(octets);
        (code < 512 && code % 8 <= 5).then_some(Circuit { call: (code / 8) as u8, leg: (code % 8) as u8 })
    }

    fn octets(self) -> [u8; 2] {
        (u16::from(self.call) * 8 + u16::from(self.leg)).to_le_bytes()
    }
}

impl Cause {
    pub fn new(value: u8) -> Option<Cause> {
        (1..=127).contains(&value).then_some(Cause(value))
    }
}

impl Count {
    pub fn new(value: u8) -> Option<Count> {
        (1..=5).contains(&value).then_some(Count(value))
    }
}

// ---- Reading a number (2.3) ---------------------------------------------------------------------------------------

#[derive(Clone, Copy, PartialEq, Eq)]
pub enum NumberFault {
    Count = 1,
    Digit = 2,
    Filler = 3,
    NatureOrPlan = 4,
}

/// Times a value, it stands in each octet of a word; a digit plus 76 reaches 80 exactly if it is above 9.
const EACH: u64 = 0x0101_0101_0101_0101;

/// Reads a whole content; `may_restrict` says whether plan 14 may stand.
pub fn read_number(content: &[u8], may_restrict: bool) -> Result<Party, NumberFault> {
    let [nature, plan, packed @ ..] = content else {
        return Err(NumberFault::Count);
    };
    let odd = nature & 0x80 != 0;
    let count = (2 * packed.len()).saturating_sub(usize::from(odd));
    if !(3..=15).contains(&count) {
        return Err(NumberFault::Count);
    }
    if nature & 0x7F != 0x03 {
        return Err(NumberFault::NatureOrPlan);
    }
    let restricted = match plan {
        0x10 => false,
        0x14 if may_restrict => true,
        _ => return Err(NumberFault::NatureOrPlan),
    };
    // The octets as one word, in which half octet k is bits 4k to 4k + 3; behind an odd count comes the filler.
    let halves = packed.iter().rev().fold(0, |word, &octet| word << 8 | u64::from(octet));
    let filler = halves >> (4 * count) & 0x0F;
    let halves = halves & !(0x0F << (4 * count));
    let (earlier, later) = (halves & EACH * 0x0F, halves >> 4 & EACH * 0x0F);
    if (earlier + EACH * 0x76 | later + EACH * 0x76) & EACH * 0x80 != 0 {
        return Err(NumberFault::Digit);
    }
    if filler != 0 {
        return Err(NumberFault::Filler);
    }
    let (earlier, later) = (earlier.to_le_bytes(), later.to_le_bytes());
    let digits = std::array::from_fn(|k| if k % 2 == 0 { earlier[k / 2] } else { later[k / 2] });
    Ok(Party { number: Number { digits, count: count as u8 }, restricted })
}

// ---- Reading a message (4) ----------------------------------------------------------------------------------------

#[derive(Clone, Copy, PartialEq, Eq)]
pub enum Fault {
    Length,
    Kind,
    Missing(usize),
    Pointer(usize),
    Optional(usize),
    Value(usize, Option<NumberFault>),
    Repeated(usize),
    Group(usize),
}

impl Fault {
    /// The number of the fault and its place.
    fn number_and_place(self) -> (u8, usize) {
        match self {
            Fault::Length => (1, 0),
            Fault::Kind => (2, 2),
            Fault::Missing(place) => (3, place),
            Fault::Pointer(place) => (4, place),
            Fault::Optional(place) => (5, place),
            Fault::Value(place, _) => (6, place),
            Fault::Repeated(place) => (7, place),
            Fault::Group(place) => (8, place),
        }
    }
}

/// The bit of a name in a set of names. Names above 40 are foreign everywhere and have none; 00 is no name.
const fn bit(name: u8) -> u64 {
    match name {
        1..=64 => 1 << (name - 1),
        _ => 0,
    }
}

const INITIAL: u64 = bit(0x0B) | bit(0x28) | bit(0x13);
const BACKWARD: u64 = bit(0x29) | bit(0x2C) | bit(0x36) | bit(0x0C) | bit(0x40);
const CONNECTED: u64 = bit(0x40);
const BARE: u64 = 0;

struct Parameter<'a> {
    name: u8,
    content: &'a [u8],
    place: usize,
}

impl Parameter<'_> {
    fn party(&self, may_restrict: bool) -> Result<Party, Fault> {
        read_number(self.content, may_restrict).map_err(|fault| Fault::Value(self.place, Some(fault)))
    }

    fn octet(&self) -> Option<u8> {
        match *self.content {
            [octet] => Some(octet),
            _ => None,
        }
    }

    fn exact(&self, octet: u8) -> Result<(), Fault> {
        self.value((self.octet() == Some(octet)).then_some(()))
    }

    fn redirection_information(&self) -> Result<RedirectionInformation, Fault> {
        let [indicator, octet] = *self.content else {
            return Err(Fault::Value(self.place, None));
        };
        Ok(RedirectionInformation {
            indicator: self.value(Indicator::from_code(indicator))?,
            count: self.value(Count::new(octet & 0x0F))?,
            reason: self.value(Reason::from_code(octet >> 4))?,
        })
    }

    fn diversion_information(&self) -> Result<DiversionInformation, Fault> {
        let octet = self.value(self.octet())?;
        Ok(DiversionInformation {
            notification: self.value(Notification::from_code(octet & 0x07))?,
            reason: self.value(Reason::from_code(octet >> 3))?,
        })
    }

    fn restriction(&self) -> Result<Restriction, Fault> {
        self.value(self.octet().and_then(Restriction::from_code))
    }

    fn value<T>(&self, value: Option<T>) -> Result<T, Fault> {
        value.ok_or(Fault::Value(self.place, None))
    }
}

/// The parameters of an optional part, up to its closing 00 or to the first that is cut off.
struct Parameters<'a> {
    left: &'a [u8],
    place: usize,
}

impl<'a> Iterator for Parameters<'a> {
    type Item = Parameter<'a>;

    fn next(&mut self) -> Option<Parameter<'a>> {
        let (&[name, length], rest) = self.left.split_first_chunk()?;
        if name == 0 {
            return None;
        }
        let (content, left) = rest.split_at_checked(usize::from(length))?;
        let place = self.place;
        self.left = left;
        self.place = place + 2 + content.len();
        Some(Parameter { name, content, place })
    }
}

/// The parameters behind the pointer at `at`, whose part begins at `end`, once its shape is right and no name of the row is
/// there twice.
fn parameters(octets: &[u8], at: usize, end: usize, row: u64) -> Result<Parameters<'_>, Fault> {
    let pointer = usize::from(*octets.get(at).ok_or(Fault::Missing(at))?);
    let left = octets.get(end..).unwrap_or_default();
    if pointer == 0 {
        return if left.is_empty() { Ok(Parameters { left, place: end }) } else { Err(Fault::Pointer(end)) };
    }
    if pointer != end - at {
        return Err(Fault::Pointer(at));
    }
    let mut walk = Parameters { left, place: end };
    let mut met = 0;
    let mut again = None;
    for parameter in &mut walk {
        let bit = row & bit(parameter.name);
        if met & bit != 0 && again.is_none() {
            again = Some(parameter.place);
        }
        met |= bit;
    }
    if walk.left != [0] {
        return Err(Fault::Optional(walk.place));
    }
    match again {
        Some(place) => Err(Fault::Repeated(place)),
        None => Ok(Parameters { left, place: end }),
    }
}

/// The octet at a place.
fn octet(octets: &[u8], at: usize) -> Result<u8, Fault> {
    octets.get(at).copied().ok_or(Fault::Missing(at))
}

/// The value that the octet at a place is the code of.
fn code<T>(octets: &[u8], at: usize, from_code: impl Fn(u8) -> Option<T>) -> Result<T, Fault> {
    from_code(octet(octets, at)?).ok_or(Fault::Value(at, None))
}

/// The octets at a place and behind it, which can have one value each.
fn exact(octets: &[u8], at: usize, fixed: &[u8]) -> Result<(), Fault> {
    for (at, &fixed) in (at..).zip(fixed) {
        if octet(octets, at)? != fixed {
            return Err(Fault::Value(at, None));
        }
    }
    Ok(())
}

/// The content of the variable field whose pointer stands at a place.
fn variable(octets: &[u8], at: usize) -> Result<&[u8], Fault> {
    if octet(octets, at)? != 2 {
        return Err(Fault::Pointer(at));
    }
    let length = usize::from(octet(octets, at + 2)?);
    octets.get(at + 3..at + 3 + length).ok_or(Fault::Missing(at + 2))
}

// Inlined, so that the message is built where it is answered.
#[inline(always)]
fn initial_address(octets: &[u8]) -> Result<Message, Fault> {
    exact(octets, 3, &[0x00, 0x20, 0x01, 0x0A])?;
    let service = code(octets, 7, Service::from_code)?;
    let content = variable(octets, 8)?;
    let called = read_number(content, false).map_err(|fault| Fault::Value(10, Some(fault)))?.number;
    let mut redirecting = None;
    let mut original = None;
    let mut information = None;
    for parameter in parameters(octets, 9, 11 + content.len(), INITIAL)? {
        match parameter.name {
            0x0B => redirecting = Some(parameter.party(true)?),
            0x28 => original = Some(parameter.party(true)?),
            0x13 => information = Some(parameter.redirection_information()?),
            _ => {}
        }
    }
    let redirection = match (redirecting, original, information) {
        (Some(redirecting), Some(original), Some(information)) => {
            Some(Redirection { redirecting, original, information })
        }
        (None, None, None) => None,
        _ => return Err(Fault::Group(octets.len())),
    };
    Ok(Message::InitialAddress(service, called, redirection))
}

fn backward(octets: &[u8], at: usize) -> Result<Backward, Fault> {
    let mut may_divert = false;
    let mut diverting = false;
    let mut information = None;
    let mut number = None;
    let mut restriction = None;
    for parameter in parameters(octets, at, at + 1, BACKWARD)? {
        match parameter.name {
            0x29 => {
                parameter.exact(0x02)?;
                may_divert = true;
            }
            0x2C => {
                parameter.exact(0xFB)?;
                diverting = true;
            }
            0x36 => information = Some(parameter.diversion_information()?),
            0x0C => number = Some(parameter.party(false)?.number),
            0x40 => restriction = Some(parameter.restriction()?),
            _ => {}
        }
    }
    let notice = match (diverting, information, number) {
        (true, Some(information), Some(number)) => Some(Notice { information, number }),
        (false, None, None) => None,
        _ => return Err(Fault::Group(octets.len())),
    };
    Ok(Backward { may_divert, notice, restriction })
}

#[inline(always)]
fn address_complete(octets: &[u8]) -> Result<Message, Fault> {
    let status = code(octets, 3, LineStatus::from_code)?;
    exact(octets, 4, &[0x14])?;
    Ok(Message::AddressComplete(status, backward(octets, 5)?))
}

#[inline(always)]
fn call_progress(octets: &[u8]) -> Result<Message, Fault> {
    let event = code(octets, 3, Event::from_code)?;
    Ok(Message::CallProgress(event, backward(octets, 4)?))
}

/// The optional part of an answer or a connect.
fn connected(octets: &[u8], at: usize) -> Result<Option<Restriction>, Fault> {
    match parameters(octets, at, at + 1, CONNECTED)?.find(|parameter| parameter.name == 0x40) {
        Some(parameter) => parameter.restriction().map(Some),
        None => Ok(None),
    }
}

fn release(octets: &[u8]) -> Result<Message, Fault> {
    let cause = match *variable(octets, 3)? {
        [0x82, octet] if octet >= 0x80 => Cause::new(octet - 0x80),
        _ => None,
    };
    let cause = cause.ok_or(Fault::Value(5, None))?;
    parameters(octets, 4, 8, BARE)?;
    Ok(Message::Release(cause))
}

/// Reads a message with its circuit, or answers the first fault. Like `write`, it is called and not inlined, as from a crate
/// of its own.
#[inline(never)]
pub fn read(octets: &[u8]) -> Result<(Circuit, Message), Fault> {
    let &[low, high, kind, ..] = octets else {
        return Err(Fault::Length);
    };
    if octets.len() > 255 {
        return Err(Fault::Length);
    }
    let circuit = Circuit::from_octets([low, high]).ok_or(Fault::Value(0, None))?;
    let message = match kind {
        0x01 => initial_address(octets)?,
        0x06 => address_complete(octets)?,
        0x2C => call_progress(octets)?,
        0x09 => Message::Answer(connected(octets, 3)?),
        0x07 => {
            exact(octets, 3, &[0x04, 0x14])?;
            Message::Connect(connected(octets, 5)?)
        }
        0x0C => release(octets)?,
        _ => return Err(Fault::Kind),
    };
    Ok((circuit, message))
}

// ---- Writing a message (5) ----------------------------------------------------------------------------------------

/// The memory has fewer octets than are to be written.
#[derive(Clone, Copy, Debug, PartialEq, Eq)]
pub struct TooShort;

/// A message in the making. The longest has 50 octets.
struct Draft {
    octets: [u8; 64],
    len: usize,
}

impl Draft {
    fn put<const N: usize>(&mut self, octets: [u8; N]) {
        self.octets[self.len..self.len + N].copy_from_slice(&octets);
        self.len += N;
    }

    /// The length and the content of a number.
    fn put_number(&mut self, number: &Number, plan: u8) {
        let nature = if number.count % 2 == 1 { 0x83 } else { 0x03 };
        let used = number.count.div_ceil(2);
        self.put([2 + used, nature, plan]);
        // All eight octets are put down, and those without digits are taken back.
        let len = self.len;
        self.put(std::array::from_fn::<u8, 8, _>(|k| {
            number.digits[2 * k] | number.digits.get(2 * k + 1).map_or(0, |high| high << 4)
        }));
        self.len = len + usize::from(used);
    }

    fn put_party(&mut self, name: u8, party: &Party) {
        self.put([name]);
        self.put_number(&party.number, if party.restricted { 0x14 } else { 0x10 });
    }

    fn put_initial(&mut self, service: Service, called: &Number, redirection: &Option<Redirection>) {
        let pointer = if redirection.is_some() { 4 + called.count.div_ceil(2) } else { 0 };
        self.put([0x01, 0x00, 0x20, 0x01, 0x0A, service.code(), 0x02, pointer]);
        self.put_number(called, 0x10);
        if let Some(Redirection { redirecting, original, information }) = redirection {
            self.put_party(0x0B, redirecting);
            self.put_party(0x28, original);
            let reason_and_count = information.reason.code() << 4 | information.count.0;
            self.put([0x13, 2, information.indicator.code(), reason_and_count, 0x00]);
        }
    }

    fn put_backward(&mut self, backward: &Backward) {
        let Backward { may_divert, notice, restriction } = backward;
        if !may_divert && notice.is_none() && restriction.is_none() {
            return self.put([0x00]);
        }
        self.put([0x01]);
        if *may_divert {
            self.put([0x29, 1, 0x02]);
        }
        if let Some(Notice { information, number }) = notice {
            let reason_and_option = information.reason.code() << 3 | information.notification.code();
            self.put([0x2C, 1, 0xFB, 0x36, 1, reason_and_option, 0x0C]);
            self.put_number(number, 0x10);
        }
        if let Some(restriction) = restriction {
            self.put([0x40, 1, restriction.code()]);
        }
        self.put([0x00]);
    }

    fn put_connected(&mut self, restriction: Option<Restriction>) {
        match restriction {
            Some(restriction) => self.put([0x01, 0x40, 1, restriction.code(), 0x00]),
            None => self.put([0x00]),
        }
    }
}

/// Writes the message at the front of the memory and answers the count of its octets; where they do not fit, nothing is
/// written.
#[inline(never)]
pub fn write(circuit: Circuit, message: &Message, memory: &mut [u8]) -> Result<usize, TooShort> {
    let mut draft = Draft { octets: [0; 64], len: 0 };
    draft.put(circuit.octets());
    match message {
        Message::InitialAddress(service, called, redirection) => draft.put_initial(*service, called, redirection),
        Message::AddressComplete(status, backward) => {
            draft.put([0x06, status.code(), 0x14]);
            draft.put_backward(backward);
        }
        Message::CallProgress(event, backward) => {
            draft.put([0x2C, event.code()]);
            draft.put_backward(backward);
        }
        Message::Answer(restriction) => {
            draft.put([0x09]);
            draft.put_connected(*restriction);
        }
        Message::Connect(restriction) => {
            draft.put([0x07, 0x04, 0x14]);
            draft.put_connected(*restriction);
        }
        Message::Release(cause) => draft.put([0x0C, 0x02, 0x00, 2, 0x82, 0x80 | cause.0]),
    }
    let written = &draft.octets[..draft.len];
    memory.get_mut(..written.len()).ok_or(TooShort)?.copy_from_slice(written);
    Ok(written.len())
}

// ---- Text ---------------------------------------------------------------------------------------------------------

impl fmt::Display for Number {
    fn fmt(&self, f: &mut fmt::Formatter<'_>) -> fmt::Result {
        self.digits[..usize::from(self.count)].iter().try_for_each(|digit| write!(f, "{digit}"))
    }
}

impl fmt::Display for Party {
    fn fmt(&self, f: &mut fmt::Formatter<'_>) -> fmt::Result {
        write!(f, "{}{}", self.number, if self.restricted { " restricted" } else { "" })
    }
}

impl fmt::Display for Redirection {
    fn fmt(&self, f: &mut fmt::Formatter<'_>) -> fmt::Result {
        let RedirectionInformation { indicator, count, reason } = self.information;
        write!(f, " redirecting {} original {}", self.redirecting, self.original)?;
        write!(f, " indicator {} count {} reason {}", indicator.code(), count.0, reason.code())
    }
}

impl fmt::Display for Restriction {
    fn fmt(&self, f: &mut fmt::Formatter<'_>) -> fmt::Result {
        f.write_str(match self {
            Restriction::Allowed => " number-shown",
            Restriction::Restricted => " number-restricted",
        })
    }
}

impl fmt::Display for Notice {
    fn fmt(&self, f: &mut fmt::Formatter<'_>) -> fmt::Result {
        let DiversionInformation { notification, reason } = self.information;
        write!(f, " notice option {} reason {} number {}", notification.code(), reason.code(), self.number)
    }
}

/// A part that may be absent, and then says nothing.
struct Perhaps<T>(Option<T>);

impl<T: fmt::Display> fmt::Display for Perhaps<T> {
    fn fmt(&self, f: &mut fmt::Formatter<'_>) -> fmt::Result {
        self.0.as_ref().map_or(Ok(()), |part| part.fmt(f))
    }
}

impl fmt::Display for Backward {
    fn fmt(&self, f: &mut fmt::Formatter<'_>) -> fmt::Result {
        let may_divert = if self.may_divert { " may-divert" } else { "" };
        write!(f, "{may_divert}{}{}", Perhaps(self.notice), Perhaps(self.restriction))
    }
}

struct OnCircuit(Circuit, Message);

impl fmt::Display for OnCircuit {
    fn fmt(&self, f: &mut fmt::Formatter<'_>) -> fmt::Result {
        let OnCircuit(Circuit { call, leg }, message) = *self;
        let short = match message {
            Message::InitialAddress(..) => "IAM",
            Message::AddressComplete(..) => "ACM",
            Message::CallProgress(..) => "CPG",
            Message::Answer(_) => "ANM",
            Message::Connect(_) => "CON",
            Message::Release(_) => "REL",
        };
        write!(f, "message {short} call {call} leg {leg}")?;
        match message {
            Message::InitialAddress(service, called, redirection) => {
                let service = match service {
                    Service::Speech => "speech",
                    Service::Digital64 => "64k",
                    Service::Audio => "audio",
                };
                write!(f, " service {service} called {called}{}", Perhaps(redirection))
            }
            Message::AddressComplete(LineStatus::Free, backward) => write!(f, " free{backward}"),
            Message::AddressComplete(LineStatus::NoIndication, backward) => write!(f, " none{backward}"),
            Message::CallProgress(Event::Alerting, backward) => write!(f, " alerting{backward}"),
            Message::CallProgress(Event::Progress, backward) => write!(f, " progress{backward}"),
            Message::Answer(restriction) | Message::Connect(restriction) => Perhaps(restriction).fmt(f),
            Message::Release(cause) => write!(f, " cause {}", cause.0),
        }
    }
}

impl fmt::Display for Fault {
    fn fmt(&self, f: &mut fmt::Formatter<'_>) -> fmt::Result {
        let (number, place) = self.number_and_place();
        write!(f, "fault {number} at {place}")?;
        match self {
            Fault::Value(_, Some(within)) => write!(f, " number {}", *within as u8),
            _ => Ok(()),
        }
    }
}

// ---- Program ------------------------------------------------------------------------------------------------------

const USAGE: &str = "usage: plain OCTETS N          reads the message N times
       plain write OCTETS N    reads it once and writes it N times
       plain check             reads each line of standard input as octets and writes what they say
";

/// Octets in hexadecimal, two digits each, with or without blanks between them.
fn octets(text: &str) -> Result<Vec<u8>, String> {
    let mut octets = Vec::new();
    for word in text.split_ascii_whitespace() {
        for pair in word.as_bytes().chunks(2) {
            let half = |k: usize| pair.get(k).and_then(|&digit| char::from(digit).to_digit(16));
            let (Some(high), Some(low)) = (half(0), half(1)) else {
                return Err(format!("{word}: no octets"));
            };
            octets.push((16 * high + low) as u8);
        }
    }
    Ok(octets)
}

/// How many of the readings gave a message; the call changes with each, so that none can be left out.
fn read_times(octets: &mut [u8], count: u64) -> u64 {
    let mut accepted = 0;
    for _ in 0..count {
        if let Some(low) = octets.first_mut() {
            *low ^= 0x08;
        }
        let answer = read(black_box(octets));
        if black_box(&answer).is_ok() {
            accepted += 1;
        }
    }
    accepted
}

/// The sum of the octets written; the call changes with each writing, so that none can be left out.
fn write_times(message: &Message, count: u64) -> u64 {
    let mut memory = [0; 64];
    let mut sum = 0;
    for k in 0..count {
        let Some(circuit) = Circuit::new((k % 64) as u8, 0) else {
            return sum;
        };
        if let Ok(len) = write(circuit, black_box(message), &mut memory) {
            sum += len as u64 + u64::from(black_box(&memory)[0]);
        }
    }
    sum
}

fn time_reading(octets: &mut [u8], count: u64) {
    let start = Instant::now();
    let accepted = read_times(octets, count);
    let each = start.elapsed().as_nanos() / u128::from(count.max(1));
    if accepted != count {
        println!("a message in {accepted} of {count} readings");
    }
    println!("read: {each} ns each");
}

fn time_writing(octets: &[u8], count: u64) -> Result<(), String> {
    let Ok((_, message)) = read(octets) else {
        return Err("the octets are no message".into());
    };
    let start = Instant::now();
    let sum = write_times(&message, count);
    let each = start.elapsed().as_nanos() / u128::from(count.max(1));
    if sum == 0 {
        return Err("nothing was written".into());
    }
    println!("write: {each} ns each");
    Ok(())
}

/// Whether the message, once written, is read back, and whether memory that is one octet too short is left as it was.
fn is_written(circuit: Circuit, message: &Message) -> bool {
    let mut memory = [0xEE; 64];
    let Ok(len) = write(circuit, message, &mut memory) else {
        return false;
    };
    let mut short = [0xEE; 64];
    read(&memory[..len]) == Ok((circuit, *message))
        && memory[len..].iter().all(|&octet| octet == 0xEE)
        && write(circuit, message, &mut short[..len - 1]) == Err(TooShort)
        && short == [0xEE; 64]
}

fn check() -> Result<(), String> {
    let mut out = BufWriter::new(io::stdout().lock());
    for (number, line) in (1..).zip(io::stdin().lines()) {
        let line = line.map_err(|error| error.to_string())?;
        let octets = octets(&line).map_err(|error| format!("line {number}: {error}"))?;
        match read(&octets) {
            Ok((circuit, message)) => {
                if !is_written(circuit, &message) {
                    return Err(format!("line {number}: what is written is not what was read"));
                }
                writeln!(out, "{}", OnCircuit(circuit, message))
            }
            Err(fault) => writeln!(out, "{fault}"),
        }
        .map_err(|error| error.to_string())?;
    }
    out.flush().map_err(|error| error.to_string())
}

fn run(arguments: &[&str]) -> Result<(), String> {
    let number = |text: &str| text.parse::<u64>().map_err(|error| format!("{text}: {error}"));
    match *arguments {
        ["check"] => check(),
        ["write", text, count] => time_writing(&octets(text)?, number(count)?),
        [text, count] => {
            time_reading(&mut octets(text)?, number(count)?);
            Ok(())
        }
        _ => {
            print!("{USAGE}");
            Ok(())
        }
    }
}

fn main() -> ExitCode {
    let arguments: Vec<String> = env::args().skip(1).collect();
    let arguments: Vec<&str> = arguments.iter().map(String::as_str).collect();
    match run(&arguments) {
        Ok(()) => ExitCode::SUCCESS,
        Err(error) => {
            eprintln!("plain: {error}");
            ExitCode::FAILURE
        }
    }
}
