//! The readers, writers and field proxies that `read`, `modify` and `write` of
//! a register hand out, named as the generated register crate names them.

use super::codes::{MCO1_A, MCO2PRE_A, MCO2_A};
use super::register_file::{self, Place};

/// Collects what one `modify` or `write` stores. The generated crate has a
/// writer for each register; one for all will do, since rcc.rs is known to
/// keep to each register's own fields.
pub struct Writer(pub(super) Vec<(Place, u32)>);

pub struct Field<'a> {
    writer: &'a mut Writer,
    place: Place,
}

impl<'a> Field<'a> {
    fn put(self, value: u32) -> &'a mut Writer {
        self.writer.0.push((self.place, value));
        self.writer
    }

    pub fn bits(self, bits: impl Into<u32>) -> &'a mut Writer {
        self.put(bits.into())
    }

    pub fn bit(self, bit: bool) -> &'a mut Writer {
        self.put(u32::from(bit))
    }
}

/// Gives the proxies their named values, in document 01's model codes.
macro_rules! named_values {
    ($($name:ident = $value:literal,)+) => {
        impl<'a> Field<'a> {
            $(pub fn $name(self) -> &'a mut Writer {
                self.put($value)
            })+
        }
    };
}

named_values! {
    set_bit = 1,
    on = 1, off = 0,
    bypassed = 1, not_bypassed = 0,
    hsi = 0, hse = 1, pll = 2,
    scale1 = 1, scale2 = 2, scale3 = 3,
}

macro_rules! fields {
    ($($name:ident $place:ident,)+) => {
        impl Writer {
            $(pub fn $name(&mut self) -> Field<'_> {
                Field { writer: self, place: Place::$place }
            })+
        }
    };
}

fields! {
    hsion HSION, hsebyp HSEBYP, hseon HSEON, pllon PLLON, pllsaion PLLSAION, plli2son PLLI2SON,
    sw SW, ppre1 PPRE1, ppre2 PPRE2, hpre HPRE,
    pllm PLLM, plln PLLN, pllp PLLP, pllq PLLQ, pllsrc PLLSRC,
    pwren PWREN,
    vos VOS, oden ODEN, odswen ODSWEN,
    lsebyp LSEBYP, lseon LSEON,
    lsion LSION,
    pllsain PLLSAIN, pllsaip PLLSAIP, pllsaiq PLLSAIQ,
    ck48msel CK48MSEL,
    plli2sn PLLI2SN, plli2sr PLLI2SR, plli2sq PLLI2SQ,
    latency LATENCY,
}

/// A field that takes one of an enum's values; each field has its own proxy
/// because rcc.rs lets the compiler find the enum from it.
macro_rules! enum_fields {
    ($($proxy:ident $name:ident $place:ident $values:ident,)+) => {
        $(pub struct $proxy<'a>(&'a mut Writer);

        impl<'a> $proxy<'a> {
            pub fn variant(self, value: $values) -> &'a mut Writer {
                self.0.0.push((Place::$place, value as u32));
                self.0
            }
        }

        impl Writer {
            pub fn $name(&mut self) -> $proxy<'_> {
                $proxy(self)
            }
        })+
    };
}

enum_fields! {
    Mco1Field mco1 MCO1 MCO1_A,
    Mco1PreField mco1pre MCO1PRE MCO2PRE_A,
    Mco2Field mco2 MCO2 MCO2_A,
    Mco2PreField mco2pre MCO2PRE MCO2PRE_A,
}

pub struct Reader;

/// A ready flag: always ready, so that every wait ends at its first look.
pub struct Ready;

impl Ready {
    pub fn bit_is_set(&self) -> bool {
        true
    }

    pub fn bit_is_clear(&self) -> bool {
        false
    }

    pub fn is_not_ready(&self) -> bool {
        false
    }
}

macro_rules! ready_flags {
    ($($name:ident $wait:literal,)+) => {
        impl Reader {
            $(pub fn $name(&self) -> Ready {
                register_file::wait($wait);
                Ready
            })+
        }
    };
}

ready_flags! {
    hsirdy 1, hserdy 2, pllrdy 3, odrdy 4, odswrdy 5, lserdy 6, lsirdy 7,
}

/// The source in use: what SW names, at once.
pub struct Sws(u32);

impl Sws {
    pub fn is_hsi(&self) -> bool {
        self.0 == 0
    }

    pub fn is_hse(&self) -> bool {
        self.0 == 1
    }

    pub fn is_pll(&self) -> bool {
        self.0 == 2
    }
}

impl Reader {
    pub fn sws(&self) -> Sws {
        register_file::wait(8);
        Sws(register_file::value(Place::SW))
    }
}
