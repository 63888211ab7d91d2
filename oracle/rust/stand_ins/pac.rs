//! Stands in for the register crate `stm32f7`: the blocks RCC, FLASH and PWR
//! over the modelled register file, as far as rcc.rs uses them.

pub mod codes;
mod fields;
pub mod register_file;

use fields::{Reader, Writer};
use register_file::Place;

/// Any register but ACR. It has no bits here: its fields live in the file.
pub struct Register;

impl Register {
    pub fn read(&self) -> Reader {
        Reader
    }

    /// One store: the fields that `change` names, no other.
    pub fn modify<F>(&self, change: F)
    where
        F: for<'w> FnOnce(&Reader, &'w mut Writer) -> &'w mut Writer,
    {
        let mut writer = Writer(Vec::new());
        change(&Reader, &mut writer);
        register_file::store(writer.0);
    }
}

/// FLASH's ACR.
pub struct Acr;

impl Acr {
    /// One store. Unlike `modify`, `write` puts 0 into every field not named.
    pub fn write<F>(&self, change: F)
    where
        F: for<'w> FnOnce(&'w mut Writer) -> &'w mut Writer,
    {
        let mut writer = Writer(Vec::new());
        change(&mut writer);
        writer.0.push((Place::OTHER, 0));
        register_file::store(writer.0);
    }
}

pub mod rcc {
    pub use super::codes as cfgr;

    macro_rules! block {
        ($($register:ident $field:ident,)+) => {
            $(pub type $register = super::Register;)+

            pub struct RegisterBlock {
                $(pub $field: $register,)+
            }

            pub(super) static BLOCK: RegisterBlock = RegisterBlock {
                $($field: super::Register,)+
            };
        };
    }

    block! {
        CR cr, CFGR cfgr, PLLCFGR pllcfgr, PLLSAICFGR pllsaicfgr, PLLI2SCFGR plli2scfgr,
        DCKCFGR2 dckcfgr2, BDCR bdcr, CSR csr,
        APB1ENR apb1enr, APB1LPENR apb1lpenr, APB1RSTR apb1rstr,
        APB2ENR apb2enr, APB2LPENR apb2lpenr, APB2RSTR apb2rstr,
        AHB1ENR ahb1enr, AHB1LPENR ahb1lpenr, AHB1RSTR ahb1rstr,
        AHB2ENR ahb2enr, AHB2LPENR ahb2lpenr, AHB2RSTR ahb2rstr,
        AHB3ENR ahb3enr, AHB3LPENR ahb3lpenr, AHB3RSTR ahb3rstr,
    }
}

pub mod flash {
    pub struct RegisterBlock {
        pub acr: super::Acr,
    }

    pub(super) static BLOCK: RegisterBlock = RegisterBlock { acr: super::Acr };
}

pub mod pwr {
    pub struct RegisterBlock {
        pub cr1: super::Register,
        pub csr1: super::Register,
    }

    pub(super) static BLOCK: RegisterBlock =
        RegisterBlock { cr1: super::Register, csr1: super::Register };
}

macro_rules! peripherals {
    ($($name:ident $block:ident,)+) => {
        $(pub struct $name;

        impl $name {
            pub fn ptr() -> *const $block::RegisterBlock {
                &$block::BLOCK
            }
        })+
    };
}

peripherals! { RCC rcc, FLASH flash, PWR pwr, }
