//! Both verifiers under one shape. Each function says whether the call was accepted.

/// Two sheets: library, user buffer, used length. Verdicts come last, and scratch where it is lent.
pub type Judge = fn(&[u8], &[u8], usize, &mut [u8], &mut [u8]) -> bool;
pub type Add = fn(&[u8], &mut [u8], &mut usize, &[u8], &mut [u8], &mut [u8]) -> bool;
pub type Replace = fn(&[u8], &mut [u8], &mut usize, usize, &[u8], &mut [u8], &mut [u8]) -> bool;
pub type Withdraw = fn(&[u8], &mut [u8], &mut usize, &mut [u8]) -> bool;
/// The output comes last.
pub type Canonical = fn(&[u8], &[u8], usize, &mut [u8]) -> bool;
/// The places come last.
pub type Index = fn(&[u8], &[u8], usize, &mut [u16]) -> bool;
pub type Lookup = fn(&[u8], &[u8], usize, &[u8], &mut [u16]) -> bool;
pub type OfClass = fn(&[u8], &[u8], usize, usize) -> bool;

pub struct Verifier {
    pub judge: Judge,
    pub add: Add,
    pub replace: Replace,
    pub withdraw: Withdraw,
    pub canonical: Canonical,
    pub index: Index,
    pub lookup: Lookup,
    pub name: OfClass,
    pub marks: OfClass,
}

macro_rules! verifier {
    ($name:ident) => {
        Verifier {
            judge: |library, user, used, verdicts, scratch| {
                $name::judge(library, user, used, verdicts, scratch).is_ok()
            },
            add: |library, user, used, group, verdicts, scratch| {
                $name::add(library, user, used, group, verdicts, scratch).is_ok()
            },
            replace: |library, user, used, class, group, verdicts, scratch| {
                $name::replace(library, user, used, class, group, verdicts, scratch).is_ok()
            },
            withdraw: |library, user, used, verdicts| {
                $name::withdraw(library, user, used, verdicts).is_ok()
            },
            canonical: |library, user, used, out| {
                $name::canonical(library, user, used, out).is_ok()
            },
            index: |library, user, used, places| $name::index(library, user, used, places).is_ok(),
            lookup: |library, user, used, name, places| {
                $name::lookup(library, user, used, name, places).is_ok()
            },
            name: |library, user, used, class| $name::name(library, user, used, class).is_ok(),
            marks: |library, user, used, class| $name::marks(library, user, used, class).is_ok(),
        }
    };
}

pub const KERDZHUSI: Verifier = verifier!(kerdzhusi);
pub const REFERENCE: Verifier = verifier!(reference);
