//! Memory that is lent between guard bytes: who writes beside it is found out.

const GUARD: u8 = 0xa5;

#[repr(C)]
pub struct Guarded<T> {
    pub before: [u8; 64],
    pub it: T,
    pub after: [u8; 64],
}

impl<T> Guarded<T> {
    pub fn new(it: T) -> Guarded<T> {
        Guarded { before: [GUARD; 64], it, after: [GUARD; 64] }
    }

    pub fn at(&mut self) -> *mut T {
        &mut self.it
    }

    pub fn whole(&self) -> bool {
        self.before.iter().chain(&self.after).all(|&byte| byte == GUARD)
    }
}
