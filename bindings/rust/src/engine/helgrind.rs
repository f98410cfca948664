//! Tells helgrind of locks. The standard library's go to the kernel by themselves, where it does not see them. Nothing of this is in a
//! crate that is built without `--cfg cellarcliff_helgrind`.
#[cfg(not(cellarcliff_helgrind))]
mod told {
    #[inline(always)]
    pub fn acquired<T>(_: &T) {}
    #[inline(always)]
    pub fn released<T>(_: &T) {}
}

#[cfg(cellarcliff_helgrind)]
mod told {
    const SEND: u64 = 0x4847_0000 + 256 + 33; // _VG_USERREQ__HG_USERSO_SEND_PRE of valgrind/helgrind.h
    const RECEIVE: u64 = SEND + 1;

    fn tell(request: u64, at: u64) {
        let words = [request, at, 0, 0, 0, 0];
        // SAFETY: valgrind's own sequence, which turns a register round once and changes nothing outside it
        unsafe {
            std::arch::asm!(
                "rol rdi, 3", "rol rdi, 13", "rol rdi, 61", "rol rdi, 51", "xchg rbx, rbx",
                in("rax") words.as_ptr(), inout("rdx") 0u64 => _,
            );
        }
    }

    pub fn acquired<T>(lock: &T) {
        tell(RECEIVE, lock as *const T as u64)
    }
    pub fn released<T>(lock: &T) {
        tell(SEND, lock as *const T as u64)
    }
}

pub(crate) use told::{acquired, released};
