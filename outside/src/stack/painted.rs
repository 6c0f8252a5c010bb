//! How much stack a call takes: it is made on a stack of its own that was painted before, and what is no longer paint was touched.
use std::arch::asm;
use std::ffi::c_void;
use std::hint::black_box;

const PAINT: u128 = u128::from_ne_bytes([0xA5; 16]);

/// Sixteen bytes a piece, so that its end is where a stack may begin.
pub struct Painted(Vec<u128>);

impl Painted {
    /// Of so many bytes.
    pub fn new(bytes: usize) -> Painted {
        Painted(vec![PAINT; bytes / 16])
    }

    /// Makes the call, and returns how many bytes of the stack it touched, counted from the first one. What is left of a call is painted over.
    pub fn stack(&mut self, call: impl FnOnce()) -> usize {
        let mut call = Some(call);
        let (top, data) = (self.0.as_mut_ptr_range().end, &raw mut call);
        // SAFETY: the stack is ours, larger than any call needs, and the piece at its low end is looked at; `made` takes what `data` points to.
        unsafe { switched(top.cast(), data.cast(), made_of(&call)) };
        let touched = self.0.iter().position(|&piece| piece != PAINT).unwrap_or(self.0.len());
        assert!(touched > 0, "the stack was too small");
        self.0[touched..].fill(PAINT);
        16 * (self.0.len() - touched)
    }
}

type Made = unsafe extern "C" fn(*mut c_void);

/// What makes a call of this type.
fn made_of<C: FnOnce()>(_: &Option<C>) -> Made {
    made::<C>
}

/// # Safety
/// `data` points to an `Option<C>`.
unsafe extern "C" fn made<C: FnOnce()>(data: *mut c_void) {
    // SAFETY: the caller's.
    let call = unsafe { &mut *data.cast::<Option<C>>() };
    call.take().expect("a call is made once")();
}

/// Calls `made` with `data` on another stack, which begins at `top`.
///
/// # Safety
/// The stack is large enough, and `data` is what `made` takes. The call doesn't unwind: an `extern "C"` function doesn't.
unsafe fn switched(top: *mut c_void, data: *mut c_void, made: Made) {
    // SAFETY: r12 is kept by what is called, and brings back the stack; `top` is a multiple of sixteen.
    unsafe {
        asm!(
            "xchg rsp, r12",
            "call {made}",
            "mov rsp, r12",
            made = in(reg) made,
            inout("r12") top => _,
            in("rdi") data,
            clobber_abi("C"),
        );
    }
}

/// That the measure is one: a call that fills so many bytes of its own takes these, and little more.
pub fn check(painted: &mut Painted) {
    const OWN: usize = 20_000;
    #[inline(never)]
    fn fills() {
        let own = [7_u8; OWN];
        black_box(&own);
    }
    let taken = painted.stack(fills);
    assert!((OWN..OWN + 500).contains(&taken), "a call with {OWN} bytes of its own is said to take {taken}");
    assert!(painted.stack(|| ()) < 500, "a call that does nothing takes much");
}
