//! The part of spandsp that is used: its G.726 context at 16 kbit/s, one code to an octet, G.711
//! bytes at the other end; and its state, laid beside ours field by field.

use second::g711::Law;
use second::state::State;
use std::ffi::{c_int, c_void};

/// The first fields of spandsp's context (its private/g726.h). `Peer::new` looks whether they
/// stand where this says, since another release may lay them out otherwise.
#[repr(C)]
struct Context {
    rate: c_int,
    ext_coding: c_int,
    bits_per_sample: c_int,
    packing: c_int,
    yl: i32,
    yu: i16,
    dms: i16,
    dml: i16,
    ap: i16,
    a: [i16; 2],
    b: [i16; 6],
    pk: [i16; 2],
    dq: [i16; 6],
    sr: [i16; 2],
    td: c_int,
}

extern "C" {
    fn g726_init(
        context: *mut Context,
        bit_rate: c_int,
        ext_coding: c_int,
        packing: c_int,
    ) -> *mut Context;
    fn g726_free(context: *mut Context) -> c_int;
    fn g726_encode(
        context: *mut Context,
        codes: *mut u8,
        pcm: *const c_void,
        count: c_int,
    ) -> c_int;
    fn g726_decode(
        context: *mut Context,
        pcm: *mut c_void,
        codes: *const u8,
        count: c_int,
    ) -> c_int;
}

const BIT_RATE: c_int = 16_000;
const ENCODING_ULAW: c_int = 1;
const ENCODING_ALAW: c_int = 2;
const PACKING_NONE: c_int = 0;
pub const CORE: u8 = 2;

pub struct Peer {
    context: *mut Context,
}

impl Peer {
    pub fn new(law: Law) -> Peer {
        let encoding = match law {
            Law::Mu => ENCODING_ULAW,
            Law::A => ENCODING_ALAW,
        };
        // SAFETY: a null context makes spandsp allocate one.
        let context = unsafe { g726_init(std::ptr::null_mut(), BIT_RATE, encoding, PACKING_NONE) };
        assert!(!context.is_null(), "spandsp gave no G.726 context");
        let peer = Peer { context };
        let fields = peer.fields();
        assert!(
            fields.rate == BIT_RATE
                && fields.bits_per_sample == 2
                && fields.packing == PACKING_NONE,
            "spandsp's context is laid out otherwise than expected"
        );
        assert_eq!(peer.state(), State::reset(CORE), "reset state of spandsp");
        peer
    }

    fn fields(&self) -> &Context {
        // SAFETY: the context lives as long as the peer and begins with these fields.
        unsafe { &*self.context }
    }

    fn fields_mut(&mut self) -> &mut Context {
        // SAFETY: as above, and nobody else holds the context.
        unsafe { &mut *self.context }
    }

    pub fn encode(&mut self, pcm: &[u8]) -> Vec<u8> {
        let mut codes = vec![0; pcm.len()];
        // SAFETY: with G.711 at the other end spandsp reads one octet for each sample, and
        // unpacked it writes one for each.
        let written = unsafe {
            g726_encode(
                self.context,
                codes.as_mut_ptr(),
                pcm.as_ptr().cast(),
                pcm.len() as c_int,
            )
        };
        assert_eq!(written as usize, codes.len());
        codes
    }

    pub fn decode(&mut self, codes: &[u8]) -> Vec<u8> {
        let mut pcm = vec![0; codes.len()];
        // SAFETY: as for encode, the other way round.
        let written = unsafe {
            g726_decode(
                self.context,
                pcm.as_mut_ptr().cast(),
                codes.as_ptr(),
                codes.len() as c_int,
            )
        };
        assert_eq!(written as usize, pcm.len());
        pcm
    }

    /// At the number 0: spandsp knows no frames.
    pub fn state(&self) -> State {
        let fields = self.fields();
        State {
            yu: fields.yu as u16,
            yl: fields.yl as u32,
            dms: fields.dms as u16,
            dml: fields.dml as u16,
            ap: fields.ap as u16,
            a1: fields.a[0] as u16,
            a2: fields.a[1] as u16,
            b: fields.b.map(|word| word as u16),
            dq: fields.dq.map(eleven_bits),
            sr1: eleven_bits(fields.sr[0]),
            sr2: eleven_bits(fields.sr[1]),
            pk1: fields.pk[0] as u16,
            pk2: fields.pk[1] as u16,
            td: fields.td as u16,
            core: CORE,
            number: 0,
        }
    }

    pub fn set_state(&mut self, state: &State) {
        let fields = self.fields_mut();
        fields.yu = state.yu as i16;
        fields.yl = state.yl as i32;
        fields.dms = state.dms as i16;
        fields.dml = state.dml as i16;
        fields.ap = state.ap as i16;
        fields.a = [state.a1 as i16, state.a2 as i16];
        fields.b = state.b.map(|word| word as i16);
        fields.dq = state.dq.map(sign_extended);
        fields.sr = [sign_extended(state.sr1), sign_extended(state.sr2)];
        fields.pk = [state.pk1 as i16, state.pk2 as i16];
        fields.td = state.td.into();
    }
}

impl Drop for Peer {
    fn drop(&mut self) {
        // SAFETY: the context came from g726_init and is not used again.
        unsafe { g726_free(self.context) };
    }
}

/// spandsp extends the sign of its eleven-bit floating point words.
fn sign_extended(word: u16) -> i16 {
    (word << 5) as i16 >> 5
}

fn eleven_bits(word: i16) -> u16 {
    word as u16 & 2_047
}
