//! Section 6.2 once more, word for word with its masks, and the signed engine held against it.
//! Streams from reset never come near most states of the table of ranges; this comparison draws
//! its states from the whole table. Masks that the scan lost are those of G.726.

use random::states::{any_state, PAIRS};
use random::Random;
use second::engine::{advance, estimate};
use second::g711::{compress, expand, Law};
use second::quantizer;
use second::state::State;

/// The exponent tables of FLOATA, FLOATB and FMULT: a chain of comparisons.
fn exponent(mag: u32) -> u32 {
    (1..=15).rev().find(|&e| 1 << (e - 1) <= mag).unwrap_or(0)
}

fn fmult(an: u32, srn: u32) -> u32 {
    let ans = an >> 15;
    let anmag = if ans == 0 {
        an >> 2
    } else {
        (16384 - (an >> 2)) & 8191
    };
    let anexp = exponent(anmag);
    let anmant = if anmag == 0 {
        1 << 5
    } else {
        (anmag << 6) >> anexp
    };
    let srns = srn >> 10;
    let srnexp = (srn >> 6) & 15;
    let srnmant = srn & 63;
    let wans = srns ^ ans;
    let wanexp = srnexp + anexp;
    let wanmant = ((srnmant * anmant) + 48) >> 4;
    let wanmag = if wanexp <= 26 {
        (wanmant << 7) >> (26 - wanexp)
    } else {
        ((wanmant << 7) << (wanexp - 26)) & 32767
    };
    if wans == 0 {
        wanmag
    } else {
        (65536 - wanmag) & 65535
    }
}

/// ACCUM: SE and SEZ as 15-bit words.
fn accum(s: &State) -> (u32, u32) {
    let wb: Vec<u32> = (0..6)
        .map(|i| fmult(s.b[i].into(), s.dq[i].into()))
        .collect();
    let wa1 = fmult(s.a1.into(), s.sr1.into());
    let wa2 = fmult(s.a2.into(), s.sr2.into());
    let mut sezi = (wb[0] + wb[1]) & 65535;
    for w in &wb[2..] {
        sezi = (sezi + w) & 65535;
    }
    let sei = (((sezi + wa2) & 65535) + wa1) & 65535;
    (sei >> 1, sezi >> 1)
}

/// LIMA and MIX.
fn scale(s: &State) -> u32 {
    let ap = u32::from(s.ap);
    let al = if ap >= 256 { 64 } else { ap >> 2 };
    let dif = (u32::from(s.yu) + 16384 - (s.yl >> 6)) & 16383;
    let difs = dif >> 13;
    let difm = if difs == 0 { dif } else { (16384 - dif) & 8191 };
    let prodm = (difm * al) >> 6;
    let prod = if difs == 0 {
        prodm
    } else {
        (16384 - prodm) & 16383
    };
    ((s.yl >> 6) + prod) & 8191
}

fn magnitude_bits(i: u32, c: u32) -> usize {
    let is = i >> (c - 1);
    let ones = (1 << (c - 1)) - 1;
    let im = if is == 0 {
        i & ones
    } else {
        ((1 << c) - 1 - i) & ones
    };
    im as usize
}

/// Tables 12 to 15, the positive halves from magnitude 0 up.
fn dqln(c: u32, im: usize) -> u32 {
    match c {
        2 => [116, 365][im],
        3 => [4085, 199, 307, 395][im],
        4 => [3961, 68, 165, 232, 285, 332, 377, 428][im],
        _ => [
            3832, 4035, 34, 97, 145, 184, 217, 246, 273, 298, 321, 344, 367, 391, 419, 456,
        ][im],
    }
}

/// RECONST, ADDA and ANTILOG: DQ as 15 bits of sign and magnitude.
fn inverse_quantizer(i: u32, c: u32, y: u32) -> u32 {
    let dqs = i >> (c - 1);
    let dql = (dqln(c, magnitude_bits(i, c)) + (y >> 2)) & 4095;
    let ds = dql >> 11;
    let dex = (dql >> 7) & 15;
    let dmn = dql & 127;
    let dqt = (1 << 7) + dmn;
    let dqmag = if ds == 0 { (dqt << 7) >> (14 - dex) } else { 0 };
    (dqs << 14) + dqmag
}

/// FUNCTW, FILTD, LIMB, FILTE: YUP and YLP.
fn scale_factors(s: &State, im: usize, y: u32) -> (u32, u32) {
    let wi: u32 = match s.core {
        2 => [4074, 439][im],
        3 => [4092, 30, 137, 582][im],
        _ => [4084, 4, 27, 50, 98, 184, 340, 1108][im],
    };
    let dif = ((wi << 5) + 131072 - y) & 131071;
    let difs = dif >> 16;
    let difsx = if difs == 0 {
        dif >> 5
    } else {
        (dif >> 5) + 4096
    };
    let yut = (y + difsx) & 8191;
    let geul = ((yut + 11264) & 16383) >> 13;
    let gell = ((yut + 15840) & 16383) >> 13;
    let yup = match (gell, geul) {
        (1, _) => 544,
        (_, 0) => 5120,
        _ => yut,
    };
    let dif = (yup + ((1048576 - s.yl) >> 6)) & 16383;
    let difs = dif >> 13;
    let difsx = if difs == 0 { dif } else { dif + 507904 };
    (yup, (s.yl + difsx) & 524287)
}

/// FUNCTF, FILTA, FILTB: DMSP and DMLP.
fn averages(s: &State, im: usize) -> (u32, u32) {
    let fi: u32 = match s.core {
        2 => [0, 7][im],
        3 => [0, 1, 2, 7][im],
        _ => [0, 0, 0, 1, 1, 1, 3, 7][im],
    };
    let dms = u32::from(s.dms);
    let dif = ((fi << 9) + 8192 - dms) & 8191;
    let difsx = if dif >> 12 == 0 {
        dif >> 5
    } else {
        (dif >> 5) + 3840
    };
    let dmsp = (difsx + dms) & 4095;
    let dml = u32::from(s.dml);
    let dif = ((fi << 11) + 32768 - dml) & 32767;
    let difsx = if dif >> 14 == 0 {
        dif >> 7
    } else {
        (dif >> 7) + 16128
    };
    (dmsp, (difsx + dml) & 16383)
}

/// SUBTC, FILTC, TRIGA: APR.
fn speed(s: &State, y: u32, dmsp: u32, dmlp: u32, tdp: u32, tr: u32) -> u32 {
    let dif = ((dmsp << 2) + 32768 - dmlp) & 32767;
    let difs = dif >> 14;
    let difm = if difs == 0 {
        dif
    } else {
        (32768 - dif) & 16383
    };
    let dthr = dmlp >> 3;
    let ax = if y >= 1536 && difm < dthr && tdp == 0 {
        0
    } else {
        1
    };
    let ap = u32::from(s.ap);
    let dif = ((ax << 9) + 2048 - ap) & 2047;
    let difs = dif >> 10;
    let difsx = if difs == 0 {
        dif >> 4
    } else {
        (dif >> 4) + 896
    };
    let app = (difsx + ap) & 1023;
    if tr == 0 {
        app
    } else {
        256
    }
}

/// What ADDB and ADDC have in common: sign and magnitude plus a sign-extended 15-bit word.
fn sum_with(dq: u32, estimate: u32) -> u32 {
    let dqi = if dq >> 14 == 0 {
        dq
    } else {
        (65536 - (dq & 16383)) & 65535
    };
    let extended = if estimate >> 14 == 0 {
        estimate
    } else {
        (1 << 15) + estimate
    };
    (dqi + extended) & 65535
}

fn floata(dq: u32) -> u32 {
    let dqs = dq >> 14;
    let mag = dq & 16383;
    let exp = exponent(mag);
    let mant = if mag == 0 { 1 << 5 } else { (mag << 6) >> exp };
    (dqs << 10) + (exp << 6) + mant
}

fn floatb(sr: u32) -> u32 {
    let srs = sr >> 15;
    let mag = if srs == 0 { sr } else { (65536 - sr) & 32767 };
    let exp = exponent(mag);
    let mant = if mag == 0 { 1 << 5 } else { (mag << 6) >> exp };
    (srs << 10) + (exp << 6) + mant
}

fn leak(coefficient: u32, shift: u32) -> u32 {
    if coefficient >> 15 == 0 {
        (65536 - (coefficient >> shift)) & 65535
    } else {
        let ones = 65536 - (65536 >> shift);
        (65536 - ((coefficient >> shift) + ones)) & 65535
    }
}

fn upa1(s: &State, pk0: u32, sigpk: u32) -> u32 {
    let a1 = u32::from(s.a1);
    let pks = pk0 ^ u32::from(s.pk1);
    let uga1 = match (pks, sigpk) {
        (_, 1) => 0,
        (0, _) => 192,
        _ => 65344,
    };
    let ua1 = (uga1 + leak(a1, 8)) & 65535;
    (a1 + ua1) & 65535
}

fn upa2(s: &State, pk0: u32, sigpk: u32) -> u32 {
    let (a1, a2) = (u32::from(s.a1), u32::from(s.a2));
    let pks1 = pk0 ^ u32::from(s.pk1);
    let pks2 = pk0 ^ u32::from(s.pk2);
    let uga2a = if pks2 == 0 { 16384 } else { 114688 };
    let fa1 = match a1 {
        0..=8191 => a1 << 2,
        8192..=32767 => 8191 << 2,
        32768..=57344 => 24577 << 2,
        _ => (a1 << 2) & 131071,
    };
    let fa = if pks1 == 1 {
        fa1
    } else {
        (131072 - fa1) & 131071
    };
    let uga2b = (uga2a + fa) & 131071;
    let uga2s = uga2b >> 16;
    let uga2 = match (uga2s, sigpk) {
        (_, 1) => 0,
        (0, _) => uga2b >> 7,
        _ => (uga2b >> 7) + 64512,
    };
    let ua2 = (uga2 + leak(a2, 7)) & 65535;
    (a2 + ua2) & 65535
}

fn limc(a2t: u32) -> u32 {
    match a2t {
        32768..=53248 => 53248,
        12288..=32767 => 12288,
        _ => a2t,
    }
}

fn limd(a1t: u32, a2p: u32) -> u32 {
    let ome = 15360;
    let a1ul = (ome + 65536 - a2p) & 65535;
    let a1ll = (a2p + 65536 - ome) & 65535;
    if 32768 <= a1t && a1t <= a1ll {
        a1ll
    } else if a1ul <= a1t && a1t <= 32767 {
        a1ul
    } else {
        a1t
    }
}

fn upb(bn: u32, dqn: u32, dq: u32) -> u32 {
    let un = (dq >> 14) ^ (dqn >> 10);
    let ugb = match (dq & 16383, un) {
        (0, _) => 0,
        (_, 0) => 128,
        _ => 65408,
    };
    let ub = (ugb + leak(bn, 8)) & 65535;
    (bn + ub) & 65535
}

fn trans(s: &State, dq: u32) -> u32 {
    let dqmag = dq & 16383;
    let ylint = s.yl >> 15;
    let ylfrac = (s.yl >> 10) & 31;
    let thr1 = (32 + ylfrac) << ylint;
    let thr2 = if ylint > 8 { 31 << 9 } else { thr1 };
    let dqthr = (thr2 + (thr2 >> 1)) >> 1;
    u32::from(dqmag > dqthr && s.td == 1)
}

fn next_state(s: &State, ic: u32) -> State {
    let c = u32::from(s.core);
    let im = magnitude_bits(ic, c);
    let y = scale(s);
    let (se, sez) = accum(s);
    let dq = inverse_quantizer(ic, c, y);
    let dqsez = sum_with(dq, sez);
    let (pk0, sigpk) = (dqsez >> 15, u32::from(dqsez == 0));
    let a2p = limc(upa2(s, pk0, sigpk));
    let a1p = limd(upa1(s, pk0, sigpk), a2p);
    let tdp = u32::from((32768..53760).contains(&a2p));
    let tr = trans(s, dq);
    let (yup, ylp) = scale_factors(s, im, y);
    let (dmsp, dmlp) = averages(s, im);
    let trigb = |value: u32| if tr == 0 { value as u16 } else { 0 };
    State {
        yu: yup as u16,
        yl: ylp,
        dms: dmsp as u16,
        dml: dmlp as u16,
        ap: speed(s, y, dmsp, dmlp, tdp, tr) as u16,
        a1: trigb(a1p),
        a2: trigb(a2p),
        b: std::array::from_fn(|i| trigb(upb(s.b[i].into(), s.dq[i].into(), dq))),
        dq: std::array::from_fn(|i| {
            if i == 0 {
                floata(dq) as u16
            } else {
                s.dq[i - 1]
            }
        }),
        sr1: floatb(sum_with(dq, se)) as u16,
        sr2: s.sr1,
        pk1: pk0 as u16,
        pk2: s.pk1,
        td: trigb(tdp),
        core: s.core,
        number: s.number,
    }
}

fn as_word(value: i32, bits: u32) -> u32 {
    value as u32 & ((1 << bits) - 1)
}

#[test]
fn the_signed_engine_is_the_printed_one_on_states_of_the_whole_table() {
    let mut random = Random::new(1);
    for round in 0..1_200_000 {
        let core = [2, 3, 4][round % 3];
        let state = any_state(&mut random, core);
        let (se, sez) = accum(&state);
        let found = estimate(&state);
        assert_eq!(found.y as u32, scale(&state), "Y of {state:?}");
        assert_eq!(as_word(found.se, 15), se, "SE of {state:?}");
        assert_eq!(as_word(found.sez, 15), sez, "SEZ of {state:?}");
        let ic = random.below(1 << core) as u8;
        assert_eq!(
            advance(&state, ic),
            next_state(&state, ic.into()),
            "{ic} after {state:?}"
        );
    }
}

#[test]
fn a_walk_from_any_state_stays_with_the_printed_engine() {
    let mut random = Random::new(2);
    for round in 0..300 {
        let core = [2, 3, 4][round % 3];
        let mut state = any_state(&mut random, core);
        let mut held = random.below(1 << core) as u8;
        for _ in 0..1_000 {
            if random.below(50) == 0 {
                held = random.below(1 << core) as u8;
            }
            let next = advance(&state, held);
            assert_eq!(next, next_state(&state, held.into()));
            state = next;
        }
    }
}

/// LOG and SUBTB in words: DS and DLN.
fn log_word(d: u32, y: u32) -> (u32, u32) {
    let ds = d >> 15;
    let dqm = if ds == 0 { d } else { (65536 - d) & 32767 };
    let exp = (1..=14).rev().find(|&e| 1 << e <= dqm).unwrap_or(0);
    let mant = ((dqm << 7) >> exp) & 127;
    let dl = (exp << 7) + mant;
    (ds, (dl + 4096 - (y >> 2)) & 4095)
}

#[test]
fn every_difference_has_the_printed_logarithm() {
    for y in [544, 545, 547, 548, 1_536, 2_718, 5_117, 5_120] {
        for d in 0..65_536_u32 {
            let difference = i32::from(d as u16 as i16);
            let (ds, dln) = log_word(d, y);
            let found = second::logarithm::normalized_log(difference, y as i32);
            assert_eq!((u32::from(difference < 0), as_word(found, 12)), (ds, dln));
            assert!(dln <= 1_783 || dln >= 2_816);
        }
    }
}

#[test]
fn every_codeword_has_the_printed_difference_at_every_scale() {
    for width in 2..=5_u8 {
        for codeword in 0..1_u8 << width {
            for y in 544..=5_120 {
                let dq = inverse_quantizer(codeword.into(), width.into(), y);
                let size = (dq & 16383) as i32;
                let signed = if dq >> 14 == 0 { size } else { -size };
                assert_eq!(quantizer::reconstruct(width, codeword, y as i32), signed);
            }
        }
    }
}

/// COMPRESS by the usual segment arithmetic instead of a list of decision values.
fn compress_by_segments(law: Law, sr: u32) -> u8 {
    let is = sr >> 15;
    let im = if is == 0 { sr } else { (65536 - sr) & 32767 };
    match law {
        Law::Mu => !((is as u8) << 7 | mu_magnitude(im)),
        Law::A if is == 0 => (0x80 | a_magnitude(im >> 1)) ^ 0x55,
        Law::A => a_magnitude(((im + 1) >> 1).saturating_sub(1)) ^ 0x55,
    }
}

fn mu_magnitude(imag: u32) -> u8 {
    let biased = (imag + 33).min(8191);
    let segment = biased.ilog2() - 5;
    (segment << 4 | (biased >> (segment + 1) & 15)) as u8
}

fn a_magnitude(imag: u32) -> u8 {
    let held = imag.min(4095);
    let segment = held.max(16).ilog2() - 4;
    (segment << 4 | (held >> segment.max(1) & 15)) as u8
}

#[test]
fn every_reconstructed_signal_is_compressed_as_segments_have_it() {
    for law in Law::BOTH {
        for sr in 0..65_536_u32 {
            let level = i32::from(sr as u16 as i16);
            assert_eq!(
                compress(law, level),
                compress_by_segments(law, sr),
                "{law:?} {level}"
            );
        }
    }
}

#[test]
fn the_difference_of_two_ends_never_leaves_sixteen_bits() {
    let mut random = Random::new(3);
    for (width, core) in PAIRS {
        for _ in 0..2_000 {
            let state = any_state(&mut random, core);
            let now = estimate(&state);
            let byte = random.byte();
            for law in Law::BOTH {
                let d = expand(law, byte) - now.se;
                assert!((-24_448..=24_448).contains(&d));
            }
            let codeword = random.below(1 << width) as u8;
            let sr = quantizer::reconstruct(width, codeword, now.y) + now.se;
            assert!((-29_184..=29_183).contains(&sr));
        }
    }
}
