// Usage: oracle < STREAM > ANSWERS: answer accepted cases of calls 1 to 6 (docs/CASES.md) with the unchanged Rust.
//
// The source's text is included as it stands, twice: `one` runs its scalar passes, `four` its lane passes.
// It judges nothing: a case that the port would refuse may panic here, wrap, or be answered.

use std::io::{Read, Write};

mod av2 {
    pub mod one {
        include!(concat!(env!("SOURCE"), "/src/av2/itx.rs"));
    }

    pub mod four {
        include!(concat!(env!("SOURCE"), "/src/av2/itx.rs"));

        #[derive(Clone, Copy)]
        struct Four([i32; 4]);

        impl Four {
            fn each(self, o: Four, f: fn(i32, i32) -> i32) -> Four {
                Four(std::array::from_fn(|i| f(self.0[i], o.0[i])))
            }
        }

        impl Lane for Four {
            fn add(self, o: Four) -> Four {
                self.each(o, i32::wrapping_add)
            }
            fn sub(self, o: Four) -> Four {
                self.each(o, i32::wrapping_sub)
            }
            fn mul_n(self, k: i32) -> Four {
                self.each(Four([k; 4]), i32::wrapping_mul)
            }
            fn from4(a: [i32; 4]) -> Four {
                Four(a)
            }
            fn to4(self) -> [i32; 4] {
                self.0
            }
            fn zero() -> Four {
                Four([0; 4])
            }
        }

        unsafe fn passes(
            tmp: &mut [i32; 32 * 32],
            coeff: &[i32],
            txtp: usize,
            tx: usize,
            bd: i32,
        ) -> (usize, usize, usize, usize, i32) {
            inv_txfm_passes_lanes::<Four>(tmp, coeff, txtp, tx, bd)
        }

        /// Fills the source's own slot for its passes, as its dispatch would for a vector unit.
        pub fn choose_lanes() {
            ITX_PASSES.set(passes).expect("no call came before");
        }
    }

    pub mod wht {
        include!(concat!(env!("SOURCE"), "/src/av2/wht.rs"));
    }
}

struct Reader {
    data: Vec<u8>,
    at: usize,
}

impl Reader {
    fn word(&mut self) -> u64 {
        self.at += 8;
        u64::from_le_bytes(self.data[self.at - 8..self.at].try_into().unwrap())
    }

    fn number(&mut self) -> usize {
        self.word() as usize
    }

    fn small(&mut self) -> i32 {
        self.word() as i32
    }

    fn nums(&mut self) -> Vec<i32> {
        let bytes = 4 * self.number();
        self.at += bytes;
        let part = &self.data[self.at - bytes..self.at];
        let num = |four: &[u8]| i32::from_le_bytes(four.try_into().unwrap());
        part.chunks_exact(4).map(num).collect()
    }

    fn floats(&mut self) -> Vec<f32> {
        let float = |bits: i32| f32::from_bits(bits as u32);
        self.nums().into_iter().map(float).collect()
    }
}

fn done(answers: &mut Vec<u8>) {
    answers.extend([0; 24]);
}

fn put(answers: &mut Vec<u8>, nums: &[i32]) {
    for num in nums {
        answers.extend(num.to_le_bytes());
    }
}

fn recon(lanes: usize, input: &mut Reader, answers: &mut Vec<u8>) {
    let (bd, tx, txtp) = (input.small(), input.number(), input.number());
    let (coeff, pred, mut out) = (input.nums(), input.nums(), input.floats());
    match lanes {
        1 => av2::one::inv_txfm_recon_f32(&mut out, &coeff, txtp, tx, bd, |i| pred[i]),
        _ => av2::four::inv_txfm_recon_f32(&mut out, &coeff, txtp, tx, bd, |i| pred[i]),
    }
    done(answers);
    for float in out {
        answers.extend(float.to_bits().to_le_bytes());
    }
}

fn add(lanes: usize, input: &mut Reader, answers: &mut Vec<u8>) {
    let (bd, tx, txtp) = (input.small(), input.number(), input.number());
    let stride = input.number() as isize;
    let (coeff, mut dst) = (input.nums(), input.nums());
    match lanes {
        1 => av2::one::inv_txfm_add(&mut dst, stride, &coeff, txtp, tx, bd),
        _ => av2::four::inv_txfm_add(&mut dst, stride, &coeff, txtp, tx, bd),
    }
    done(answers);
    put(answers, &dst);
}

fn cctx(input: &mut Reader, answers: &mut Vec<u8>) {
    let (bd, sina, cosa) = (input.small(), input.small(), input.small());
    let (mut u, mut v) = (input.nums(), input.nums());
    av2::one::cctx(&mut u, &mut v, sina, cosa, bd);
    done(answers);
    put(answers, &u);
    put(answers, &v);
}

fn fwht4x4(input: &mut Reader, answers: &mut Vec<u8>) {
    let resid: [i32; 16] = input.nums().try_into().expect("sixteen residuals");
    let _before = input.nums();
    done(answers);
    put(answers, &av2::wht::fwht4x4(&resid));
}

fn main() {
    av2::four::choose_lanes();
    let mut input = Reader {
        data: Vec::new(),
        at: 0,
    };
    std::io::stdin()
        .read_to_end(&mut input.data)
        .expect("a stream");
    let mut answers = Vec::new();
    while input.at < input.data.len() {
        match input.word() {
            1 => recon(1, &mut input, &mut answers),
            2 => recon(4, &mut input, &mut answers),
            3 => add(1, &mut input, &mut answers),
            4 => add(4, &mut input, &mut answers),
            5 => cctx(&mut input, &mut answers),
            6 => fwht4x4(&mut input, &mut answers),
            call => panic!("the Rust has no call {call}"),
        }
    }
    std::io::stdout()
        .write_all(&answers)
        .expect("room for the answers");
}
