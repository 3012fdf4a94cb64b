//! Measures the proved index beside libcmph, Debian's library of minimal perfect hash functions: its
//! CHM, which keeps the order of the keys, and its BDZ.

use std::process::ExitCode;

#[cfg(not(cmph_at_hand))]
fn main() -> ExitCode {
    println!("bench-cmph: libcmph is not installed; nothing was measured");
    ExitCode::SUCCESS
}

#[cfg(all(cmph_at_hand, not(source_at_hand)))]
fn main() -> ExitCode {
    compare::without_source("nothing was measured")
}

#[cfg(all(cmph_at_hand, source_at_hand))]
fn main() -> ExitCode {
    measured::print_page();
    ExitCode::SUCCESS
}

#[cfg(all(cmph_at_hand, source_at_hand))]
mod measured {
    use super::cmph::{Algorithm, Function, KEY};
    use compare::benchmark::builds::OurBuild;
    use compare::benchmark::clock::{self, Bench, Row, Start};
    use compare::benchmark::lookups::ByteLookups;
    use compare::benchmark::machine;
    use compare::rng::Rng;
    use compare::topics::builds::{key_bytes, Build};
    use std::hint::black_box;

    pub fn print_page() {
        clock::print_page("libcmph", measure, print_method);
    }

    /// Both kinds on the same keys. The value of a key is its position, as CHM's answer is.
    fn measure(bench: &mut Bench, rng: &mut Rng) {
        let keys = rng.keys(bench.keys());
        let values: Vec<u32> = (0..keys.len() as u32).collect();
        let assigned = Build::Assigned(&keys, &values, keys.len() as u32);
        let compact = Build::Compact(&keys);
        let bytes = key_bytes(&keys);
        for (name, asked, algorithm) in [
            ("assigned, CHM", assigned, Algorithm::Chm),
            ("compact, BDZ", compact, Algorithm::Bdz),
        ] {
            let mut ours = OurBuild::new(rng, asked);
            let theirs = build(
                bench,
                &format!("build {name}"),
                &mut ours,
                &bytes,
                algorithm,
            );
            let lookups = ByteLookups::new(&bytes, ours.index());
            let answers = look_up(bench, &format!("lookup {name}"), lookups, &theirs, &bytes);
            check(algorithm, answers);
        }
    }

    fn build(
        bench: &mut Bench,
        what: &str,
        ours: &mut OurBuild,
        bytes: &[u8],
        algorithm: Algorithm,
    ) -> Function {
        let row = Row {
            what,
            items: bench.keys(),
            starts: Start::WARM,
            budget: None,
        };
        let mut built = None;
        bench.beside(
            row,
            || ours.run(),
            || {
                built = Some(Function::new(black_box(bytes), algorithm));
                black_box(&mut built);
            },
        );
        built.expect("it was measured")
    }

    /// The answers of either side.
    fn look_up(
        bench: &mut Bench,
        what: &str,
        mut ours: ByteLookups,
        theirs: &Function,
        bytes: &[u8],
    ) -> [Vec<u32>; 2] {
        let row = Row {
            what,
            items: bench.keys(),
            starts: Start::BOTH,
            budget: None,
        };
        let mut out = vec![0; bench.keys()];
        bench.beside(
            row,
            || ours.run(),
            || {
                for (key, place) in black_box(bytes).chunks_exact(KEY).zip(&mut out) {
                    *place = theirs.search(key);
                }
                black_box(&mut out);
            },
        );
        [ours.out, out]
    }

    /// An answer is the key's position where the order is kept, and else each number below n comes
    /// once.
    fn check(algorithm: Algorithm, answers: [Vec<u32>; 2]) {
        for mut answers in answers {
            if let Algorithm::Bdz = algorithm {
                answers.sort_unstable();
            }
            let right = answers.iter().copied().eq(0..answers.len() as u32);
            assert!(right, "a wrong answer");
        }
    }

    /// What is in the clock's time and what is outside of it.
    fn print_method() {
        machine::print_processor();
        clock::print_method();
        println!(
            "- The same keys of {KEY} bytes on both sides. libcmph takes byte strings of any \
             length and hashes them by Jenkins's function, which costs more than a mix of one \
             word: an index for any strings is the more general thing."
        );
        println!(
            "- Build: ours in buffers that were lent once, outside the clock. libcmph reads the \
             keys through its own adapter for arrays (`cmph_io_struct_vector_adapter`), which \
             copies each; that, what it allocates and what it frees is part of its time. Its seeds \
             are drawn anew for each build, so that its rounds need different numbers of tries: \
             CHM's, whose graph is often refused, above all. Ours tries the same seeds each time."
        );
        println!(
            "- Lookup: of all keys that were built, from bytes. Ours answers all in one call, \
             which reads the keys into a lent room first; libcmph has a call for each key. The \
             answers of both are checked: CHM's and ours assigned are the key's position, BDZ's \
             and ours compact are 0 to n-1 once each."
        );
    }
}

/// The little of libcmph that is measured.
#[cfg(all(cmph_at_hand, source_at_hand))]
mod cmph {
    use std::ffi::{c_char, c_int, c_uint, c_void};

    /// The bytes of a key.
    pub const KEY: usize = 8;

    /// As `CMPH_ALGO` numbers them.
    #[derive(Clone, Copy)]
    pub enum Algorithm {
        Chm = 2,
        Bdz = 5,
    }

    extern "C" {
        fn cmph_io_struct_vector_adapter(
            vector: *const c_void,
            struct_size: c_uint,
            key_offset: c_uint,
            key_length: c_uint,
            keys: c_uint,
        ) -> *mut c_void;
        fn cmph_io_struct_vector_adapter_destroy(source: *mut c_void);
        fn cmph_config_new(source: *mut c_void) -> *mut c_void;
        fn cmph_config_set_algo(config: *mut c_void, algorithm: c_int);
        fn cmph_config_destroy(config: *mut c_void);
        fn cmph_new(config: *mut c_void) -> *mut c_void;
        fn cmph_search(function: *mut c_void, key: *const c_char, length: c_uint) -> c_uint;
        fn cmph_destroy(function: *mut c_void);
    }

    /// A function that libcmph has made for keys, of which it keeps none.
    pub struct Function(*mut c_void);

    impl Function {
        pub fn new(bytes: &[u8], algorithm: Algorithm) -> Self {
            let (key, count) = (KEY as c_uint, (bytes.len() / KEY) as c_uint);
            // SAFETY: the keys stay where they are while the adapter reads them, and what is made
            // here is ended here, but for the function.
            let function = unsafe {
                let source =
                    cmph_io_struct_vector_adapter(bytes.as_ptr().cast(), key, 0, key, count);
                let config = cmph_config_new(source);
                cmph_config_set_algo(config, algorithm as c_int);
                let function = cmph_new(config);
                cmph_config_destroy(config);
                cmph_io_struct_vector_adapter_destroy(source);
                function
            };
            assert!(!function.is_null(), "libcmph made no function");
            Self(function)
        }

        pub fn search(&self, key: &[u8]) -> u32 {
            // SAFETY: the key is read by its pointer and its length.
            unsafe { cmph_search(self.0, key.as_ptr().cast(), key.len() as c_uint) }
        }
    }

    impl Drop for Function {
        fn drop(&mut self) {
            // SAFETY: the function was made by libcmph, and is ended once.
            unsafe { cmph_destroy(self.0) }
        }
    }
}
