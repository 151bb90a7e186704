//! What stands in for the modules of the Rust that its two sources name: `Var` as in src/ppl.rs, the others never called.
pub mod ppl {
    //! `Var` of src/ppl.rs: its number and its Display.
    #[derive(Clone, Copy, Debug, PartialEq, Eq, Hash, PartialOrd, Ord)]
    pub struct Var(pub usize);
    impl Var {
        pub fn id(&self) -> usize {
            self.0
        }
    }
    impl std::fmt::Display for Var {
        fn fmt(&self, f: &mut std::fmt::Formatter<'_>) -> std::fmt::Result {
            let i = self.0;
            if i < 26 {
                let var = ('a' as usize + i) as u8 as char;
                write!(f, "{var}")
            } else {
                write!(f, "x_{i}")
            }
        }
    }
}
pub mod generating_function {
    pub fn factorial_moments_to_moments<T>(_: &[T]) -> (T, Vec<T>) {
        unimplemented!()
    }
}
pub mod semantics {
    pub mod support {
        pub struct Support;
        impl Support {
            pub fn is_discrete(&self) -> bool {
                unimplemented!()
            }
        }
        pub struct VarSupport;
        impl std::ops::Index<crate::ppl::Var> for VarSupport {
            type Output = Support;
            fn index(&self, _: crate::ppl::Var) -> &Support {
                unimplemented!()
            }
        }
    }
}
