//! A planted fault's place on its thread: `plantable!(Fault)` gives a module `plant` and `planted`.

/// What is planted from now on, and what is, or none.
macro_rules! plantable {
    ($fault:ty) => {
        thread_local! {
            static PLANTED: std::cell::Cell<Option<$fault>> = const { std::cell::Cell::new(None) };
        }

        /// Let this stand in the call's place from now on, or the call itself.
        pub fn plant(fault: Option<$fault>) {
            PLANTED.set(fault);
        }

        /// What stands in the call's place.
        pub fn planted() -> Option<$fault> {
            PLANTED.get()
        }
    };
}

pub(crate) use plantable;
