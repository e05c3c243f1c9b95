//! The proved calls on the whole corpus, one test for each call of the table.

use gemcotton_tests::calls::{call, CALLS};
use gemcotton_tests::compare::compare;

macro_rules! tests {
    ($($name:ident)*) => {
        $(
            #[test]
            fn $name() {
                compare(call(stringify!($name)));
            }
        )*

        #[test]
        fn every_call_has_a_test() {
            assert_eq!(CALLS.map(|call| call.name), [$(stringify!($name)),*]);
        }
    };
}

tests! { pack check unpack access search up_to sweep repeat step walk }
