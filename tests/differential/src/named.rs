//! Tests by the names of known cases.

/// A test by the name of each case of a list, which the file's `holds` is given with that name, and
/// one that none is left out.
#[macro_export]
macro_rules! named {
    ($module:ident, $list:path: $($name:ident)*) => {
        mod $module {
            $(#[test]
            fn $name() {
                super::holds($list(), stringify!($name));
            })*

            #[test]
            fn every_case_has_a_test() {
                let names: Vec<&str> = $list().iter().map(|known| known.name).collect();
                assert_eq!(names, [$(stringify!($name)),*]);
            }
        }
    };
}
