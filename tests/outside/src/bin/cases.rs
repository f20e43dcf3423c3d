//! Writes the stored cases: `cases INPUT OUTPUT`, two paths. CUNDARIVO_SEED in the environment
//! gives another seed. The module `stored` says what the two files hold.

use outside::{stored, written};

fn main() -> std::io::Result<()> {
    written::write("cases", stored::SEED, |random| {
        let list = stored::stored_cases(random);
        (list.len(), stored::input(&list), stored::output(&list))
    })
}
