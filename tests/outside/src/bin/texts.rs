//! Writes the stored texts: `texts INPUT OUTPUT`, two paths. CUNDARIVO_SEED in the environment
//! gives another seed. The module `stored_texts` says what the two files hold.

use outside::{stored_texts, written};

fn main() -> std::io::Result<()> {
    written::write("texts", stored_texts::SEED, |random| {
        let list = stored_texts::stored_texts(random);
        (
            list.len(),
            stored_texts::input(&list),
            stored_texts::output(&list),
        )
    })
}
