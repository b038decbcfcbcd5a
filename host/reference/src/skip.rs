//! A test that needs the reference says in one line that it was left out; the script `test` counts these lines.

/// The reference, or one line and out of the test that asks for it.
#[macro_export]
macro_rules! reference_or_skip {
    () => {
        match $crate::open() {
            Some(reference) => reference,
            None => {
                fn here() {}
                println!(
                    "skipped: {}: the reference is not there",
                    $crate::name_of(&here)
                );
                return;
            }
        }
    };
}

/// The path of the function that `here` is declared in.
pub fn name_of<T>(_here: &T) -> &'static str {
    let path = std::any::type_name::<T>();
    path.strip_suffix("::here").unwrap_or(path)
}
