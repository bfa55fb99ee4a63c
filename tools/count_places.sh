#!/bin/sh
# Lists places in src/ that are written in an older form, or may be. Usage: tools/count_places.sh [FOLDER]
# Each line is a place to look at; docs/DESIGN-PASS.md says what became of those of the commit that it names.
cd "${1:-.}" || exit 1
files=$(find crates/*/src -name '*.rt' | sort)
show() {
    echo "== $1"
    shift
    grep -nE "$@" $files | grep -v ': *//' || true
}
show '1 enums' '^ *(pub(\(crate\))? )?enum '
show '1 answers taken apart' '\b(Ok|Err)\(\w+\) =>'
show '1 flags' '\b\w+: bool\b'
show '1 numbers of refusals' 'const \w+: u8 = [0-9]+;|fn number\(&self\) -> u8|[( ]u8, (u16|usize)'
show '3 loops that count or index' '\bwhile\b|\bloop\b|for (i|j|k) in .*\.\.|for \w+ in .*\.\.T::channels'
show '3 bounds and choices by hand' '< 1 \|\||if \w+(\.\w+)* [<>]=? \w+ \{$|if \w+ < left'
show '4 casts' '\bas (u8|u16|u32|u64|usize|i32)\b'
show '4 text by hand' "b'0' \+|b'a' \+|= (self|fault|spot)\.(number|byte|spot|layer|row|column)(\(\))?;"
show '5 parameters that travel together' '(buffer: &mut \[u8\]|bytes: &\[u8\]), (at|place|from)|inks: &I, sheet: &S|inks: &I,$|top: usize, left'
show '5 a fact in several contracts' 'ensures kind'
show '6 arrays with a length beside' '\blen: usize|UNUSED,$|-> \[Tap; MOST_TAPS\]'
show '7 choice of a step, boxed or passed code' '\bdyn\b|\bfn\(|Box<'
