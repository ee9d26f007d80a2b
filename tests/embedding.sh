#!/bin/sh
# The library in other languages. ./example and the same program as C++11 print what is stored; the code in the documents compiles
# and does what they say; each constant of the header is the library's; a dropped answer is warned of; the header and
# docs/REFUSALS.md have the refusal numbers of the code; the tests and doc examples of the Rust wrapper pass, and its documents have
# no warning. Prints one line; an error where something differs.
set -e
cd "$(dirname "$0")/.."
out=target/embedding
mkdir -p $out
log=$out/log
archive=target/staticlib/librate_book.a
strict="-pedantic -Wall -Wextra -Werror -I include -I tests/embedding -I $out"

fail() {
    cat "$log"
    echo "embedding: $1"
    exit 1
}

# Puts the block of code that a document has under a name into a file of that name.
code_of() { # DOCUMENT NAME
    awk -v name="$2" -f tests/embedding/code.awk "$1" >"$out/$2"
    [ -s "$out/$2" ] || { : >"$log"; fail "$1 has no code $2"; }
}

# Compiles a test and runs it. It ends with a line 'WHAT: N checks, 0 failed'; the N are added up.
checks=0
run_test() { # WHAT FILE COMPILER..
    what=$1 file=$2
    shift 2
    "$@" $strict "$file" $archive -o $out/test >"$log" 2>&1 || fail "$file does not compile"
    timeout 60 $out/test >"$log" 2>&1 || fail "$what: $file fails"
    checks=$((checks + $(sed -n '$s/.*: \([0-9]*\) checks, 0 failed$/\1/p' "$log")))
}

# Nine dropped answers are nine errors.
warns_of_dropped() { # COMPILER..
    ! "$@" -Werror -I include -c tests/embedding/dropped.c -o $out/dropped.o >"$log" 2>&1 || fail "a dropped answer compiles with $*"
    [ "$(grep -c 'Werror.*unused-result' "$log")" -eq 9 ] || fail "not each dropped answer is an error with $*"
}

tools/need cc g++ cargo rustc

./example >$out/month.stdout 2>"$log" || { cat $out/month.stdout; fail "./example fails"; }
diff examples/c/month.stdout $out/month.stdout >"$log" || fail "./example does not print examples/c/month.stdout"

g++ -x c++ -std=c++11 $strict examples/c/month.c -x none $archive -o $out/month-cpp >"$log" 2>&1 || fail "the C example is no C++"
$out/month-cpp >$out/month.stdout 2>"$log" || fail "the C example fails as C++"
diff examples/c/month.stdout $out/month.stdout >"$log" || fail "as C++ the example does not print examples/c/month.stdout"

code_of README.md quick_start.c
cc -std=c99 $strict $out/quick_start.c $archive -o $out/test >"$log" 2>&1 || fail "README's first program does not compile"
$out/test >"$log" 2>&1 || fail "README's first program fails"
echo "refusal 0, charge 9150000" | diff - "$log" >"$log.diff" || fail "README's first program does not print what it says"

code_of docs/EMBEDDING.md month.h
code_of docs/EMBEDDING.md load.h
code_of docs/EMBEDDING.md cells.h
code_of docs/EMBEDDING.md lent.hpp
run_test "the code of docs/EMBEDDING.md" tests/embedding/embedding_text.c cc -std=c99
run_test "the C++ of docs/EMBEDDING.md" tests/embedding/empty_slices.cpp g++ -std=c++11
run_test "the header's constants" tests/embedding/constants.c cc -std=c99
warns_of_dropped cc -std=c99
warns_of_dropped g++ -x c++ -std=c++17

sed -n '/^pub enum Refusal/,/^}/s/^ *\([A-Z][A-Za-z]*\) = \([0-9]*\),.*/\1 = \2/p' crates/refusal/src/lib.rt | sed 's/\([a-z]\)\([A-Z]\)/\1_\2/g; s/ANumber/A_Number/; s/\(.*\) = /RATE_BOOK_\U\1\E = /' >$out/refusals.code
sed -n '/^enum rate_book_refusal/,/^}/s/^ *\(RATE_BOOK_[A-Z_]* = [1-9][0-9]*\).*/\1/p' include/rate_book.h >$out/refusals.header
sed -n 's/^| \([0-9]*\) | `\([A-Z_]*\)` |.*/RATE_BOOK_\2 = \1/p' docs/REFUSALS.md >$out/refusals.printed
diff $out/refusals.code $out/refusals.header >"$log" || fail "the header's refusal numbers are not the code's"
diff $out/refusals.code $out/refusals.printed >"$log" || fail "the refusal numbers of docs/REFUSALS.md are not the code's"

nm -u $archive 2>"$log" | sed -n 's/^ *U //p' | sort -u >$out/needed
echo memset | diff - $out/needed >"$log" || fail "the archive needs other than memset"

unset RATE_BOOK_LIB_DIR
export CARGO_TARGET_DIR="$PWD/target/rust"
cargo test --offline --manifest-path bindings/rust/Cargo.toml >"$log" 2>&1 || fail "the Rust wrapper's tests fail"
! grep -q '^warning' "$log" || fail "the Rust wrapper compiles with a warning"
passed=$(awk '/^test result: ok/ { passed += $4 } END { print passed + 0 }' "$log")
[ "$passed" -gt 0 ] || fail "the Rust wrapper ran no test"
RUSTDOCFLAGS='-D warnings' cargo doc --offline --no-deps --manifest-path bindings/rust/Cargo.toml >"$log" 2>&1 ||
    fail "the Rust wrapper's documents have a warning"

echo "embedding: the C example prints what is stored, as C99 and as C++11; $checks checks of the documents' code and of the" \
    "header's constants, $passed tests and examples of the Rust wrapper passed"
