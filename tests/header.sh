#!/usr/bin/env bash
# The header for C, include/marrubigai.h, against the library: it declares what is exported, a C program that is compiled with it calls each
# function, and another measures their stack (tests/header). After `scripts/build.sh library`.
set -u
cd "$(dirname "$0")/.." || exit 2
. tests/check.sh

exported() { sed -n 's/^pub extern "C" fn \([a-z_]*\)(.*/\1/p' crates/marrubigai/src/*.rt | sort; }
called() { grep -oE 'marrubigai_[a-z_]+\(' "$1" | tr -d '(' | sort -u; }
own=marrubigai_refusal_word # the header's own
check "the header declares the exported functions" same "$(exported)" "$(called include/marrubigai.h | grep -vx $own)"
check "the test calls the exported functions" same "$(exported)" "$(called tests/header/main.c | grep -vx $own)"
check "the runner declares each of them once" same "$(exported)" "$(grep -hoE 'fn marrubigai_[a-z_]+' tests/runner/*.rs | sed 's/^fn //' | sort)"

check "from outside the library needs memcpy and memset alone" same "memcpy memset" "$(nm -u target/staticlib/libmarrubigai.a | awk '$1 == "U" { print $2 }' | sort -u | xargs)"

# The header's refusals are the rows of the library's page, MARRUBIGAI_ and the word; the test has each of them.
rows() {
  sed -n '/^## Refusals$/,$p' docs/LIBRARY.md | sed -n 's/^| \([0-9][0-9]*\) \([a-z ]*\) |.*/\2=\1/p' | tr 'a-z ' 'A-Z_' | sed 's/=/ = /'
}
refusals() { sed -n '/^enum marrubigai_refusal {$/,/^};$/s/^  MARRUBIGAI_\([A-Z_]* = [0-9]*\).*/\1/p' include/marrubigai.h; }
check "the header's refusals are those of docs/LIBRARY.md" same "PASSED = 0
$(rows)" "$(refusals)"
check "the test has each refusal" same "$(refusals | sed 's/ =.*//' | sort)" \
  "$(grep -oE 'MARRUBIGAI_[A-Z_]+' tests/header/main.c | sed 's/MARRUBIGAI_//' | grep -xF "$(refusals | sed 's/ =.*//')" | sort -u)"

check "tests/header/main.c compiles with the header" \
  cc -std=c11 -pedantic -Wall -Wextra -Werror -O -o "$work/header" tests/header/main.c -L target/staticlib -lmarrubigai
# runs a program and adds up its last line
runs() { # program
  local status more less
  [ -x "$1" ] || return
  "$1" > "$work/out"
  status=$?
  sed '$d' "$work/out"
  read -r more _ less _ <<< "$(tail -n 1 "$work/out" | grep -xE '[0-9]+ passed, [0-9]+ failed' || echo 0 passed, 1 failed)"
  [ "$status" -eq 0 ] || [ "$less" -gt 0 ] || less=1
  passed=$((passed + more))
  failed=$((failed + less))
}
runs "$work/header"
check "the header's words are those of docs/LIBRARY.md" same "0 passed
$(sed -n '/^## Refusals$/,$p' docs/LIBRARY.md | sed -n 's/^| \([0-9][0-9]* [a-z ]*[a-z]\) |.*/\1/p')" \
  "$("$work/header" words | grep -v ' unknown$')"
check "those of the command are among them" same "$(cut -f 1,2 --output-delimiter=' ' command/refusals.txt)" \
  "$("$work/header" words | grep -xF "$(cut -f 1,2 --output-delimiter=' ' command/refusals.txt)")"

check "tests/header/stack.c compiles with the header" \
  cc -std=gnu11 -Wall -Wextra -Werror -O -pthread -o "$work/stack" tests/header/stack.c -L target/staticlib -lmarrubigai
runs "$work/stack"

# the compiler warns of a pointer that is NULL and of an answer that is not looked at
warned() { # statement
  printf '#include "marrubigai.h"\nvoid f(uint8_t *text) { %s }\n' "$1" > "$work/wrong.c"
  ! cc -std=c11 -Wall -Werror -Iinclude -c -o "$work/wrong.o" "$work/wrong.c" 2> /dev/null
}
check "a right call" cc -std=c11 -Wall -Wextra -Werror -Iinclude -c -o "$work/right.o" -x c - <<< \
  '#include "marrubigai.h"
size_t f(uint8_t *text);
size_t f(uint8_t *text) { return marrubigai_put_header(text, 28, 1, 1).count; }'
check "an answer that is not looked at" warned 'marrubigai_put_header(text, 28, 1, 1);'
check "a version that is not looked at" warned '(void)text; marrubigai_version();'
check "a NULL" warned '(void)text; if (marrubigai_put_header(0, 28, 1, 1).count) return;'

# a program in C++ finds the functions by their names too
cat > "$work/call.cpp" <<'END'
#include "marrubigai.h"
int main() {
  uint8_t text[MARRUBIGAI_HEADER_BYTES];
  if (marrubigai_version().minor != MARRUBIGAI_VERSION_MINOR || marrubigai_refusal_word(MARRUBIGAI_NO_ROOM)[0] != 'n') return 1;
  return marrubigai_put_refusal(text, sizeof text, MARRUBIGAI_NO_ROOM, 0).count == MARRUBIGAI_HEADER_BYTES ? 0 : 1;
}
END
check "a program in C++ compiles with the header" \
  g++ -std=c++11 -pedantic -Wall -Wextra -Werror -Iinclude -o "$work/call" "$work/call.cpp" -L target/staticlib -lmarrubigai
check "it calls the library" "$work/call"
finish
