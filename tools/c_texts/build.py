"""What builds a library and shows it: a Makefile, the symbols that it hands out, and an example in each language."""
from header import HEAP

MAKEFILE = """# make: the library, out/lib{crate}.a and out/lib{crate}.so, and the examples. First rt, of the kit, proves
# what isn't proved yet; make PROVED=FILE takes a library that it made before.
RT ?= rt
CFLAGS ?= -O2 -Wall -Wextra
LIBRARY = out/lib{crate}

all: $(LIBRARY).a $(LIBRARY).so out/example $(if $(shell command -v rustc),out/example_rust)

ifndef PROVED
PROVED = ../out/lib{crate}.a
$(PROVED): FORCE
	cd .. && $(RT) lib
endif

out/heap.o: heap.c
	mkdir -p out
	$(CC) $(CFLAGS) -fPIC -c -o $@ heap.c

$(LIBRARY).a: $(PROVED) out/heap.o
	rm -f $@
	cp $(PROVED) $@
	$(AR) r $@ out/heap.o

$(LIBRARY).so: $(LIBRARY).a exports.map
	$(CC) -shared -o $@ -Wl,--whole-archive $(LIBRARY).a -Wl,--no-whole-archive -Wl,--version-script=exports.map

out/example: example.c {crate}.h $(LIBRARY).a
	$(CC) $(CFLAGS) -o $@ example.c $(LIBRARY).a

$(LIBRARY).rlib: rust/src/lib.rs $(LIBRARY).a
	rustc -O --edition 2021 --crate-type rlib --crate-name {crate} -L out -l static={crate} -o $@ rust/src/lib.rs

out/example_rust: example.rs $(LIBRARY).rlib
	rustc -O --edition 2021 --extern {crate}=$(LIBRARY).rlib -o $@ example.rs

clean:
	rm -rf out

FORCE:
.PHONY: all clean FORCE
"""

EXAMPLE_C = """/* Reads bytes, and says whether they are accepted as {full}, with the encoding of what they mean. */
#include "{crate}.h"
#include <stdio.h>
#include <stdlib.h>

static uint8_t bytes[1 << 16];

int main(void) {{
    size_t len = fread(bytes, 1, sizeof bytes, stdin), room = 0, written = 0;
    uint32_t answer = {name}_check(bytes, len);
    if (answer != BUFFA_ACCEPTED || (answer = {name}_room(bytes, len, &room)) != BUFFA_ACCEPTED) {{
{refused}
        return 1;
    }}
    uint8_t *out = malloc(room ? room : 1);
    if (!out || {name}_canonical(bytes, len, out, room, &written) != BUFFA_ACCEPTED)
        return 2;
    for (size_t at = 0; at < written; at++)
        printf("%02x", out[at]);
    printf("\\n");
    free(out);
    return 0;
}}
"""

EXAMPLE_RUST = """//! Reads bytes, and says whether they are accepted as {full}, with the encoding of what they mean.
use std::io::Read;

fn main() -> std::io::Result<()> {{
    let mut bytes = Vec::new();
    std::io::stdin().read_to_end(&mut bytes)?;
    match {crate}::{module}::check(&bytes).and_then(|()| {crate}::{module}::canonical(&bytes)) {{
        Ok(out) => println!("{{}}", out.iter().map(|it| format!("{{it:02x}}")).collect::<String>()),
        Err(refused) => {{
{refused}
            std::process::exit(1);
        }}
    }}
    Ok(())
}}
"""

EXAMPLE_PYTHON = '''"""Reads bytes, and says whether they are accepted as {full}, with the encoding of what they mean."""
import sys

import {crate}

data = sys.stdin.buffer.read()
try:
    {crate}.{name}_check(data)
    print({crate}.{name}_canonical(data).hex())
except {crate}.Refused as refused:
    {refused}
    sys.exit(1)
'''

# What an example says of refused bytes: where they are refused, if a call tells that, or else the number of the answer.
REFUSED = {
    "c": '        printf("refused %u\\n", answer);',
    "rs": '            println!("refused {{}}", refused.0);',
    "py": 'print("refused", refused.answer)',
}
LOCATED = {
    "c": """        size_t steps, offset;
        {name}_place(bytes, len, BUFFA_USUAL, path, sizeof path / sizeof *path, &steps, &offset);
        printf("refused %u at byte %zu\\n", answer, offset);""",
    "rs": """            match {crate}::{module}::place(&bytes, Default::default()) {{
                Ok(Some(place)) => println!("refused: {{place}}"),
                _ => println!("refused {{}}", refused.0),
            }}""",
    "py": 'print("refused:", {crate}.{name}_place(data) or refused)',
}


def example(text, kind, library, words):
    """An example: its text, with what it says of refused bytes."""
    refused = (LOCATED if library.is_located else REFUSED)[kind].format(**words)
    made = text.format(**words, refused=refused)
    if kind == "c" and library.is_located:
        made = made.replace("static uint8_t bytes[1 << 16];\n", "static uint8_t bytes[1 << 16];\nstatic struct buffa_step path[8];\n")
    return made


def exports_map(library):
    names = " ".join(f"{gate.prefix}_{name};" for gate in library.gates for name in names_of(gate))
    return f"{{ global: {names} local: *; }};\n"


def names_of(gate):
    return ["check", "check_within"] + ["place"] * gate.is_located + ["canonical", "room", "is_canonical"] + ["canonical_declared"] * gate.is_discarding + [it.name for it in gate.told]


def files(library):
    first = library.gates[0]
    words = {"crate": library.crate, "full": first.full, "name": first.prefix, "module": first.snake}
    return {
        "Makefile": MAKEFILE.format(crate=library.crate),
        "heap.c": HEAP,
        "exports.map": exports_map(library),
        "example.c": example(EXAMPLE_C, "c", library, words),
        "example.rs": example(EXAMPLE_RUST, "rs", library, words),
        "example.py": example(EXAMPLE_PYTHON, "py", library, words),
    }
