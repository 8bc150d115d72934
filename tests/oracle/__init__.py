"""An oracle: a slow, plain reader of the rows of `joint`, whose answers are compared with those of
the companions.

It imports nothing of companion/, and takes another way wherever there is one: rows line by line,
instructions by their text, symbols of nm, lines of addr2line, types of gdb, registers of the log's
Headers. What it holds companions to:

row        what `joint` prints of an instruction. The order of rows is that of `joint`.
call       a `jal` or `jalr` that puts its return address into ra or t0. It returns to the address
           behind it.
return     `jalr zero,0(ra)` or `jalr zero,0(t0)`. It ends the innermost open call that returns to
           that address; calls made in that one have ended with it, though they didn't return. A
           return that fits no open call ends none: the call came before the log's first row, or it
           was a longjmp.
tail call  another `jal` or `jalr`, from outside of a function to its first row, the target being
           what counts: by a register as well. A function is a symbol of nm of kind FUNC; it reaches
           as far as its size says, or if it has none up to the next function. So a loop of a
           function to its own first row is no call. A tail call returns with the call that it
           stands in, at the same row and with the same result.
chain      a row, then the calls over it, innermost first. Of several tail calls in a row only the
           last is in it, since each took the place of the one before. __riscv_restore_N, the
           library's end of functions, is a part of the function that jumps there: a tail call for
           `calls`, and none in a chain.
caller     is unknown if no row of the log, or of those that were read, has the call: the chain ends
           there.
memory     a word is known if a row loaded or stored it, or the file gives it: for the whole log if
           it has its beginning, else for what is read-only. A `read` call that filled a byte of it
           makes it unknown until a row touches it.
register   the Header of a hart's first interval gives all of them, each row the one that it wrote.
argument   what its registers by the calling convention hold at the function's first row. A
           companion may call it unknown only if DWARF says that it has no place there.

python3 -m tests.oracle --help says how it is called."""
