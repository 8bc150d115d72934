"""A bridge from gdb's remote protocol to the commands of `debug`: what gdb shows is what `debug`
says, and the ELF file of memory that nothing touched.

May use: call, recording, questions.

How it works
------------
`debug` steps, and the bridge keeps the text of each step. A place is a number of steps. A
breakpoint is a search for ` 00010148 ` in that text, a watchpoint one for `| store 000115e4=`;
backwards it is the same search from the end. So `reverse-continue` searches text and then goes back
once, which takes a quarter of a second over a million steps where single steps would take an hour.

The harts' order is the bridge's: the hart that gdb resumes goes as far as it can, and of those that
it waits for just as many steps are taken as it needs. The last `end` of a hart is never taken, nor
a fault's row: so at a crash all harts have their registers, and the places that they had as the run
ended. Stepping a hart that isn't the next one leaves the known future, which is forgotten.

What gdb needs
--------------
These are what gdb 13 was found to need, and what breaks if one is changed:

- `<osabi>none</osabi>` in the description. Else gdb steps by temporary breakpoints and `vCont;c`,
  and with threads that ends in an internal error.
- Watchpoints stop before the access forward, and behind it backwards. gdb steps over the access by
  itself and compares the values. Reported after the access, each stop would be one row too far.
- A stop at a watchpoint tells one address, and gdb looks at the watchpoints that hold it. What else
  a store changes is told by more stops at the place behind it, of which gdb steps over each
  (stops.py).
- Only a thread that was resumed may report a stop: `vCont;s:1` and `Hc1` with `bs` resume one
  alone.
- A hart that arrives at a breakpoint behind its last row has hit it, though no row is there.
- All harts are always listed, with `x` for the registers of one without a state. A thread that is
  left out gets a new number when it comes back.
- An answer to `m` may be shorter than what was asked for: gdb then knows what can't be read.
"""
