"""A fault in words: words that are no instruction of RV32IMA, and a log and an ELF file that are
exchanged."""

import case
from recordings import Recordings

WORDS = {
    0xc0002573: "it accesses cycle (as rdcycle does), a control and status register",
    0xf1402573: "it accesses mhartid, a control and status register",
    0x7c005073: "it accesses register 7c0, a control and status register",
    0x30200073: "it is mret, which is of privileged code",
    0x00010001: "it may be a compressed instruction, which -march=rv32ima doesn't make",
    0x0000100f: "it is fence.i, of Zifencei: code can't be written here, so leave it out",
    0x00a57553: "it is of floating point, which -march=rv32ima doesn't make",
}


class FaultsTest(case.Case):
    def test_words_that_are_no_instruction(self):
        with Recordings() as recordings:
            for word, said in WORDS.items():
                log, elf = recordings.words(f"word{word:x}", [word])
                text = self.says("why", log, elf)
                self.assertIn(f"  {word:08x} is no instruction of RV32IMA: {said}.\n", text)
            text = self.says("why", *recordings.words("unknown", [0xffffffff]))
            self.assertIn("  ffffffff is no instruction of RV32IMA.\n", text)

    def test_a_log_and_an_elf_file_that_are_exchanged(self):
        log = self.record("wild_store", "--seed", "1")
        elf = self.elf("wild_store")
        for word in ("why", "race", "view", "bucket", "gdb"):
            self.assertIn("is an ELF file, and the log is named before it",
                          self.refuses(7, word, elf, log))
