"""Wrong lines: each is put in the place of a right one of a core, and is to be caught by some image.

Each names the file, where `top` is the generated module, the line and what replaces it, and words that the names of the
images begin with, one of which shows it.
"""
from dataclasses import dataclass

PARTS, TOP = "silc_parts.v", "core.v"


@dataclass(frozen=True)
class Planted:
    what: str
    file: str
    old: str
    new: str
    images: tuple
    is_full: bool = False


PLANTED = [
    Planted("a register that is read as it is written has its old word", PARTS,
            "if (step) read <= write && into == next ? data : stored;", "if (step) read <= stored;", ("random",)),
    Planted("an address that is read ahead as it is written is the old one", PARTS,
            "wire [WIDTH-1:0] coming = write && into == next ? data : stored;", "wire [WIDTH-1:0] coming = stored;",
            ("ring of 3", "ring of 7")),
    Planted("a row that waits is overwritten", PARTS, "assign put_row = due && (!full || out_ready);",
            "assign put_row = due;", ("memory 1 1",)),
    Planted("a row is taken in the last cycle of a sample that waits", PARTS,
            "(!held || (run && last));", "(!held || last);", ("random",)),
    Planted("the cycle after a reset has the register numbers of another", PARTS,
            "at <= FIRST_AT;", "at <= {BITS{1'b0}};", ("random", "first words")),
    Planted("a fault's sample puts its row", PARTS, "if (run && last && !stray) due <= 1'b1;",
            "if (run && last) due <= 1'b1;", ("stray address",)),
    Planted("rounding takes another bit", PARTS, "wire rounds = wide[BELOW] && ROUND != 0;",
            "wire rounds = wide[AT] && ROUND != 0;", ("pass", "add", "mul")),
    Planted("a number that is too great is cut to the word's bits", PARTS, "own = fits ? moved :",
            "own = 1'b1 ? moved :", ("add 0", "mul 0")),
    Planted("what is above the greatest word becomes the least", PARTS, "exact[IN-1] ? LEAST : ~LEAST;",
            "exact[IN-1] ? ~LEAST : LEAST;", ("add 0", "mul 0")),
    Planted("the greatest word is rounded up", PARTS, "rounds && fits && own != ~LEAST;", "rounds && fits;",
            ("pass 1 3", "add 1 3 39")),
    Planted("the bit that shows whether a word has room is one too high", PARTS,
            "&wide[TOP:AT+WIDTH-1] || !(|wide[TOP:AT+WIDTH-1]);",
            "&wide[TOP:AT+WIDTH] || !(|wide[TOP:AT+WIDTH]);", ("pass -1", "add 0")),
    Planted("a format's sign is not its own", PARTS, "{{(OUT - WIDTH){rounded[WIDTH-1]}}, rounded[WIDTH-1:0]};",
            "{{(OUT - WIDTH){rounded[OUT-1]}}, rounded[WIDTH-1:0]};", ("random",)),
    Planted("a load sees a store of its own cycle", PARTS, "if (run) read <= stored;",
            "if (run) read <= ends && into == address ? data : stored;", ("memory",)),
    Planted("a load of one cycle does not see the store before it", PARTS,
            "if (step) read <= write && into == next ? data : stored;", "if (step) read <= stored;", ("memory 1",)),
    Planted("a store ends a cycle too early", PARTS, ".CYCLES(LATENCY - 1)) stores (",
            ".CYCLES(LATENCY > 1 ? LATENCY - 2 : 0)) stores (", ("memory",)),
    Planted("a circular buffer turns the other way", PARTS, "? HIGHEST : origin -", "? HIGHEST : origin +",
            ("ring of 3", "ring of 4")),
    Planted("an address is not taken around", PARTS, "assign address = around[BITS] ? sum",
            "assign address = 1'b1 ? sum", ("ring of 3", "ring of 7")),
    Planted("less or equal is less", PARTS, "LE: truth = less || same;", "LE: truth = less;", ("truth input le",)),
    Planted("or is and", PARTS, "OR: truth = a_holds || b_holds;", "OR: truth = a_holds && b_holds;",
            ("truth input or",)),
    Planted("a factor has no sign", PARTS, "{{A{b[B-1]}}, b};", "{{A{1'b0}}, b};", ("mul",)),
    Planted("a reset leaves what is under way", PARTS, "if (clear) line <= {WIDTH{1'b0}};",
            "if (1'b0) line <= {WIDTH{1'b0}};", ("latch twice 2", "memory 2", "random")),
    Planted("a reset brings zeros in the place of first words", PARTS, "if (fill) words[fill_at] <= first;",
            "if (fill) words[fill_at] <= {WIDTH{1'b0}};", ("first words",)),
    Planted("a reset leaves the cells", PARTS, "if (fill) words[fill_at] <= first;", "if (1'b0) words[0] <= first;",
            ("memory 2 1", "ring of 7")),
    Planted("the latches keep their words over a reset", TOP, "        if (rst) begin", "        if (1'b0) begin",
            ("latch twice", "random")),
    Planted("an input row is not held", TOP, "if (take_row) begin", "if (1'b1) begin", ("truth input", "random")),
    Planted("an address outside of its memory goes on", TOP, "    assign stray = ", "    assign stray = 1'b0 && ",
            ("stray address",)),
    Planted("a wide shift is one too short", PARTS, "wide >>> shift;", "wide >>> (shift - 7'd1);", ("pass", "neg"),
            True),
    Planted("any width has the sign of another bit", PARTS, "(above & {OUT{rounded[width]}});",
            "(above & {OUT{rounded[0]}});", ("pass 1", "random"), True),
    Planted("any format wraps", PARTS, "assign word = sat && is_outside ?", "assign word = 1'b0 ?", ("add 0", "mul 0"),
            True),
    Planted("in any format the greatest word is rounded up", PARTS, " || (rounds && moved[OUT:1] == greatest);", ";",
            ("pass 1 3", "add 1 3 39"), True),
    Planted("in any format the other end is the nearest", PARTS, "greatest ^ {OUT{exact[IN-1]}}",
            "~greatest ^ {OUT{exact[IN-1]}}", ("add 0", "mul 0"), True),
]
