"""The top of a board: a core between a receiver and a transmitter of serial audio, with control words of a serial line;
and the bench that plays a codec, and a host at that line."""
from __future__ import annotations

from dataclasses import dataclass
from pathlib import Path

from silc.programs import PACKAGE, in_checkout

from .boards import MASTER, Board
from .control import LEAST_BITS as LEAST_CONTROL_BITS, LINE_BITS, MOST_WORDS
from .netlist import Core, NoCore
from .words import Range

SERIAL, UART = "silc_i2s.v", "silc_uart.v"
# What the bench reads: rows of audio, and bytes of the serial line, each behind the row from which on it is sent.
SAMPLES, BYTES = "samples.txt", "bytes.txt"
TOP, CODEC = "board", "codec_tb"
LEAST_BITS, MOST_BITS = 16, 32
# A frame has so many bits on the lines, and as a master so many clocks.
FRAME_BITS, FRAME_CLOCKS = 64, 256
# How many clocks a bit of a slave has to have: its edge is seen up to three clocks late, and the line has to stand at
# the next.
BIT_CLOCKS = 3.25
# The bench counts time in steps of 10 ps.
STEPS = 10**11
BAUD = 115_200
# A bit of the serial line has so many clocks at least, and its length may be off by such a share.
SERIAL_CLOCKS, SERIAL_OFF = 8, 0.02


class NoBoard(NoCore):
    """Why there is no top for a core."""


def module_text(name: str) -> str:
    """The text of a file with modules: the package's own copy, or the checkout's."""
    own = Path(PACKAGE, "hardware", name)
    return (own if own.is_file() else Path(in_checkout("hardware", name))).read_text()


@dataclass(frozen=True)
class Audio:
    """How the lines are used: bits of a word, who gives the clocks, samples a second, the bits of an output word of the
    core, where it has more than its port, how many of the core's words a host writes, and at how many bits a second."""
    bits: int
    role: str
    rate: float
    out_bits: int | None = None
    controls: int = 0
    baud: int = BAUD

    def serial_clocks(self, board: Board) -> int:
        """How many clocks a bit of the serial line has."""
        return round(board.hertz / self.baud)

    def is_master(self) -> bool:
        return self.role == MASTER


def master_rate(board: Board) -> float:
    return board.hertz / FRAME_CLOCKS


def check_rate(board: Board, audio: Audio, period: int) -> None:
    """Raises where the clock of a board can't serve a rate."""
    own, clocks = master_rate(board), board.hertz / audio.rate
    if audio.is_master() and abs(audio.rate - own) > 1e-6 * own:
        raise NoBoard(f"as a master an {board.name} has {own:,g} samples a second, {FRAME_CLOCKS} clocks each, and not "
                      f"{audio.rate:,.10g}; as a slave it takes the codec's")
    if period > clocks:
        raise NoBoard(f"{audio.rate:,.10g} samples a second leave {clocks:.1f} clocks of {board.hertz / 1e6:g} MHz "
                      f"for each, and the core takes {period}")
    if not audio.is_master() and clocks / FRAME_BITS < BIT_CLOCKS:
        raise NoBoard(f"as a slave an {board.name} reads up to {board.hertz / BIT_CLOCKS / FRAME_BITS:,.0f} samples "
                      f"a second, with {FRAME_BITS} bits a frame")


def check_core(core: Core, controls: int = 0) -> None:
    """Raises where a core's rows are no words of audio, but for so many words at their end."""
    counts = len(core.inputs) - controls, len(core.outputs)
    beside = f" beside {controls} control words" if controls else ""
    if counts not in ((1, 1), (2, 2)):
        raise NoBoard(f"a row of the core has {max(0, counts[0])} words in{beside} and {counts[1]} out; a board takes "
                      "two of each, left and right, or one of each, for a core for each channel"
                      + ("" if controls else "; --control N makes the last N words in control words"))
    if not all(words.is_signed() for words in core.inputs[:counts[0]]):
        raise NoBoard("an input of the core is a truth value, and no word of audio")


def check_serial(board: Board, audio: Audio) -> None:
    """Raises where the clock of a board can't read so many bits a second."""
    clocks = audio.serial_clocks(board)
    if audio.controls > MOST_WORDS:
        raise NoBoard(f"--control {audio.controls}: the serial line has {MOST_WORDS} control words at most")
    if clocks < SERIAL_CLOCKS or abs(board.hertz / audio.baud / clocks - 1) > SERIAL_OFF:
        raise NoBoard(f"--baud {audio.baud}: an {board.name} reads up to {board.hertz // SERIAL_CLOCKS:,} bits a "
                      f"second, of a whole number of clocks up to {SERIAL_OFF:.0%}")


def out_width(core: Core, audio: Audio) -> int:
    """The bits of an output word of the core."""
    port = max(words.signed_bits() for words in core.outputs)
    if audio.out_bits is not None and audio.out_bits < port:
        raise NoBoard(f"--output {audio.out_bits}: an output of the core has {port} bits")
    return audio.out_bits or port


# The top


def to_core(word: str, bits: int, width: int) -> str:
    """A word of the line as a word of the core: its highest bits, or with zeros below."""
    if bits == width:
        return word
    return f"{word}[{bits - 1}:{bits - width}]" if bits > width else f"{{{word}, {width - bits}'d0}}"


def to_line(port: str, words: Range, width: int, bits: int) -> str:
    """A port of the core as a word of the line."""
    own = words.bits()
    sign = f"{port}[{own - 1}]" if words.is_signed() else "1'b0"
    full = f"{{{{{width - own}{{{sign}}}}}, {port}}}" if width > own else port
    if width <= bits:
        return f"{{{full}, {bits - width}'d0}}" if width < bits else full
    kept = f"{port}[{own - 1}:{width - bits}]"
    return kept if width == own else f"{{{{{width - own}{{{sign}}}}}, {kept}}}"


def control_width(core: Core, controls: int) -> int:
    """The bits of the widest control word."""
    return max(LEAST_CONTROL_BITS, *(words.bits() for words in controls_of(core, controls)))


def controls_of(core: Core, controls: int) -> list[Range]:
    """The control words of a core: the last ones of its rows."""
    return core.inputs[len(core.inputs) - controls:]


def control_text(board: Board, core: Core, audio: Audio) -> str:
    """The receiver of control words, and each of them as the core takes it."""
    if not audio.controls:
        return ""
    clocks, width = audio.serial_clocks(board), control_width(core, audio.controls)
    wires = "".join(f"    wire [{words.bits() - 1}:0] control_{place} = "
                    f"controls[{place * width + words.bits() - 1}:{place * width}];\n"
                    for place, words in enumerate(controls_of(core, audio.controls)))
    return f"""\
    wire [7:0] byte_in;
    wire byte_came;
    wire [{audio.controls * width - 1}:0] controls;
    silc_uart #(.CLOCKS({clocks}), .BITS({clocks.bit_length()})) uart (.clk(clk), .rst(rst), .line(serial),
        .word(byte_in), .came(byte_came));
    silc_control #(.WORDS({audio.controls}), .BITS({width})) control (.clk(clk), .rst(rst), .word(byte_in),
        .came(byte_came), .words(controls));
{wires}"""


def instance(core: Core, name: str, channels: list[str], bits: int) -> str:
    """A core with the words of one channel, or of two."""
    ports = [f".clk(clk), .rst(rst), .in_valid(in_valid), .in_ready({name}_ready)",
             f".out_valid({name}_valid), .out_ready(1'b1)",
             f".active({name}_active), .fault({name}_fault)"]
    ports += [f".in_{place}({to_core(channel, bits, core.inputs[place].bits())}), .out_{place}({channel}_word)"
              for place, channel in enumerate(channels)]
    ports += [f".in_{place + len(channels)}(control_{place})" for place in range(len(core.inputs) - len(channels))]
    wires = "".join(f"    wire [{core.outputs[place].bits() - 1}:0] {channel}_word;\n"
                    for place, channel in enumerate(channels))
    joined = ",\n        ".join(ports)
    return (f"{wires}    wire {name}_ready, {name}_valid, {name}_active, {name}_fault;\n"
            f"    {core.name} {name} (\n        {joined});\n")


def cores_text(core: Core, audio: Audio) -> str:
    """The core, or one for each channel, and the words that wait to be sent."""
    channels = ["left", "right"]
    owns = ({"stereo": channels} if len(core.inputs) - audio.controls == 2
            else {f"{channel}_core": [channel] for channel in channels})
    first, width = next(iter(owns)), out_width(core, audio)
    sent = ", ".join(to_line(f"{channel}_word", core.outputs[place % len(core.outputs)], width, audio.bits)
                     for place, channel in enumerate(channels))
    return "".join(instance(core, name, own, audio.bits) for name, own in owns.items()) + (
        f"    assign in_ready = {first}_ready;\n    wire fault = {' || '.join(f'{name}_fault' for name in owns)};\n"
        f"    always @(posedge clk)\n        if (rst) {{left_out, right_out}} <= {2 * audio.bits}'d0;\n"
        f"        else if ({first}_valid) {{left_out, right_out}} <= {{{sent}}};\n")


MASTER_LINES = """\
    wire sclk, falls;
    reg sent;
    silc_i2s_clocks clocks (.clk(clk), .sclk(sclk), .lrck(lrck), .rises(rises), .falls(falls));
    assign line = adc_data;
    always @(posedge clk) if (falls) sent <= line_out;
    assign {dac_mclk, dac_lrck, dac_sclk, dac_data} = {clk, lrck, sclk, sent};
    assign {adc_mclk, adc_lrck, adc_sclk} = {clk, lrck, sclk};
"""
SLAVE_LINES = """\
    silc_i2s_lines lines (.clk(clk), .sclk(adc_sclk), .lrck(adc_lrck), .line(adc_data), .rises(rises), .lrck_then(lrck),
        .line_then(line));
    assign {dac_mclk, dac_lrck, dac_sclk, dac_data} = {clk, adc_lrck, adc_sclk, line_out};
    assign adc_mclk = clk;
"""


def top_text(board: Board, core: Core, audio: Audio) -> str:
    """The module with the pins of the board."""
    clocks = "output" if audio.is_master() else "input"
    button = "    input wire button_n,      // begins a new run\n" if board.button else ""
    serial = f"    input wire serial,        // control words, {audio.baud:,} bits a second\n" if audio.controls else ""
    low = "!" if board.is_light_low else ""
    return f"""\
// {core.name} between a receiver and a transmitter of serial audio, as {audio.role}, made by tools/board for:
// {board.says}
// It needs {', '.join(['silc_parts.v', SERIAL, *[UART] * bool(audio.controls)])} and {core.name}.v.
`default_nettype none
module {TOP} (
    input wire clk,           // {board.hertz / 1e6:g} MHz
{button}{serial}    output wire dac_mclk,
    output wire dac_lrck,
    output wire dac_sclk,
    output wire dac_data,
    output wire adc_mclk,
    {clocks} wire adc_lrck,
    {clocks} wire adc_sclk,
    input wire adc_data,
    output wire lost,         // a light: a row was lost, or an address was outside of its memory
    output wire running       // a light: the core is ready
);
    wire rst, rises, lrck, line, line_out, row, in_valid, in_ready, is_lost;
    wire [{audio.bits - 1}:0] left, right;
    reg [{audio.bits - 1}:0] left_out, right_out;
    // A reset fills the core's memories, and what comes before that is no row.
    reg is_ready;
    always @(posedge clk) is_ready <= !rst && (is_ready || in_ready);
    silc_reset resets (.clk(clk), .pressed({'!button_n' if board.button else "1'b0"}), .rst(rst));
{MASTER_LINES if audio.is_master() else SLAVE_LINES}\
    silc_i2s #(.BITS({audio.bits})) audio (.clk(clk), .rst(rst), .rises(rises), .lrck(lrck), .line(line),
        .line_out(line_out), .left(left), .right(right), .row(row), .left_out(left_out), .right_out(right_out));
    silc_rows rows (.clk(clk), .rst(rst), .row(row && is_ready), .in_ready(in_ready), .in_valid(in_valid),
        .lost(is_lost));
{control_text(board, core, audio)}{cores_text(core, audio)}\
    assign lost = {low}(is_lost || fault);
    assign running = {low}is_ready;
endmodule
`default_nettype wire
"""


# The bench


def host_text(audio: Audio) -> str:
    """A host at the serial line, and what tells the rows that the core takes."""
    if not audio.controls:
        return HOST_NONE
    words = "".join(f", board.control_{place}" for place in range(audio.controls))
    return HOST_TEXT.format(bytes=BYTES, bit=round(STEPS / audio.baud), stop=LINE_BITS - 2,
                            form=",%0d" * audio.controls, words=words)


def codec_text(board: Board, audio: Audio) -> str:
    """A codec beside the board, which knows the lines alone."""
    half_clock, half_bit = round(STEPS / board.hertz / 2), round(STEPS / audio.rate / FRAME_BITS / 2)
    own = "    wire lrck, sclk;\n" if audio.is_master() else f"""\
    reg lrck, sclk;
    integer bit;
    initial begin
        {{sclk, lrck}} = 2'd1;
        bit = 0;
        forever begin
            #{half_bit} sclk = 1'b1;
            #{half_bit} sclk = 1'b0;
            bit = (bit + 1) % {FRAME_BITS};
            lrck = bit >= {FRAME_BITS // 2};
        end
    end
"""
    pins = ", .button_n(1'b1)" * bool(board.button) + ", .serial(serial)" * bool(audio.controls)
    adc = ", .adc_lrck(), .adc_sclk()" if audio.is_master() else ", .adc_lrck(lrck), .adc_sclk(sclk)"
    dac = ", .dac_lrck(lrck), .dac_sclk(sclk)" if audio.is_master() else ", .dac_lrck(), .dac_sclk()"
    low = "!" if board.is_light_low else ""
    return CODEC_TEXT.format(bits=audio.bits, own=own, pins=pins + adc + dac, half=half_clock, running=f"{low}running",
                             lost=f"{low}lost", host=host_text(audio), samples=SAMPLES)


HOST_NONE = """\
    wire is_sent = 1'b1;
"""
HOST_TEXT = """\
    // A host at the serial line: each byte of {bytes} is sent once the row that stands before it was taken. All rows
    // that are taken are printed, as words without a sign.
    reg serial, is_sent;
    integer list, count, from_row, value, place, taken;
    initial begin
        list = $fopen("{bytes}", "r");
        {{serial, is_sent}} = 2'b10;
        taken = 0;
        count = $fscanf(list, "%d,%d", from_row, value);
        while (count == 2) begin
            while (taken <= from_row) @(negedge clk);
            serial = 1'b0;
            for (place = 0; place <= {stop}; place = place + 1) #{bit} serial = place == {stop} || value[place];
            #{bit} count = $fscanf(list, "%d,%d", from_row, value);
        end
        is_sent = 1'b1;
    end
    always @(posedge clk) if (board.in_valid === 1'b1 && board.in_ready === 1'b1) begin
        $display("took %0d,%0d{form}", board.left, board.right{words});
        taken = taken + 1;
    end
"""
CODEC_TEXT = """\
// A codec beside the board, made by tools/board: it sends the rows of {samples}, a left and a right word each, and
// prints those that it is sent. It changes its line where SCLK falls and reads the other where SCLK rises. At the end
// it says how many clocks the core had waited at least when a row came, and whether a row was lost.
module codec_tb;
    localparam BITS = {bits}, HALF = 32, FRAMES_BEHIND = 3;
    reg clk, adc_data;
    wire dac_data, running, lost;
{own}    board board (.clk(clk), .dac_mclk(), .adc_mclk(), .dac_data(dac_data), .adc_data(adc_data), .running(running),
        .lost(lost){pins});

    integer samples, found, left, right, sent, received, frames_left, waited, spare;
    reg signed [BITS-1:0] to_send, got, got_left;
    reg last_lrck, read_lrck, is_running, last_bit;
{host}
    initial begin
        samples = $fopen("{samples}", "r");
        clk = 1'b0;
        adc_data = 1'b0;
        last_lrck = 1'b1;
        read_lrck = 1'b1;
        is_running = 1'b0;
        sent = 0;
        received = 0;
        frames_left = FRAMES_BEHIND;
        left = 0;
        right = 0;
        waited = 0;
        spare = 1 << 30;
        forever #{half} clk = !clk;
    end

    always @(posedge clk) begin
        waited = board.in_ready === 1'b1 ? waited + 1 : 0;
        if (is_running && board.row === 1'b1 && waited < spare) spare = waited;
    end

    // Behind an edge of LRCK comes the last bit of a word that fills its half, and then the bits of the next.
    always @(negedge sclk) #1 begin
        sent = sent + 1;
        last_bit = to_send[0];
        if (lrck != last_lrck) begin
            last_lrck = lrck;
            sent = 0;
            if (!lrck) begin
                is_running = {running} === 1'b1;
                if (is_running) begin
                    found = $fscanf(samples, "%d,%d", left, right);
                    if (found != 2) begin
                        left = 0;
                        right = 0;
                        frames_left = frames_left - is_sent;
                    end
                end
            end
            to_send = lrck ? right[BITS-1:0] : left[BITS-1:0];
        end
        adc_data = sent >= 1 && sent <= BITS ? to_send[BITS - sent] : BITS == HALF && last_bit;
    end

    always @(posedge sclk) begin
        received = received + 1;
        if (received <= BITS) got = {{got[BITS-2:0], dac_data}};
        if (received == BITS) begin
            if (!read_lrck) got_left = got;
            else if (is_running) $display("row %0d,%0d", got_left, got);
            if (read_lrck && frames_left <= 0) begin
                $display("spare %0d", spare);
                if ({lost} === 1'b1) $display("lost");
                $finish;
            end
        end
        if (lrck != read_lrck) begin
            read_lrck = lrck;
            received = 0;
        end
    end
endmodule
"""
