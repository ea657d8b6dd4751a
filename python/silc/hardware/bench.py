"""The bench of a core: it puts rows of a file in, prints each row that comes out, and compares it with those of
another."""
from .netlist import Core
from .words import Range

TEXT = """\
// A bench for {name}, made by tools/verilog. It puts the rows of samples.txt into the core and compares what comes \
out with
// expected.txt, or with files named by +samples= and +expected=; with +rows_alone it compares nothing. It waits up to
// +in_wait= clocks before it offers a row and up to +out_wait= before it takes one, drawn anew each time from +seed=, \
and
// resets the core once after +reset_after= rows, when all rows are to come again. +vcd= makes a file of waveforms. It \
prints
// each row, a fault with its cycle, and last `passed N rows` or `failed`.{queues_say}
module {name}_tb;
    localparam PERIOD = {period}, PATIENCE = 40 * PERIOD + {patience}, STEPS_A_DRAW = 8;
    reg clk, rst, in_valid, out_ready;
    wire in_ready, out_valid, active, fault;
{declarations}
    {name} core (
        .clk(clk), .rst(rst), .in_valid(in_valid), .in_ready(in_ready), .out_valid(out_valid), .out_ready(out_ready),
        .active(active), .fault(fault){ports});

    reg [8*512-1:0] samples_name, expected_name, vcd_name;
    integer samples, expected, in_wait, out_wait, reset_after;
    integer in_left, out_left, taken, put, quiet, patience, cycles, found, resets, failures;
    reg is_over, was_fault, is_comparing;
    reg [31:0] random;

    task draw(input integer most, output integer clocks);
        integer k;
        begin
            for (k = 0; k < STEPS_A_DRAW; k = k + 1)
                random = {{random[30:0], random[31] ^ random[21] ^ random[1] ^ random[0]}};
            clocks = most == 0 ? 0 : {{1'b0, random[30:0]}} % (most + 1);
        end
    endtask

    // The next row of samples, if there is one.
    task read_row;
        begin
            found = $fscanf(samples, "{in_format}", {in_words});
            is_over = found != {in_count};
        end
    endtask

    task compare_row;
        begin
            found = $fscanf(expected, "{out_format}", {out_words});
            if (found != {out_count} || {differs}) begin
                $display("row %0d is not as expected", put);
                failures = failures + 1;
            end
        end
    endtask

    task start;
        begin
            samples = $fopen(samples_name, "r");
            if (samples == 0) begin
                $display("failed: no samples");
                $finish;
            end
            expected = 0;
            if (is_comparing) expected = $fopen(expected_name, "r");
            if (is_comparing && expected == 0) begin
                $display("failed: no expected rows");
                $finish;
            end
            taken = 0;
            put = 0;
            quiet = 0;
            cycles = 0;
            was_fault = 1'b0;
            read_row;
            draw(in_wait, in_left);
            draw(out_wait, out_left);
        end
    endtask

    task stop;
        begin
            if (is_comparing && failures == 0) begin
                found = $fscanf(expected, "{out_format}", {out_words});
                if (found > 0 && !fault) begin
                    $display("expected rows are left");
                    failures = failures + 1;
                end
            end
            if (failures == 0) $display("passed %0d rows", put);
            else $display("failed");
            $finish;
        end
    endtask

    initial begin
        if (!$value$plusargs("samples=%s", samples_name)) samples_name = "samples.txt";
        if (!$value$plusargs("expected=%s", expected_name)) expected_name = "expected.txt";
        if (!$value$plusargs("in_wait=%d", in_wait)) in_wait = 0;
        if (!$value$plusargs("out_wait=%d", out_wait)) out_wait = 0;
        if (!$value$plusargs("reset_after=%d", reset_after)) reset_after = 0;
        if (!$value$plusargs("seed=%d", random)) random = 32'd1;
        patience = PATIENCE + in_wait + out_wait;
{queue_waits}        is_comparing = !$test$plusargs("rows_alone");
        if ($value$plusargs("vcd=%s", vcd_name)) begin
            $dumpfile(vcd_name);
            $dumpvars(0, {name}_tb);
        end
        resets = 0;
        failures = 0;
        clk = 1'b0;
        forever #5 clk = !clk;
    end

    reg [1:0] begun;
    initial begin
        begun = 2'd0;
        rst = 1'b1;
        in_valid = 1'b0;
        out_ready = 1'b0;
    end

    // All happens at the falling edge, between two edges of the core. What it offered since the last one was taken or \
put at
    // the rising edge between, where `moved` saw it.
    reg took, gave, was_active;
    always @(posedge clk) begin
        took <= in_valid && in_ready === 1'b1;
        gave <= out_valid === 1'b1 && out_ready;
        was_active <= active === 1'b1;
{row_copies}    end

    always @(negedge clk) begin
        if (begun != 2'd2) begin
            begun = begun + 2'd1;
            if (begun == 2'd2) begin
                rst = 1'b0;
                start;
            end
        end else if (rst) begin
            rst = 1'b0;
            start;
        end else begin
            if (was_active) cycles = cycles + 1;
            quiet = took || gave ? 0 : quiet + 1;
            if (took) begin
                taken = taken + 1;
                in_valid = 1'b0;
                read_row;
                draw(in_wait, in_left);
            end
            if (gave) begin
                $display("row {shown}"{shown_words});
                if (is_comparing) compare_row;
                put = put + 1;
                out_ready = 1'b0;
                draw(out_wait, out_left);
            end
            if (fault && !was_fault) $display("fault at cycle %0d", cycles - 1);
            was_fault = fault;
            if (!in_valid && !is_over) begin
                if (in_left == 0) begin
                    in_valid = 1'b1;
{offers}                end else in_left = in_left - 1;
            end
            if (!out_ready && out_left == 0) out_ready = 1'b1;
            else if (!out_ready && out_valid) out_left = out_left - 1;
            if (reset_after > 0 && resets == 0 && put >= reset_after) begin
                $display("reset");
                resets = 1;
                $fclose(samples);
                if (is_comparing) $fclose(expected);
                rst = 1'b1;
                in_valid = 1'b0;
                out_ready = 1'b0;
            end else if (is_over && put == taken || quiet > patience) begin
                if (put != taken && !fault) begin
                    $display("no row came in %0d clocks", patience);
                    failures = failures + 1;
                end
                stop;
            end
        end
    end
endmodule
"""


# What a bench of a net has more: its queues wait too, all of those on the longest way for one row.
QUEUES_SAY = """
// With SILC_WAITS defined each row waits up to +queue_wait= clocks in each queue."""
QUEUE_WAITS = """\
        if (!$value$plusargs("queue_wait=%d", found)) found = 0;
        patience = patience + {queues} * found;
"""


def bench_of(core: Core, fill_last: int, queues: int = 0) -> str:
    """The text of the bench of a core, whose longest fill has so many clocks; or of a net, with so many queues on a
    way."""
    ins, outs = range(len(core.inputs)), range(len(core.outputs))

    def signal(kind: str, words: Range, name: str) -> str:
        return f"    {kind}{' signed' if words.is_signed() else ''} [{words.bits() - 1}:0] {name};\n"

    return TEXT.format(
        name=core.name, period=core.period, patience=fill_last + 100, queues_say=QUEUES_SAY if queues else "",
        queue_waits=QUEUE_WAITS.format(queues=queues) if queues else "",
        declarations="".join([*(signal("reg", core.inputs[j], f"in_{j}") for j in ins),
                              *(signal("wire", core.outputs[j], f"out_{j}") for j in outs),
                              *(f"    reg signed [63:0] in_word_{j};\n" for j in ins),
                              *(f"    reg signed [63:0] out_word_{j}, row_word_{j};\n" for j in outs)]),
        ports="".join([*(f", .in_{j}(in_{j})" for j in ins), *(f", .out_{j}(out_{j})" for j in outs)]),
        in_format=",".join(["%d"] * len(ins)), in_words=", ".join(f"in_word_{j}" for j in ins), in_count=len(ins),
        out_format=",".join(["%d"] * len(outs)), out_words=", ".join(f"out_word_{j}" for j in outs),
        out_count=len(outs), differs=" || ".join(f"out_word_{j} != row_word_{j}" for j in outs),
        shown=",".join(["%0d"] * len(outs)), shown_words="".join(f", row_word_{j}" for j in outs),
        row_copies="".join(f"        row_word_{j} <= out_{j};\n" for j in outs),
        offers="".join(f"                    in_{j} = in_word_{j}[{core.inputs[j].bits() - 1}:0];\n" for j in ins))
