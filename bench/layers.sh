#!/bin/sh
# Times layers in one run: the machine in instructions a second on loops of arithmetic, byte strings and storage, each
# run spending a whole budget of 11,200 on instructions that cost 1; the lexer on sources of 256, 512 and 1024 KiB;
# `call` on sources of 64 KiB to 1 MiB in four shapes, which it reads, checks whole and refuses or doesn't build, beside
# Python's own parser where there is one; and `asm` and `dis` on texts of 10,000, 20,000 and 40,000 lines. The times are
# no part of the gate.
here=$(CDPATH='' cd -- "$(dirname -- "$0")/.." && pwd) || exit 1
crate=$here/crates/layer_bench
program=$crate/out/layer_bench
work=$(mktemp -d) || exit 1
trap 'rm -rf "$work"' EXIT

# The programs are built anew where a source is newer.
is_current() {
    [ -x "$program" ] || return 1
    newer=$(find "$here/crates" "$here/crates.txt" -name out -prune -o -name must-fail -prune -o -type f -newer "$program" -print | head -n 1)
    [ -z "$newer" ]
}
is_current || { (cd "$crate" && rt run) >/dev/null && touch "$program"; } || exit 1
"$here/puya" >/dev/null # it ends with 2, and is built then
puya=$here/crates/puya_cli/out/puya_cli

now() {
    date +%s%N
}

# Times a command: TIMED are the milliseconds.
timed() {
    began=$(now)
    "$@" >"$work/printed" || exit 1
    ended=$(now)
    TIMED=$(((ended - began) / 1000000))
}

# Prints the time of a size, and how it grew where the half of it was timed before.
grown() {
    if [ "$2" -gt 0 ]; then
        echo "  $1 milliseconds, $(($1 * 100 / $2)) percent of the half"
    else
        echo "  $1 milliseconds"
    fi
}

rounds=${1:-200}
for name in arithmetic bytes storage; do
    timed "$program" "$name" "$rounds"
    cat "$work/printed"
    echo "  $((TIMED * 1000 / rounds)) microseconds a run, $((rounds * 11200 * 1000 / (TIMED + 1))) instructions a second"
done

before=0
for kib in 256 512 1024; do
    timed "$program" tokens "$kib"
    cat "$work/printed"
    grown "$TIMED" "$before"
    before=$TIMED
done

# A source of at most so many KiB in a shape, one that is checked whole:
# - functions: functions with branches, loops, calls and operators, which break no rule;
# - late: the same, and a last one that breaks a rule;
# - body: one function with a long body;
# - names: constants and functions of one statement, each named once.
source_of() {
    awk -v shape="$1" -v most="$(($2 * 1024))" '
        function piece(i) {
            if (shape == "names")
                return sprintf("c%d = %d\n@subroutine\ndef f%d(a: UInt64) -> UInt64:\n", i, i, i) \
                    (i == 0 ? "    return a + c0\n" : sprintf("    return f%d(a) + c%d\n", i - 1, i))
            if (shape == "body") return statements()
            return sprintf("\n\n@subroutine\ndef f%d(a: UInt64, b: Bytes) -> UInt64:\n", i) \
                "    # what follows is checked and not compiled\n    total = a\n" \
                "    for x in urange(10):\n        if x < total and not a == 0:\n            total += x ** 2\n" \
                statements() \
                sprintf("    return f%d(total, b[1:2]) if total > 5 else UInt64(%d)\n", i == 0 ? 0 : i - 1, i)
        }
        function statements() {
            return "    total = total * 3 + (a << 2) % 7\n" \
                "    if total > 5 and not a == 0:\n        total += a ** 2\n" \
                "    elif b[total:] == b\"\\x00abc\":\n        total = a\n" \
                "    else:\n        total -= op.bitlen(b)\n" \
                "    while total > 100:\n        total //= 2\n        if total == a:\n            break\n" \
                "    log(b, total)\n"
        }
        # What stands behind so many pieces.
        function tail(n) {
            if (shape == "names") return contract(sprintf("f%d(UInt64(1))", n - 1))
            if (shape == "body") return "    return total\n" contract("f(UInt64(1), Bytes(b\"a\"))")
            if (shape == "late")
                return "\n\n@subroutine\ndef last(a: UInt64, b: Bytes) -> UInt64:\n    return a + b\n" \
                    contract("last(UInt64(1), Bytes(b\"a\"))")
            return contract(sprintf("f%d(UInt64(1), Bytes(b\"a\"))", n - 1))
        }
        function contract(value) {
            return "\n\nclass T(Contract):\n    def approval_program(self) -> UInt64:\n        return " value \
                "\n    def clear_state_program(self) -> UInt64:\n        return UInt64(1)\n"
        }
        BEGIN {
            text = "from algopy import Bytes, Contract, UInt64, log, op, subroutine, urange\n"
            if (shape == "body") text = text "@subroutine\ndef f(a: UInt64, b: Bytes) -> UInt64:\n    total = a\n"
            size = 0
            for (i = 0; size + length(text) + length(tail(i)) <= most; i++) {
                printf "%s", text
                size += length(text)
                text = piece(i)
            }
            printf "%s", tail(i - 1)
        }'
}

# Times `call` on a source, which ends it with the status of sources that are refused or not built.
called() {
    began=$(now)
    status=0
    "$puya" call "$1" absent >printed || status=$?
    ended=$(now)
    [ "$status" -eq 3 ] || { cat printed; exit 1; }
    TIMED=$(((ended - began) / 1000000))
}

cd "$work" || exit 1
for shape in functions late body names; do
    before=0
    for kib in 64 128 256 512 1024; do
        source_of "$shape" "$kib" >"$shape$kib.py"
        called "$shape$kib.py"
        echo "call of $(wc -c <"$shape$kib.py") bytes: $(cat printed)"
        grown "$TIMED" "$before"
        before=$TIMED
        if command -v python3 >/dev/null; then
            timed python3 -c "import ast, sys; ast.parse(open(sys.argv[1]).read())" "$shape$kib.py"
            echo "  python3 parses it in $TIMED milliseconds, its start included"
        fi
    done
done

# A text of so many lines: a label, constants of each kind, an operation and a branch to the label before.
text_of() {
    awk -v lines="$1" 'BEGIN {
        print "#pragma version 10"
        for (i = 0; 8 * i + 9 <= lines; i++) {
            printf "block%d:\npushint %d\npushbytes 0x%08x // bytes\npushbytes \"text %d\"\nconcat\npop\n", i, i * 7919, i, i
            printf "frame_dig -1\nbnz block%d\n", i
        }
    }'
}

for lines in 10000 20000 40000; do
    text_of "$lines" >"$lines.teal"
    timed "$puya" asm "$lines.teal"
    echo "asm of $(wc -l <"$lines.teal") lines: $(cat printed)"
    grown "$TIMED" "${asm_before:-0}"
    asm_before=$TIMED
    timed "$puya" dis "$lines.teal.bin"
    echo "dis of it: $(wc -l <printed) lines"
    grown "$TIMED" "${dis_before:-0}"
    dis_before=$TIMED
done
