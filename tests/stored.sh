# Sourced by tests/lists and tests/expect: the stored lists, tests/lists.d/NAME.hex.

# stored_bytes FILE: writes a stored list's bytes to standard output. Fails, and says why on standard error, where a
# byte is not hexadecimal or the comments spell other bits.
stored_bytes() {
    local text
    text=$(awk -F '  +' '
        function other_bits(    n) {
            for (n = 1; substr(spelled, n, 1) == substr(bits, n, 1); n++) if (n > length(bits)) return ""
            return "the comments spell other bits than the bytes have, from bit " n - 1 " on"
        }
        BEGIN { for (n = 0; n < 16; n++) digit[sprintf("%X", n)] = int(n / 8) int(n / 4) % 2 int(n / 2) % 2 n % 2 }
        /^# +[0-9]/ { gsub(/ /, "", $3); spelled = spelled $3; next }
        /^#/ { next }
        {
            count = split($0, list, " ")
            for (n = 1; n <= count; n++) {
                if (list[n] !~ /^[0-9A-F][0-9A-F]$/) {
                    fault = "line " NR ": " list[n] " is no byte, two digits of 0 to 9 and A to F"
                    exit
                }
                printf "\\x%s", list[n]
                bits = bits digit[substr(list[n], 1, 1)] digit[substr(list[n], 2, 1)]
            }
        }
        END {
            if (fault == "") fault = other_bits()
            if (fault == "") exit 0
            print fault >"/dev/stderr"
            exit 1
        }' "$1") || return
    printf '%b' "$text"
}
