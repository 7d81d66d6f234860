# What the tests of the programs share. Sourced; $tmp is a folder of their own, $samples that of the samples.
# shellcheck shell=bash disable=SC2154
passed=0
failed=0

# check WHAT COMMAND..: counts a command that must succeed.
check() {
    local what=$1
    shift
    if "$@"; then
        passed=$((passed + 1))
    else
        failed=$((failed + 1))
        printf 'FAILED: %s\n  status %s\n  out: %s\n  err: %s\n' "$what" "${status-}" "${out-}" "${err-}"
    fi
}

# run COMMAND..: keeps exit status, standard output and standard error.
run() {
    "$@" >"$tmp/out" 2>"$tmp/err"
    status=$?
    out=$(<"$tmp/out")
    err=$(<"$tmp/err")
}

exits() { [ "$status" -eq "$1" ]; }
says() { [[ $out == *"$1"* ]]; }
says_not() { [[ $out != *"$1"* ]]; }
complains() { [[ $err == *"$1"* ]]; }
matches() { [[ $out =~ $1 ]]; }
same() { [ "$1" = "$2" ]; }
lines() { [ "$(printf '%s\n' "$out" | wc -l)" -eq "$1" ]; }
empty_out() { [ -z "$out" ]; }
empty_err() { [ -z "$err" ]; }

# json FIELD: the field's text in a single JSON line.
json() { sed -n "s/.*\"$1\": \"\\{0,1\\}\\([^\",}]*\\).*/\\1/p" <<<"$out"; }

# padded N [FILE [CODE]]: a file with so many bytes of this octal code behind its end, as $tmp/padded.cdf.
padded() {
    cp "${2:-$samples/02_h_le.cdf}" "$tmp/padded.cdf"
    head -c "$1" /dev/zero | tr '\000' "\\${3:-007}" >>"$tmp/padded.cdf"
}

# field FILE OFFSET NUMBER: puts a field of 4 bytes.
field() {
    # shellcheck disable=SC2059
    printf "$(printf '\\x%02x\\x%02x\\x%02x\\x%02x' $(($3 >> 24 & 255)) $(($3 >> 16 & 255)) $(($3 >> 8 & 255)) $(($3 & 255)))" |
        dd of="$1" bs=1 seek="$2" conv=notrunc status=none
}

done_with() {
    printf '%d passed, %d failed\n' "$passed" "$failed"
    [ "$failed" -eq 0 ]
}
