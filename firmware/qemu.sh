# Links programs for the controller and runs them in QEMU: for firmware/test and firmware/measure, which source this file
# at the root of the repository. It sets what is to be done when they end: no emulator is left behind, whatever ended
# them, and one that did not succeed says so in its last line.
out=target/firmware

finish() { # STATUS
    local started
    started=$(jobs -p)
    # shellcheck disable=SC2086 # a number a word
    [ -z "$started" ] || kill $started 2>/dev/null || true
    [ "$1" -eq 0 ] || echo "firmware/$(basename "$0"): failed"
}
trap 'finish $?' EXIT
trap 'exit 130' INT
trap 'exit 143' TERM HUP

# Says which of Debian's packages are missing, and fails.
need_packages() {
    local missing=()
    command -v arm-none-eabi-gcc >/dev/null || missing+=(gcc-arm-none-eabi)
    # a name with a folder is that of a file which the compiler found
    [[ $(arm-none-eabi-gcc -print-file-name=nano.specs 2>/dev/null) == */* ]] || missing+=(libnewlib-arm-none-eabi)
    command -v qemu-system-arm >/dev/null || missing+=(qemu-system-arm)
    [ ${#missing[@]} -eq 0 ] || {
        echo "missing packages: ${missing[*]}" >&2
        exit 1
    }
}

# Links a program with the library as firmware would, within 512 KB of flash and 128 KB of RAM.
link() { # PROGRAM SOURCE...
    arm-none-eabi-gcc -std=c99 -O2 -Wall -Wextra -Werror -mcpu=cortex-m3 -mthumb -ffunction-sections -Iinclude \
        --specs=nano.specs --specs=rdimon.specs -nostartfiles -Wl,--gc-sections,-z,noexecstack -Wl,-Map="$1.map" \
        -T firmware/m3.ld firmware/startup.c "${@:2}" "$out/libstall.a" -o "$1"
}

# Runs a program, with what it prints in PROGRAM.out. An instruction takes a nanosecond of its time.
run() { # PROGRAM [WORDS FOR QEMU...]
    local status=0
    timeout 1800 qemu-system-arm -M mps2-an385 -cpu cortex-m3 -icount shift=0 -display none -monitor none -serial none \
        -semihosting-config enable=on,target=native -kernel "$1" "${@:2}" >"$1.out" </dev/null &
    wait "$!" || status=$?
    [ "$status" -eq 0 ] || {
        tail -n 3 "$1.out"
        echo "$1 ended with status $status" >&2
        return 1
    }
}
