# shellcheck shell=bash
# All of it again with the sanitizers of addresses and of undefined behaviour: a finding ends the command with status 99.
# No emulator bears them.

export UBSAN_OPTIONS=halt_on_error=1:exitcode=99 ASAN_OPTIONS=exitcode=99:detect_leaks=0

if [[ $RUN ]]; then
    echo "skipped: the command is for $ARCH, and this machine is $(uname -m)"
else
    check 'sanitized: compiled' compile "$T/sanitized.bin" -g "-fsanitize=address,undefined" -fno-sanitize-recover=all
    starter "$BW" "$T/sanitized.bin"
    for part in usage packs scrub lookup objects sheets pmd json; do
        run_part "$part"
    done
    check 'sanitized: random files' batch 0
fi
