#!/usr/bin/env bash
# Makes small machines in a new folder, with keys of their own and the tools of vboot_reference, as Debian packages them
# (vboot-utils, vboot-kernel-utils, cgpt, openssl, python3):
#
#     real_machine.sh FOLDER
#
# FOLDER/keys              the keys and keyblocks
# FOLDER/parts             what the images are put together from
# FOLDER/good              a machine of which every signature is right
# FOLDER/hurt              the same, with a byte of a signature changed in slot A and one in the kernel of partition 2
# FOLDER/old-firmware      the same, but the TPM has seen a newer firmware than both slots have
# FOLDER/old-kernels       the same, but the TPM has seen a newer kernel than both of the disk
# FOLDER/own-kernel        the same, with a kernel in partition 2 that the owner signed with a key of their own
#
# Each machine is six files, as docs/vboot_tool.1 names them: run vboot_tool in its folder. docs/examples.md walks through them.
set -euo pipefail
verdicts=$(cd "$(dirname "$0")" && pwd)/verdicts.py
[ $# -eq 1 ] || { echo "usage: $0 FOLDER" >&2; exit 1; }
mkdir "$1"
cd "$1"
mkdir keys parts good
quiet() { "$@" >>parts/log 2>&1 || { echo "failed: $*" >&2; tail -n 3 parts/log >&2; exit 1; }; }

# ---- keys

# key NAME BITS HASH: a key pair of version 1; HASH is 2 for SHA-256, 3 for SHA-512
key() {
    quiet openssl genrsa -F4 -out "keys/$1.pem" "$2"
    quiet futility --vb1 create --version 1 --hash_alg "$3" "keys/$1.pem" "keys/$1"
}

# keyblock NAME SIGNER FLAGS: the public key NAME, signed by SIGNER. Flags: 1 developer mode off, 2 on, 4 no recovery, 8 recovery
keyblock() {
    quiet vbutil_keyblock --pack "keys/$1.keyblock" --datapubkey "keys/$1.vbpubk" --signprivate "keys/$2.vbprivk" --flags "$3"
}

key root 4096 3
key recovery 4096 3
key firmware_data 2048 2
key kernel_subkey 2048 2
key kernel_data 2048 2
key recovery_kernel_data 2048 3
key owner 2048 2
keyblock firmware_data root 7
keyblock kernel_data kernel_subkey 7
keyblock recovery_kernel_data recovery 11
keyblock owner owner 7

# ---- the flash: a map, a GBB, two slots, and an erased RW_NVRAM, which stands for the blank nvdata record

le32() { printf '%b' "$(printf '\\x%02x\\x%02x\\x%02x\\x%02x' $(($1 & 255)) $(($1 >> 8 & 255)) $(($1 >> 16 & 255)) $(($1 >> 24)))"; }
name32() { printf '%s' "$1"; head -c $((32 - ${#1})) /dev/zero; }
area() { le32 "$2"; le32 "$3"; name32 "$1"; printf '\0\0'; } # area NAME PLACE SIZE

map_at=$((0xe0000))
{
    printf '__FMAP__\001\001'
    le32 0; le32 0; le32 $((0x100000))
    name32 FLASH
    printf '\007\000'
    area VBLOCK_A 0 $((0x10000))
    area FW_MAIN_A $((0x10000)) $((0x50000))
    area VBLOCK_B $((0x60000)) $((0x10000))
    area FW_MAIN_B $((0x70000)) $((0x50000))
    area RW_NVRAM $((0xc0000)) $((0x4000))
    area FMAP $map_at $((0x1000))
    area GBB $((0xe1000)) $((0x3000))
} >parts/map
quiet futility gbb -c 0x100,0x1000,0,0x1000 parts/gbb
quiet futility gbb -s --hwid 'OWN TEST 1' --flags 0 --rootkey keys/root.vbpubk --recoverykey keys/recovery.vbpubk parts/gbb

# slot NAME LENGTH VERSION: a firmware of so many bytes, which here are lines of text, and its signed vblock
slot() {
    seq -f "firmware $1 %.0f" 30000 | head -c "$2" >"parts/main_$1" || true
    quiet vbutil_firmware --vblock "parts/vblock_$1" --keyblock keys/firmware_data.keyblock --signprivate keys/firmware_data.vbprivk \
        --version "$3" --fv "parts/main_$1" --kernelkey keys/kernel_subkey.vbpubk --flags 0
}
slot A 200000 2
slot B 180000 2
head -c $((0x100000)) /dev/zero | tr '\0' '\377' >good/flash.bin
put() { dd if="$1" of="$2" bs=512 seek=$(($3 / 512)) conv=notrunc status=none; } # put PART IMAGE PLACE
put parts/map good/flash.bin $map_at
quiet futility load_fmap good/flash.bin GBB:parts/gbb \
    VBLOCK_A:parts/vblock_A FW_MAIN_A:parts/main_A VBLOCK_B:parts/vblock_B FW_MAIN_B:parts/main_B

# ---- the disk and the stick

# kernel NAME KEY VERSION: a signed kernel partition. A Linux kernel is put in with --vmlinuz bzImage --arch x86
kernel() {
    seq -f "kernel $1 %.0f" 30000 | head -c 300000 >"parts/vmlinuz_$1" || true
    echo 'console=tty1' >parts/config
    echo 'no bootloader' >parts/bootloader
    quiet vbutil_kernel --pack "parts/kernel_$1" --keyblock "keys/$2.keyblock" --signprivate "keys/$2.vbprivk" --version "$3" \
        --vmlinuz "parts/vmlinuz_$1" --config parts/config --bootloader parts/bootloader --arch arm
}
kernel A kernel_data 3
kernel B kernel_data 2
kernel stick recovery_kernel_data 1
kernel owner owner 9

# drive IMAGE BYTES: an empty table; partition IMAGE NUMBER SECTOR LABEL PRIORITY PART: a kernel of 1 MiB with five tries
drive() { truncate -s "$2" "$1"; quiet cgpt create "$1"; quiet cgpt boot -p "$1"; }
partition() {
    quiet cgpt add -i "$2" -b "$3" -s 2048 -t kernel -l "$4" -P "$5" -T 5 -S 0 "$1"
    put "parts/$6" "$1" $(($3 * 512))
}
drive good/disk.img 4M
partition good/disk.img 2 64 KERN-A 2 kernel_A
partition good/disk.img 4 2112 KERN-B 1 kernel_B
drive good/stick.img 2M
partition good/stick.img 2 64 KERN-A 1 kernel_stick

# ---- the two spaces of the TPM: bytes in hexadecimal, and their CRC-8

space() { # space FILE BYTE..
    local file=$1 crc=0 byte
    shift
    for byte in "$@"; do
        crc=$((crc ^ 0x$byte))
        for _ in 1 2 3 4 5 6 7 8; do crc=$(((crc << 1 ^ (crc >> 7) * 0x107) & 0xff)); done
    done
    printf '%b' "$(printf '\\x%s' "$@" "$(printf %02x $crc)")" >"$file"
}
space good/tpm_fw.bin 02 00 01 00 01 00 00 00 00
space good/tpm_kernel.bin 02 4c 57 52 47 01 00 01 00 00 00 00

# ---- the other machines

flip() { # flip IMAGE PLACE: another byte there
    local byte
    byte=$(od -An -tu1 -j "$2" -N 1 "$1")
    printf '%b' "$(printf '\\x%02x' $((byte ^ 1)))" | dd of="$1" bs=1 seek="$2" conv=notrunc status=none
}
for machine in hurt old-firmware old-kernels own-kernel; do cp -r good $machine; done
# the last byte of a keyblock is one of its signature
flip hurt/flash.bin $(($(stat -c %s keys/firmware_data.keyblock) - 1))
flip hurt/disk.img $((64 * 512 + $(stat -c %s keys/kernel_data.keyblock) - 1))
space old-firmware/tpm_fw.bin 02 00 03 00 01 00 00 00 00
space old-kernels/tpm_kernel.bin 02 4c 57 52 47 04 00 01 00 00 00 00
put parts/kernel_owner own-kernel/disk.img $((64 * 512))

for machine in good hurt old-firmware old-kernels own-kernel; do
    echo "$machine:"
    python3 "$verdicts" --flash $machine/flash.bin --disk $machine/disk.img --stick $machine/stick.img \
        2>&1 >$machine/hook.toml | sed 's/^/    /' || true
    echo "    $(grep -c '^\[\[row\]\]' $machine/hook.toml) rows"
done
