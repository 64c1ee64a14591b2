# Completion of the words of vboot_tool for bash. `make install` puts it where bash-completion finds it.
_vboot_tool() {
    local word=${COMP_WORDS[COMP_CWORD]} before=${COMP_WORDS[COMP_CWORD - 1]} words= at=$COMP_CWORD
    local keys='dev_boot_signed_only dev_boot_usb dev_default_boot disable_dev_request fw_ceiling fw_prev_result fw_prev_tried
        fw_result fw_tried fw_try_count fw_try_next hwid kernel_ceiling loc_idx nvram_cleared recovery_request recovery_subcode
        tpm_fwver tpm_kernver'
    COMPREPLY=()
    if [ "$at" = 1 ]; then
        words='boot futility make crossystem migrate cgpt'
    else
        case "${COMP_WORDS[1]}" in
            boot)
                case "$before" in
                    boot) words='recovery enable-dev internal external' ;;
                    recovery) words='enable-dev internal external' ;;
                    enable-dev) words='internal external' ;;
                esac ;;
            futility)
                case "$at" in
                    2) words=show ;;
                    3) words='flash disk stick' ;;
                esac ;;
            crossystem) words=$keys ;;
            cgpt)
                if [ "$at" = 2 ]; then
                    words='create add prioritize repair show find'
                else
                    case "$before" in
                        -t) words='kernel rootfs efi data unused' ;;
                        -i | -b | -s | -u | -l | -S | -T | -P | -A) ;;
                        *)
                            words='disk stick'
                            case "${COMP_WORDS[2]}" in
                                add) words="$words -i -b -s -t -u -l -S -T -P -A" ;;
                                prioritize) words="$words -i -f -P" ;;
                                find) words="$words -t -u -l" ;;
                            esac ;;
                    esac
                fi ;;
        esac
    fi
    mapfile -t COMPREPLY < <(compgen -W "$words" -- "$word")
}
complete -F _vboot_tool vboot_tool
