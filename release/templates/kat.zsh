#compdef kat
# SPDX-License-Identifier: MIT OR Apache-2.0
# Completions of kat for zsh. release/generate.py writes this file from release/templates/kat.zsh and the table of commands.

# What the argument at a place after a command is: a file with this suffix, any file, a program of the file, or an option.
_kat_kind() {
    case $1:$2 in
@KINDS@
    esac
}

# The programs that a problem file names.
_kat_programs() {
    cat "$1" 2>/dev/null | @PROGRAMS@
}

_kat() {
    local -a commands programs
    local kind file
    commands=(
@DESCRIPTIONS@
    )
    if (( CURRENT == 2 )); then
        _describe -t commands command commands
        return
    fi
    kind=$(_kat_kind $words[2] $((CURRENT - 2)))
    case $kind in
    kat | gkat | flow) _files -g "*.$kind" ;;
    file) _files ;;
    program)
        file=${(Q)words[3]}
        programs=(${(f)"$(_kat_programs ${file/#\~\//$HOME/})"})
        compadd -a programs
        ;;
    --*) compadd -- $kind ;;
    *) _message 'no completion' ;;
    esac
}

_kat "$@"
