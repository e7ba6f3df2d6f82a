# SPDX-License-Identifier: MIT OR Apache-2.0
# Completions of kat for bash. release/generate.py writes this file from release/templates/kat.bash and the table of commands.

# What the argument at a place after a command is: a file with this suffix, any file, a program of the file, or an option.
_kat_kind() {
    case $1:$2 in
@KINDS@
    esac
}

# The programs that a problem file names.
_kat_programs() {
    cat "$1" 2>/dev/null | @PROGRAMS@
}

_kat() {
    local word=${COMP_WORDS[COMP_CWORD]} commands="@NAMES@" kind file
    COMPREPLY=()
    if [ "$COMP_CWORD" -eq 1 ]; then
        mapfile -t COMPREPLY < <(compgen -W "$commands @SCRIPT@" -- "$word")
        return
    fi
    kind=$(_kat_kind "${COMP_WORDS[1]}" $((COMP_CWORD - 1)))
    case $kind in
    kat | gkat | flow)
        # Where no file has the suffix bash completes the names of all files.
        compopt -o filenames -o default 2>/dev/null
        mapfile -t COMPREPLY < <(compgen -f -X "!*.$kind" -- "$word")
        [ ${#COMPREPLY[@]} -eq 0 ] || mapfile -t -O ${#COMPREPLY[@]} COMPREPLY < <(compgen -d -- "$word")
        ;;
    file)
        compopt -o default 2>/dev/null
        ;;
    program)
        # The word of the file is as it was typed: quotation marks and backslashes go, and ~ is the home.
        file=$(printf '%s\n' "${COMP_WORDS[2]}" | sed "s/\\\\\\(.\\)/\\1/g; s/[\"']//g")
        case $file in "~/"*) file=$HOME/${file#"~/"} ;; esac
        mapfile -t COMPREPLY < <(compgen -W "$(_kat_programs "$file")" -- "$word")
        ;;
    --*)
        mapfile -t COMPREPLY < <(compgen -W "$kind" -- "$word")
        ;;
    esac
}
complete -F _kat kat ./kat
