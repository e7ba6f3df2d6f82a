#compdef kat
# SPDX-License-Identifier: MIT OR Apache-2.0
# Completions of kat for zsh. release/generate.py writes this file from release/templates/kat.zsh and the table of commands.

# What the argument at a place after a command is: a file with this suffix, any file, a program of the file, or an option.
_kat_kind() {
    case $1:$2 in
    decide:1 | check:1 | explain:1 | replay:1 | try:1 | batch:1 | show:1 | outline:1 | chain:1 | optimise:1 | run:1 | oneloop:1) echo kat ;;
    decide:2) echo --json ;;
    check:2 | explain:2 | replay:2 | try:3 | outline:2 | chain:2) echo file ;;
    optimise:2 | run:2 | oneloop:2) echo program ;;
    optimise:3) echo --turns ;;
    gkat:1) echo gkat ;;
    flow:1) echo flow ;;
    esac
}

# The programs that a problem file names.
_kat_programs() {
    cat "$1" 2>/dev/null | sed 's/#.*//' | tr '\n\t' '  ' | grep -oE '(^|[^A-Za-z0-9_])prog +[^ {}();,]+' | sed 's/.* //'
}

_kat() {
    local -a commands programs
    local kind file
    commands=(
        'decide:prints a certificate (0) or a string (1)'
        'check:accepts evidence (0, 1) or rejects it (3)'
        'explain:explains evidence in the words of FILE'
        'replay:prints a string, state by state'
        'try:looks for a store that refutes the goal (1)'
        'batch:decides each goal of FILE, 64 at most'
        'show:prints the problem that decide decides'
        'outline:proves a triple by notes, or checks notes'
        'chain:checks a proof by axioms'
        'optimise:rewrites PROG by at most N steps, or 1,000'
        'run:runs PROG from a store, such as a=12,b=18'
        'oneloop:prints an equivalent program with one loop'
        'gkat:translates guarded programs'
        'flow:prints the question about two flow graphs'
        'bench:decides N generated problems'
        '--help:prints the commands'
        '--version:prints the version, the kit that proved it and the commit of its sources'
        '--program:prints the file that is run'
        '--build:in a checkout, proves and builds the program anew and compares it with the release. It needs the Rattle kit'
    )
    if (( CURRENT == 2 )); then
        _describe -t commands command commands
        return
    fi
    kind=$(_kat_kind $words[2] $((CURRENT - 2)))
    case $kind in
    kat | gkat | flow) _files -g "*.$kind" ;;
    file) _files ;;
    program)
        file=${(Q)words[3]}
        programs=(${(f)"$(_kat_programs ${file/#\~\//$HOME/})"})
        compadd -a programs
        ;;
    --*) compadd -- $kind ;;
    *) _message 'no completion' ;;
    esac
}

_kat "$@"
