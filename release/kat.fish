# SPDX-License-Identifier: MIT OR Apache-2.0
# Completions of kat for fish. release/generate.py writes this file from release/templates/kat.fish and the table of commands.

# What the argument that is written is: a file with this suffix, any file, a program of the file, or an option.
function __kat_kind
    set -l words (commandline -opc)
    test (count $words) -ge 2; or return
    switch "$words[2]:"(math (count $words) - 1)
        case decide:1 check:1 explain:1 replay:1 try:1 batch:1 show:1 outline:1 chain:1 optimise:1 run:1 oneloop:1
            echo -- kat
        case decide:2
            echo -- --json
        case check:2 explain:2 replay:2 try:3 outline:2 chain:2
            echo -- file
        case optimise:2 run:2 oneloop:2
            echo -- program
        case optimise:3
            echo -- --turns
        case gkat:1
            echo -- gkat
        case flow:1
            echo -- flow
    end
end

function __kat_is
    contains -- (__kat_kind; or echo none) $argv
end

# The programs that a problem file names.
function __kat_programs
    set -l words (commandline -opc)
    set -l file (string replace -r '^~/' "$HOME/" -- (string unescape -- $words[3]))
    cat $file 2>/dev/null | sed 's/#.*//' | tr '\n\t' '  ' | grep -oE '(^|[^A-Za-z0-9_])prog +[^ {}();,]+' | sed 's/.* //'
end

complete -c kat -f
complete -c kat -n __fish_use_subcommand -a decide -d 'prints a certificate (0) or a string (1)'
complete -c kat -n __fish_use_subcommand -a check -d 'accepts evidence (0, 1) or rejects it (3)'
complete -c kat -n __fish_use_subcommand -a explain -d 'explains evidence in the words of FILE'
complete -c kat -n __fish_use_subcommand -a replay -d 'prints a string, state by state'
complete -c kat -n __fish_use_subcommand -a try -d 'looks for a store that refutes the goal (1)'
complete -c kat -n __fish_use_subcommand -a batch -d 'decides each goal of FILE, 64 at most'
complete -c kat -n __fish_use_subcommand -a show -d 'prints the problem that decide decides'
complete -c kat -n __fish_use_subcommand -a outline -d 'proves a triple by notes, or checks notes'
complete -c kat -n __fish_use_subcommand -a chain -d 'checks a proof by axioms'
complete -c kat -n __fish_use_subcommand -a optimise -d 'rewrites PROG by at most N steps, or 1,000'
complete -c kat -n __fish_use_subcommand -a run -d 'runs PROG from a store, such as a=12,b=18'
complete -c kat -n __fish_use_subcommand -a oneloop -d 'prints an equivalent program with one loop'
complete -c kat -n __fish_use_subcommand -a gkat -d 'translates guarded programs'
complete -c kat -n __fish_use_subcommand -a flow -d 'prints the question about two flow graphs'
complete -c kat -n __fish_use_subcommand -a bench -d 'decides N generated problems'
complete -c kat -n __fish_use_subcommand -l help -d 'prints the commands'
complete -c kat -n __fish_use_subcommand -l version -d 'prints the version, the kit that proved it and the commit of its sources'
complete -c kat -n __fish_use_subcommand -l program -d 'prints the file that is run'
complete -c kat -n __fish_use_subcommand -l build -d 'in a checkout, proves and builds the program anew and compares it with the release. It needs the Rattle kit'
for suffix in kat gkat flow
    complete -c kat -n "__kat_is $suffix" -k -a "(__fish_complete_suffix .$suffix)"
end
complete -c kat -n '__kat_is file' -F
complete -c kat -n '__kat_is program' -a '(__kat_programs)'
complete -c kat -n '__kat_is --json' -a --json
complete -c kat -n '__kat_is --turns' -a --turns
